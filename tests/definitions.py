#!/usr/bin/env python3
"""The pages of specs/ that a reader has to believe, in the order of "What to read, and in which order" of docs/architecture.md.

    definitions.py            prints the pages in that order, with the lines of each and what it is about, and last the lines of all; those
                              of exports, imports and facts are counted apart
    definitions.py --check    tests that section: each page stands in it once, and imports only pages that stand before it; and no public
                              call needs a page of specs/Private/, but for the views that the section names

In an item of the section a crate in backquotes is followed by its pages. Lines are counted without blanks and imports.
"""
import glob
import os
import re
import sys

PAGE = 'docs/architecture.md'
SECTION = '## What to read, and in which order\n'
# Crates whose lines are counted apart.
APART = ('sgb_export', 'sgb_import', 'sgb_info')
# Index files, which hold no definition.
INDEX = ('Lib', 'Private')

# What an item names: a crate, or a page of the last crate before it.
NAMED = re.compile(r'`(\w+)`')
ITEM = re.compile(r'(?ms)^\d+\. (.*?)(?=^\d+\. |\n\n|\Z)')
# An import of a page, with the lines that it takes.
IMPORT = re.compile(r'(?m)^(?:pub )?use (?:Rattle\.(\w+)\.specs\.(\w+))?[^{\n]*(?:\{[^}]*\})?.*\n')
# Definitions that a source file takes from specs/Private/.
TAKEN = re.compile(r'\bghost use Rattle\.\w+\.specs\.Private\.[\w.]*\{([^}]*)\}')
# What a function belongs to: a type; a trait, or its impl for a type, whose functions are as public as that.
OWNER = re.compile(r'(?m)^(?:impl(?:<.*?>)? (?:.* (for) )?|pub(?:\(crate\))? (trait) )(\w+)')
FUNCTION = re.compile(r'(?m)^( *)(pub )?fn (\w+)')
MODEL = re.compile(r'(?ms)^impl\b[^\n]*\bModel for (\w+)[^\n]*\n(.*?)^\}')
EXPORTS = re.compile(r'(?m)^pub use ([^;]*);')


def read(name):
    with open(name, encoding='utf-8') as file:
        return file.read()


def path_of(page):
    return 'crates/%s/specs/%s.antt' % page


def section():
    return read(PAGE).split(SECTION)[1].split('\n## ')[0]


def order():
    """The pages that the section lists, each as its crate and its name."""
    pages, crate = [], None
    for item in ITEM.findall(section()):
        for name in NAMED.findall(item):
            if name.startswith('sgb_'):
                crate = name
            else:
                pages.append((crate, name))
    return pages


def libraries():
    """The crates of the program and its libraries, by their root files."""
    return {name.split('/')[1]: name for name in sorted(glob.glob('crates/*/src/lib.rt')) if '_tests/' not in name}


def public_pages():
    names = (os.path.splitext(it)[0].split('/') for crate in libraries() for it in sorted(glob.glob('crates/%s/specs/*.antt' % crate)))
    return [(crate, page) for _, crate, _, page in names if page not in INDEX]


def imports(page):
    """The pages that a page imports; types that the compiler declares of the source are none."""
    return {(crate, name) for crate, name in IMPORT.findall(read(path_of(page))) if crate in libraries() and name != 'declared'} - {page}


def lines_of(page):
    return sum(1 for line in IMPORT.sub('', read(path_of(page))).split('\n') if line.strip())


def about(page):
    """What a page says of itself in its first line."""
    return read(path_of(page)).split('\n', 1)[0].lstrip('- ')


def wrong_places():
    """What is wrong with the order."""
    listed, known = order(), public_pages()
    for page in known:
        if listed.count(page) != 1:
            yield '%s does not stand in "%s" once' % (path_of(page), SECTION[3:-1])
    for place, page in enumerate(listed):
        if page not in known:
            yield '%s is no page' % path_of(page)
            continue
        for needed in sorted(imports(page) - {*listed[:place]}):
            yield '%s imports %s, which does not stand before it' % (path_of(page), path_of(needed))


def sources():
    """The source files of each library, with the names that the library exports."""
    for crate, root in libraries().items():
        exported = set(re.findall(r'\w+', ' '.join(EXPORTS.findall(read(root)))))
        for name in sorted(glob.glob('crates/%s/src/**/*.rt' % crate, recursive=True)):
            yield name, read(name), exported


def is_public(function, text, exported):
    """Whether a function of a file is called from outside the crate: of a public type or trait, or one that stands alone."""
    indent, is_pub, name = function.groups()
    if not indent:
        return is_pub and name in exported
    owner = [*OWNER.finditer(text, 0, function.start())][-1]
    return (is_pub or owner[1] or owner[2]) and owner[3] in exported


def public_clauses(text, exported):
    """The clauses of each public function of a file, with its name."""
    for function in FUNCTION.finditer(text):
        rest = text[function.end():]
        if is_public(function, text, exported) and re.search(r'\b(?:requires|ensures)\b', re.split(r'(?m)\{|;$', rest)[0]):
            yield function[3], re.split(r'(?m)\};$|^%s\{' % function[1], rest)[0]


def named_in(text, names):
    return sorted(it for it in names if re.search(r'(?<![\w.])%s(?![\w-])' % re.escape(it), text))


def wrong_uses():
    """Where a public page or call needs a page of specs/Private/ beside the views that the section names."""
    for page in public_pages():
        if (page[0], 'Private') in imports(page):
            yield '%s imports a page of specs/Private/' % path_of(page)
    views = set()
    for name, text, exported in sources():
        taken = {it.strip() for them in TAKEN.findall(text) for it in them.split(',')} - {''}
        for function, clauses in public_clauses(text, exported):
            for it in named_in(clauses, taken):
                yield '%s: a clause of %s names %s of specs/Private/' % (name, function, it)
        views |= {owner for owner, model in MODEL.findall(text) if owner in exported and named_in(model, taken)}
    for it in sorted(views ^ set(NAMED.findall(section().split('\n1. ')[0]))):
        yield '%s: "%s" %s the value of %s, which %s specs/Private/' % (
            PAGE, SECTION[3:-1], *(('does not name', it, 'needs') if it in views else ('names', it, 'does not need')))


def check():
    wrong = [*wrong_places(), *wrong_uses()]
    print('\n'.join(wrong + ['definitions: %d passed, %d failed' % (len(public_pages()), len(wrong))]))
    return 1 if wrong else 0


def main():
    if sys.argv[1:] == ['--check']:
        return check()
    pages = order()
    for page in pages:
        print('%5d  %-46s %s' % (lines_of(page), path_of(page), about(page)))
    apart = sum(lines_of(page) for page in pages if page[0] in APART)
    print('%d lines of exports, imports and facts' % apart)
    print('%d lines' % (sum(map(lines_of, pages)) - apart))
    return 0


if __name__ == '__main__':
    sys.exit(main())
