#!/usr/bin/env python3
"""Makes the manual pages from the description of the language, the program's help and an example: sgb.1 on the program, and
sgb-script.7 on scripts.

    manual.py             writes the pages
    manual.py --check     compares the pages with what would be written
"""
import difflib
import os
import re
import sys
import textwrap
from itertools import zip_longest

LANGUAGE = 'docs/language.md'
PROGRAM = 'crates/sgb/src/command_line.rt'
EXAMPLE = 'examples/undo'

# The parts of the description that tell of the program; all others tell of scripts.
OF_PROGRAM = ['The program', 'Faults']
# How wide a table is, so that it fits on 80 columns where it belongs to a command.
WIDTH = 64

ESCAPES = str.maketrans({'\\': r'\e', '-': r'\-', "'": r'\(aq', '^': r'\(ha', '~': r'\(ti'})


def read(name):
    with open(name, encoding='utf-8') as file:
        return file.read()


def escaped(text):
    """A text that roff prints as it stands."""
    return re.sub(r'(?m)^\.', r'\\&.', text.translate(ESCAPES))


def inline(text):
    """A text with its code in bold and its links in italics."""
    code = re.sub(r'`([^`]*)`', r'\\fB\1\\fR', escaped(text))
    return re.sub(r'\[([^]]*)\]\([^)]*\)', r'\\fI\1\\fR', code)


def prose(text):
    """A paragraph with a line for each sentence, as roff wants it."""
    return inline(re.sub(r'(?<=[^.])\. ', '.\n', ' '.join(text.split())))


def preformatted(text, indent=0):
    return '.RS %d\n.PP\n.EX\n%s\n.EE\n.RE' % (indent, text)


def example(text):
    return preformatted(escaped(textwrap.dedent(text.rstrip())), 4)


def items(text):
    """A list, each of its items behind a bullet or its number."""
    each = [it.split(' ', 1) for it in re.split(r'\n(?=- |\d+\. )', text)]
    return '\n'.join('.IP %s 4\n%s' % (mark.replace('-', r'\(bu'), prose(said)) for mark, said in each)


def table(text):
    """A table with its columns side by side; where they are too wide, the widest gives way."""
    text = re.sub(r'\[([^]]*)\]\([^)]*\)', r'\1', text).replace('`', '')
    rows = [[cell.strip() for cell in line.strip('|').split('|')] for line in text.split('\n')]
    del rows[1]
    widths = [max(map(len, column)) for column in zip(*rows)]
    while sum(widths) + 2 * (len(widths) - 1) > WIDTH:
        widths[widths.index(max(widths))] -= 1
    lines = []
    for row in rows:
        cells = [textwrap.wrap(cell, width) for cell, width in zip(row, widths)]
        for line in zip_longest(*cells, fillvalue=''):
            lines.append('  '.join(part.ljust(width) for part, width in zip(line, widths)).rstrip())
    heads, *others = map(escaped, lines)
    return preformatted('\n'.join(['\\fB%s\\fP' % heads, *others]))


def block(text):
    if text.startswith('    '):
        return example(text)
    if text.startswith('|'):
        return table(text)
    if re.match(r'- |\d+\. ', text):
        return items(text)
    return '.PP\n' + prose(text)


def blocks(text):
    return '\n'.join(block(it) for it in re.split(r'\n{2,}', text.strip('\n')) if it)


def tagged(text):
    """A heading with what stands below it, which begins with a paragraph."""
    head, first, *rest = text.strip('\n').split('\n\n', 2)
    more = ['.RS', blocks(rest[0]), '.RE'] if rest else []
    return '\n'.join(['.TP', inline(head), prose(first), *more])


def section(name, text):
    front, *commands = re.split(r'(?m)^### ', text)
    return '\n'.join(['.SH ' + name.upper(), *filter(None, [blocks(front)]), *map(tagged, commands)])


def description():
    """The first paragraphs of the description, and its sections by name."""
    title, *sections = re.split(r'(?m)^##? ', read(LANGUAGE))[1:]
    return title.split('\n', 1)[1], dict(it.split('\n', 1) for it in sections)


def synopsis(sections):
    return re.search(r'(?:    .*\n)+', sections['The program'])[0]


def program_help():
    """The program's version, what it is, and what stands below its help."""
    source = read(PROGRAM)
    version, about = (re.search(r'\.%s\("(.*?)"\)' % it, source)[1] for it in ('version', 'about'))
    return version, about, re.search(r'(?s)MORE_HELP: &str = "\\\n(.*?)";', source)[1].replace('\\\\', '\\')


def exit_status(more_help, faults):
    each = re.findall(r'(?m)^  (\d)  (.*(?:\n     .*)*)', more_help)
    told = ['.TP\n%s\n%s' % (inline('`%s`' % number), prose(when)) for number, when in each]
    return '\n'.join(['.SH EXIT STATUS', *told, blocks(faults)])


def examples(more_help):
    return '\n'.join([
        '.SH EXAMPLES', 'A script on standard input:', example(re.search(r'Example:\n(.*\n)', more_help)[1]),
        '.PP', 'A script in a file, as \\fIexamples/%s.sgb\\fR,' % os.path.basename(EXAMPLE), example(read(EXAMPLE + '.sgb')),
        '.PP', 'is answered by', example(read(EXAMPLE + '.out'))])


def see_also(other, number):
    names = sorted((it for it in os.listdir('docs') if it.endswith('.md')), key=str.lower)
    titles = [read('docs/' + it).split('\n', 1)[0].lstrip('# ') for it in names]
    return '\n'.join([
        '.SH SEE ALSO', '\\fB%s\\fR(%d)' % (escaped(other), number),
        '.PP', 'In \\fIshare/doc/nuperako\\fR, where the program is installed:',
        *['.TP\n\\fI%s\\fR\n%s' % it for it in zip(map(escaped, names), map(prose, titles))],
        '.TP\n\\fIexamples\\fR', 'Scripts and their transcripts'])


def headed(name, number, version, what, lines):
    return '\n'.join([
        '.\\" Made by docs/manual.py from %s: change that, and then run `make manual`.' % LANGUAGE,
        '.TH %s %d "" "sgb %s" Nuperako' % (escaped(name.upper()), number, version),
        '.SH NAME', '%s \\- %s' % (escaped(name), escaped(what)), *lines]) + '\n'


def pages():
    """Each manual page by its name."""
    version, about, more_help = program_help()
    front, sections = description()
    lines = synopsis(sections)
    program = headed('sgb', 1, version, about[0].lower() + about[1:], [
        '.SH SYNOPSIS', '\n.br\n'.join(inline('`%s`' % it.strip()) for it in lines.splitlines()),
        section('Description', sections['The program'].replace(lines, '')),
        exit_status(more_help, sections['Faults']), examples(more_help), see_also('sgb-script', 7)])
    script = headed('sgb-script', 7, version, 'scripts that sgb(1) runs', [
        section('Description', front),
        *[section(name, text) for name, text in sections.items() if name not in OF_PROGRAM], see_also('sgb', 1)])
    return {'sgb.1': program, 'sgb-script.7': script}


def check():
    """Compares the pages, and the commands of the synopsis with those that the program takes."""
    failed, made = 0, pages()
    for name, text in made.items():
        if read(name) != text:
            failed += 1
            print('%s differs from the description; `make manual` writes it again' % name)
            print('\n'.join(difflib.unified_diff(read(name).split('\n'), text.split('\n'), name, 'the description', lineterm='', n=0)))
    told = set(re.findall(r'sgb (\w+)', synopsis(description()[1])))
    taken = set(re.findall(r'Command::new\(alloc, "(\w+)"\)', read(PROGRAM))) - {'sgb'}
    if told != taken:
        failed += 1
        print('%s tells of the commands %s, and the program takes %s' % (LANGUAGE, sorted(told), sorted(taken)))
    print('manual: %d passed, %d failed' % (len(made) + 1 - failed, failed))
    return 1 if failed else 0


def main():
    if sys.argv[1:] == ['--check']:
        return check()
    for name, text in pages().items():
        with open(name, 'w', encoding='utf-8') as file:
            file.write(text)
    return 0


if __name__ == '__main__':
    sys.exit(main())
