#!/usr/bin/env python3
"""Compares docs/contracts.md with the sources: each call of a row is there and has just the clauses of the row, and no call is left out.

    contracts.py PAGE

A heading that begins with the name of a crate says where the calls of the rows below it stand. A row has four cells: calls, what they
say, the names of their `ensures`, and those of their `requires`. The words `one clause` stand for one without a name. A method of a trait
of this repository has the trait's clauses where its `impl` states none. Every function and method that `lib.rt` exports must have a row.

It reads the sources line by line, as `rt fmt` lays them out, and tells the functions of a crate apart by type and name. So it sees no
clause of a trait of the toolchain, as that of `==`, nothing that a macro or a `derive` makes, and not what a clause says.
"""
import glob
import re
import sys

EXPORT = re.compile(r'(?m)^pub use [\w:]*?(?:(\w+)|\{([^}]*)\});')
BLOCK = re.compile(r'(?:pub )?(impl|trait)\b(?:<.*?>+)? (?:(\w+)(?:<.*?>+)? for )?(\w+)')
FUNCTION = re.compile(r'( *)(pub(?:\(\w+\))? )?(?:const )?fn (\w+)')
CLAUSE = re.compile(r'\s+(ensures|requires)\b ?(\w*)')
CALL = re.compile(r'`((?:\w+::)?\w+)`')
UNNAMED = 'one clause'


def exported(text):
    """The names that a `lib.rt` hands out."""
    return {name.strip() for one, many in EXPORT.findall(text) for name in (one or many).split(',')}


def functions(lines):
    """Of each function of a file: its trait, its type, its name, whether it is `pub`, and its clauses."""
    kind = trait = owner = clauses = None
    found = []
    for line in lines:
        block, function, clause = BLOCK.match(line), FUNCTION.match(line), CLAUSE.match(line)
        if block:
            kind, trait, owner = block.groups()
            trait = owner if kind == 'trait' else trait
        if function:
            clauses = {'ensures': set(), 'requires': set()}
            found.append((trait if function[1] else None, owner if function[1] else None, function[3], function[2] == 'pub ', clauses))
        elif clause and clauses is not None:
            clauses[clause[1]].add(clause[2] or UNNAMED)
        if re.match(r' *\{', line) or line.endswith(';') or line.endswith('{') and not clause:
            clauses = None
    return found


def read_crates(sources):
    """The clauses of each call of each crate that a user of it can make, from the lines of its files."""
    traits, calls = {}, {}
    for files in sources.values():
        for lines in files.values():
            for trait, owner, name, _, clauses in functions(lines):
                if trait and trait == owner:
                    traits[trait, name] = clauses
    for crate, files in sources.items():
        names = exported('\n'.join(files.get('lib.rt', [])))
        calls[crate] = {}
        for lines in files.values():
            for trait, owner, name, is_public, clauses in functions(lines):
                if (owner or name) in names and (is_public or (trait, name) in traits):
                    stated = clauses if any(clauses.values()) else traits.get((trait, name), clauses)
                    calls[crate][owner + '::' + name if owner else name] = stated
    return calls


def named(cell):
    return {*re.findall(r'`(\w+)`', cell)} | ({UNNAMED} if UNNAMED in cell else set())


def compare(page, calls):
    """How many rows are right, and what is wrong."""
    crate, seen, passed, faults = None, set(), 0, []
    for line in page:
        heading = re.match(r'#+ (\w+)', line)
        if heading:
            crate = heading[1] if heading[1] in calls else None
        cells = [it.strip() for it in line.strip().strip('|').split('|')]
        if not line.startswith('|') or len(cells) != 4 or crate is None:
            continue
        wrong = []
        for call in CALL.findall(cells[0]):
            stated = calls[crate].get(call)
            seen.add((crate, call))
            if stated is None:
                wrong.append('%s: there is no call %s' % (crate, call))
                continue
            for kind, cell in zip(('ensures', 'requires'), cells[2:]):
                wrong += ['%s: %s has no clause %s %s' % (crate, call, kind, it) for it in sorted(named(cell) - stated[kind])]
                wrong += ['%s: the row of %s leaves out %s %s' % (crate, call, kind, it) for it in sorted(stated[kind] - named(cell))]
        faults += wrong
        passed += bool(CALL.findall(cells[0])) and not wrong
    faults += ['%s: no row names %s' % (crate, call) for crate in calls for call in calls[crate] if (crate, call) not in seen]
    return passed, faults


def test():
    """One call that is right, and one of each fault."""
    source = {'lib.rt': ['pub use a::{One, two};', 'pub use b::three;'],
              'a.rt': ['impl One {', '    pub fn get(&self) -> u8', '        requires few { x }', '        ensures { y }', '    {', '    }', '}',
                       'pub fn two()', '    ensures same { z }', '{}', 'pub fn three() {', '}', 'pub(crate) fn four()', '    ensures no { z }', '{}']}
    calls = read_crates({'sgb_x': source})
    page = ['## sgb_x: a crate', '| `One::get` | | its one clause | `few` |', '| `two` | | `other` | |', '| `five` | | | |']
    passed, faults = compare(page, calls)
    expected = ['no clause ensures other', 'leaves out ensures same', 'there is no call five', 'no row names three']
    return passed == 1 and len(faults) == len(expected) and all(it in fault for it, fault in zip(expected, faults))


def main():
    sources = {}
    for path in sorted(glob.glob('crates/*/src/**/*.rt', recursive=True)):
        _, crate, _, file = path.split('/', 3)
        if not crate.endswith('_tests'):
            with open(path, encoding='utf-8') as text:
                sources.setdefault(crate, {})[file] = text.read().splitlines()
    sources = {crate: files for crate, files in sources.items() if 'lib.rt' in files}
    with open(sys.argv[1], encoding='utf-8') as page:
        passed, faults = compare(page.read().splitlines(), read_crates(sources))
    if not test():
        faults.append('this script fails its own test')
    print(''.join(it + '\n' for it in faults) + 'contracts: %d passed, %d failed' % (passed + test(), len(faults)))
    return 0 if passed and not faults else 1


if __name__ == '__main__':
    sys.exit(main())
