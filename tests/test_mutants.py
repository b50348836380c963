#!/usr/bin/env python3
"""Tests mutants.py on three small crates of a repository of its own: what it must pass, and what it must tell.

    test_mutants.py

It runs mutants.py three times: over all mutants; on crates that another run is said to have proved, with some of the mutants, where it
has to say the same of these, but of those in mutants/full/, which it only lays; and with the bodies unchanged, where it has to refuse
none.
"""
import os
import re
import subprocess
import sys
import tempfile

from mutants import FULL, GATE, Said

MUTANTS = os.path.join(os.path.dirname(os.path.abspath(__file__)), 'mutants.py')

TINY = '''// Functions to try mutants of.
#![tactic(auto)]

ghost use Rattle.std.specs.Prelude.{◌≡◌, ◌≤◌, ◌+◌, ◌*◌};

mod apart;

pub use apart::{Digit, held};

/// What `raised` adds.
const STEP: u32 = 2;

/// A number raised by two.
pub fn raised(x: u32) -> u32
    requires room { x ≤ 100 }
    ensures value { result ≡ x + 2 }
{
    x + STEP
}

/// A number raised by four.
pub fn raised_more(x: u32) -> u32
    requires room { x ≤ 90 }
    ensures value { result ≡ x + 4 }
{
    raised(raised(x))
}

/// A number that is no larger.
pub fn lowered(x: u32) -> u32
    ensures less { result ≤ x }
{
    x / 2
}

/// A number twice.
pub fn doubled(x: u32) -> u32
    requires room { x ≤ 100 }
    ensures value { result ≡ 2 * x }
{
    x + x
}

/// At most nine.
pub fn capped(x: u32) -> u32
    ensures few { result ≤ 9 }
{
    if x < 9 { x } else { 9 }
}
'''

PROOF = '''use Rattle.std.proofs.Common.{rules}
use Rattle.tiny.proofs.capped.Goals as goal

pub returns-then-x-lt9 : goal.returns-then-x-lt9
returns-then-x-lt9 c = search rules
'''

HELD = '''//! A function in a file that says nothing of how to prove it.
ghost use Rattle.std.specs.Prelude.{◌≤◌};

/// At most nine.
pub fn held(x: u32) -> u32
    ensures few { result ≤ 9 }
{
    if x < 9 { x } else { 9 }
}

/// A number of which no more than eight is shown.
#[derive(Clone, Copy)]
pub struct Digit {
    number: u32,
}

impl Digit {
    /// At most eight.
    pub fn shown(self) -> u32
        ensures few { result ≤ 8 }
    {
        if self.number < 8 { self.number } else { 8 }
    }
}
'''

HELD_PROOF = PROOF.replace('capped', 'apart.held')
# (a proof that is more than a tactic)
SHOWN_PROOF = PROOF.replace('capped', 'apart.Digit.shown').replace('x-lt9', 'self-lt8').replace(
    'search rules', 'record { few = search rules }')

OPEN = '''// A function that is not proved.
#![tactic(auto)]

ghost use Rattle.std.specs.Prelude.{◌≡◌, ◌+◌};

/// Not the next number.
pub fn next(x: u32) -> u32
    ensures next { result ≡ x + 1 }
{
    x
}
'''

UPPER = '''// A function over those of another crate.
#![tactic(auto)]

ghost use Rattle.std.specs.Prelude.{◌≡◌, ◌≤◌, ◌+◌};

use tiny::raised;

/// A number raised by four.
pub fn raised_twice(x: u32) -> u32
    requires room { x ≤ 90 }
    ensures value { result ≡ x + 4 }
{
    raised(raised(x))
}
'''

# The mutants of the gate: the crate, the name, the text and what it becomes, and what must be told of it.
TRIED = [
    ('tiny', 'raised-by_one', 'x + STEP', 'x + STEP - 1', 'refused by a goal: tiny::raised, `returns`'),
    ('tiny', 'doubled-plus_one', 'x + x', 'x + x + 1', 'refused by a goal: tiny::doubled'),
    ('tiny', 'doubled-thrice', 'x + x', 'x + 2 * x', 'refused by a goal: tiny::doubled'),
    # The body of what a function calls is left out, and its contract is enough for one that means the same.
    ('tiny', 'raised_more-once', 'raised(raised(x))', 'raised(x)', 'refused by a goal: tiny::raised_more'),
    ('tiny', 'raised_more-by_two', 'raised(raised(x))', 'raised(x) + 2', 'NOT REFUSED'),
    # One that changes no body is refused wherever it may be.
    ('tiny', 'STEP-of_three', 'STEP: u32 = 2', 'STEP: u32 = 3', 'refused by a goal: tiny::raised'),
    ('tiny', 'less-for_certain', 'result ≤ x', 'result + 1 ≤ x', 'refused by a goal: tiny::lowered'),
    ('tiny', 'lowered-to_a_third', 'x / 2', 'x / 3', 'NOT REFUSED'),
    ('tiny', 'lowered-nothing', 'x / 2', 'x / 2', 'it changes nothing'),
    ('tiny', 'lowered-not_there', 'x / 7', 'x / 2', 'an \'old:\' text is in src/lib.rt 0 times'),
    ('tiny', 'lowered-found_often', 'u32) -> u32', 'u32) -> u64', 'an \'old:\' text is in src/lib.rt 5 times'),
    ('tiny', 'capped-at_eight', 'if x < 9', 'if x <= 8', 'a proof of tiny::capped names what it removed'),
    # Of these the first is refused by a written proof that is a tactic alone, and the second by a goal that has none.
    ('tiny', 'held-two_more', '{ x }', '{ x + 2 }', 'refused by a goal: tiny::apart::held, `returns-then-x-lt9`'),
    ('tiny', 'held-at_ten', '{ 9 }', '{ 10 }', 'refused by a goal: tiny::apart::held, `returns-else-x-lt9`'),
    ('tiny', 'held-one_more', '{ x }', '{ x + 1 }', 'NOT REFUSED'),
    # The copy of a method has its written proof too, which proves what the contract allows, or no longer fits.
    ('tiny', 'shown-two_more', '{ self.number }', '{ self.number + 2 }',
     'refused by a written proof: tiny::apart::Digit::shown, `returns-then-self-lt8`'),
    ('tiny', 'shown-one_more', '{ self.number }', '{ self.number + 1 }', 'NOT REFUSED'),
    ('upper', 'raised_twice-once', 'raised(raised(x))', 'raised(x)', 'refused by a goal: upper::raised_twice'),
    # (of few mutants, since those beside one that cannot be read are tried by halves)
    ('upper', 'raised_twice-of_no_name', 'raised(raised(x))', 'raised(raised(y))', 'it cannot be read'),
    ('open', 'next-after_all', '    x\n', '    x / 2\n', None),
]

# Those of mutants/full/. The first is tried by the first run alone, and the second can be laid in neither.
FULL_TRIED = [
    ('tiny', 'doubled-four_times', 'x + x', '4 * x', 'refused by a goal: tiny::doubled'),
    ('tiny', 'doubled-of_another_text', 'y + y', 'x + x', 'an \'old:\' text is in src/lib.rt 0 times'),
]

# Those that the second run tries too: refused, let pass, laying nothing, refused by a goal that no answer proves, and of other crates.
TRIED_AGAIN = ('raised-by_one', 'lowered-to_a_third', 'lowered-nothing', 'held-at_ten', 'raised_twice-once', 'next-after_all')

# Those whose copies the third run tries with the bodies of their functions.
UNCHANGED = ['crates/%s/%s/%s.edit' % (crate, GATE, name) for crate, name, *_ in TRIED if name.startswith(('held-', 'shown-', 'doubled-'))]

# What else must be told, and what each run ends with.
TOLD = ['crates/tiny/mutants/gate/notes.txt: no mutant',
        'open: the crate is not proved, so its 1 mutants show nothing']
TOLD_OF_GATE = [(name, 'crates/%s/%s/%s.edit: %s' % (crate, GATE, name, told)) for crate, name, _, _, told in TRIED if told]
TOLD_OF_FULL = ['crates/%s/%s/%s.edit: %s' % (crate, FULL, name, told) for crate, name, _, _, told in FULL_TRIED]
ENDS = (['tiny: of 20 mutants 9 refused by a goal, 1 refused by a written proof, by _ checks of _ s of processor, the longest of _ s',
         'upper: of 2 mutants 1 refused by a goal, 0 refused by a written proof',
         'mutants: 10 refused by a goal, 1 refused by a written proof', 'mutants: 11 passed, 12 failed'],
        ['tiny: of 6 mutants 2 refused by a goal, 0 refused by a written proof, by _ checks of _ s of processor, the longest of _ s; '
         '1 more can be laid',
         'upper: of 1 mutants 1 refused by a goal', 'mutants: 3 passed, 5 failed'],
        ['mutants: 0 refused by a goal, 0 refused by a written proof, 7 refused by nothing', 'mutants: 7 passed, 0 failed'])


def write(file, text):
    os.makedirs(os.path.dirname(file), exist_ok=True)
    with open(file, 'w', encoding='utf-8') as it:
        it.write(text)


def make(room):
    """Makes the repository with its mutants."""
    subprocess.run(['git', 'init', '-q', room], check=True)
    write(room + '/crates.txt', 'tiny:\nopen:\nupper: tiny\n')
    write(room + '/crates/tiny/src/lib.rt', TINY)
    write(room + '/crates/tiny/proofs/capped/Answers.antt', PROOF)
    write(room + '/crates/tiny/src/apart.rt', HELD)
    write(room + '/crates/tiny/proofs/apart/held/Answers.antt', HELD_PROOF)
    write(room + '/crates/tiny/proofs/apart/Digit/shown/Answers.antt', SHOWN_PROOF)
    write(room + '/crates/open/src/lib.rt', OPEN)
    write(room + '/crates/upper/src/lib.rt', UPPER)
    for folder, tried in (GATE, TRIED), (FULL, FULL_TRIED):
        for crate, name, old, new, _ in tried:
            file = 'apart' if name.startswith(('held-', 'shown-')) else 'lib'
            write('%s/crates/%s/%s/%s.edit' % (room, crate, folder, name),
                  'file: src/%s.rt\nold: %s\nnew: %s\n' % (file, old.rstrip('\n'), new.rstrip('\n')))
    write('%s/crates/tiny/%s/notes.txt' % (room, GATE), 'This is no mutant.\n')


def leave_out(room):
    """Removes the mutants that the second run does not try."""
    for crate, name, _, _, _ in TRIED:
        if name not in TRIED_AGAIN:
            os.remove('%s/crates/%s/%s/%s.edit' % (room, crate, GATE, name))


def run(room, *words):
    """The lines of a run that tell of mutants, without its times and checks, and whether it passed. The crates `tiny` and `upper`
    are named to it as ones that are proved."""
    ran = subprocess.run([sys.executable, MUTANTS, *words], cwd=room, input='tiny\nupper\n', stdout=subprocess.PIPE,
                         stderr=subprocess.STDOUT, errors='replace', encoding='utf-8')
    lines = re.sub(r'[\d.]+ (s|checks)\b', r'_ \1', ran.stdout).splitlines()
    return [it for it in lines if it.startswith(('crates/', 'tiny:', 'upper:', 'open:', 'mutants:'))] or lines, ran.returncode == 0


def main():
    with tempfile.TemporaryDirectory(prefix='sgb-test-mutants-') as room:
        make(room)
        first, is_well = run(room, '-v')
        unchanged, _ = run(room, '--unchanged', *UNCHANGED)
        leave_out(room)
        second, _ = run(room, '-v', '--as-proved')
    again = [told for name, told in TOLD_OF_GATE if name in TRIED_AGAIN]
    wanted = [(TOLD + [told for _, told in TOLD_OF_GATE] + TOLD_OF_FULL + ENDS[0], first),
              (TOLD + again + TOLD_OF_FULL[1:] + ENDS[1], second), (ENDS[2], unchanged)]
    lacking = [(it, lines) for told, lines in wanted for it in told if not any(line.startswith(it) for line in lines)]
    lacking += [('a status of failure', first)] * is_well
    # (the lines of one crate may come before those of another)
    left_out = [told.partition(': ')[0] + ':' for name, told in TOLD_OF_GATE if name not in TRIED_AGAIN]
    same = [sorted(line for line in lines if not line.startswith((TOLD_OF_FULL[0], 'mutants: ', *left_out, *ends)))
            for lines, ends in zip((first, second), ENDS)]
    lacking += [('the second run as the first', second)] * (same[0] != same[1])
    # A check that a full disk leaves without a word tells nothing of a contract.
    silent = Said('', {}, set(), '.').unread
    lacking += [('that a check said nothing', [silent])] * (silent != 'the check said nothing')
    for it, lines in lacking:
        print('test_mutants: not told: %s' % it, *lines, sep='\n')
    count = sum(len(told) for told, _ in wanted) + 3
    print('test_mutants: %d passed, %d failed' % (count - len(lacking), len(lacking)))
    return 1 if lacking else 0


if __name__ == '__main__':
    sys.exit(main())
