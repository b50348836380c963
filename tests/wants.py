#!/usr/bin/env python3
"""Runs one script of every command, and the programs beside the script, with each growth of memory refused in its turn.

    wants.py PROGRAM LIBRARY

LIBRARY is made of refuse_growth.c. Each run ends with `sgb: no room` before anything is written, or one unit of the script
that takes memory is answered `line L: refused 1 no room`, and the rest is the transcript of the script with this
unit's lines turned into comments. growths.py does the same with scripts in which the journal grows, or much is undone
and redone, and takes its words on what a run with a growth refused is.
"""
import os
import subprocess
import sys
import tempfile

from growths import EDGE, NO_MEMORY, QUERIES, Growths, refused_line
from units import units, word

# A script of every command, each accepted.
EVERY = os.path.join(os.path.dirname(__file__), 'commands.sgb')

# Groups, accepted and refused, with a text among the members.
GROUPS = (b'next\ngroup\nend\ngroup\ngraph g 2\nedge g 0 1 5\n# no member\nnext\nload h check\n' + EDGE + b'.\nid h "end"\n'
          b'board b 2 2 0 0 1 0 0\nrandom r 3 2 0 0 0 1 6 -\nlengths b 0 1 9 -\nend\nlist\ngroup\ndrop g\ngraph g 1\nend\n'
          b'gen\n' + b'undo\n' * 4 + b'list\n' + b'redo\n' * 4 + b'group\nnext\ngraph i 1\nend\nsave b\n'
          b'group\nnext\nlabel g 0 "last"\n')

# A group that takes memory for each of its members, behind commands of its kinds.
MANY = (b'graph g 9\nrandom r 5 4 0 0 0 1 6 -\ngroup\n' + b'edge g 0 1 5\nnext\n' * 300 + b'label g 0 "here"\nboard b 3 3 0 0 1 0 0\n'
        b'lengths b 0 1 9 -\ndrop r\ncomplement c b 0 0 0\nend\n')


# Programs that read a saved graph.
PIPED = ['export --as col EDGE', 'export --as graph6 EDGE', 'info EDGE', 'make complement EDGE 0 0 0', 'make gunion EDGE EDGE 1 0',
         'make intersection EDGE EDGE 0', 'make product EDGE EDGE 2 0', 'make induced EDGE all 0 0 0', 'make lengths EDGE 0 1 9 -']

# Texts of other tools, accepted and refused.
IMPORTED = ['plain.edges', 'names.edges', 'wrong-count.dimacs', 'paths.dimacs', 'petersen.graph6', 'long.graph6', 'fewer-names.edges']

# Commands that find room where an earlier one left some.
FIND_ROOM = (b'arc', b'edge', b'redo')


def takes_memory(unit):
    """Whether a command takes memory of its own: a group does for its members, if it has any."""
    first = unit.lines[0]
    if word(first) == b'group':
        return any(it.strip(b' ') and it[:1] != b'#' and it.strip(b' ') != b'end' for it in unit.lines[1:])
    return word(first) not in NO_MEMORY or b'"' in first


def every_command():
    """Every command; all of it undone and redone; at the end a text without its `.`."""
    with open(EVERY, 'rb') as file:
        script = file.read()
    firsts = [unit.lines[0] for unit in units(script)]
    count = sum(not is_question(it) and word(it) != b'save' for it in firsts)
    return script + b'undo\n' * count + b'list\ngen\n' + b'redo\n' * count + b'list\ngen\nload last check\n' + EDGE


def is_question(line):
    """Whether a line changes nothing and takes no memory: a comment, an empty line, or a question."""
    return line == b'' or line[:1] == b'#' or word(line) in QUERIES


def may_want(script):
    """The numbers of the units that may fail to allocate. The last may be open, and all before it are accepted."""
    found, standing, undone = set(), [], []
    for unit in units(script, True):
        first = unit.lines[0]
        if is_question(first):
            continue
        if first == b'undo':
            undone.append(standing.pop())
            continue
        if first == b'redo':
            takes = undone.pop()
            standing.append(takes)
        else:
            takes = takes_memory(unit)
            if word(first) != b'save':
                grows = len(standing) % 1024 == 0 and not undone
                standing, undone = standing + [takes], []
                takes = takes or grows
        if takes:
            found.add(unit.number)
    return found


class Wants(Growths):
    def commented(self, script, number):
        """The transcript of a script with this unit's lines turned into comments, and what it is answered put in."""
        unit = next(it for it in units(script, True) if it.number == number)
        lines = script[unit.start:unit.end].split(b'\n')
        front, rest = script[:unit.start], b'\n'.join(b'#' + it if it else it for it in lines) + script[unit.end:]
        before = self.transcript_of(front)
        whole = self.transcript_of(front + rest)
        return before + b'line %d: refused 1 no room\n' % number + whole[len(before):], whole.startswith(before)

    def try_units(self, name, script):
        """How many growths a script has; each was refused, and each unit that takes memory of its own was refused once."""
        wanting, met, most = may_want(script), set(), 0
        for number in range(1, 5000):
            result, was_asked = self.run_refusing(script, number)
            if not was_asked:
                break
            most, line = number, refused_line(result)
            if result.stdout == b'':
                self.tell((result.returncode, result.stderr) == (2, b'sgb: no room\n'), name, 'growth', number, 'ended', result)
                continue
            wanted, is_front = self.commented(script, line) if line in wanting else (None, False)
            self.tell(is_front and (result.returncode, result.stdout, result.stderr) == (1, wanted, b''),
                      name, 'growth', number, 'refused at line', line, 'ended', result)
            met.add(line)
        self.tell(not was_asked, name, 'asks for more growths than expected')
        self.tell(result.stdout == self.transcript_of(script), name, 'differs with no growth refused')
        lines = script.split(b'\n')
        never = [lines[it - 1] for it in sorted(wanting - met) if word(lines[it - 1]) not in FIND_ROOM]
        self.tell(not never, name, 'never refused at', never)
        return most

    def try_met(self, script, lines):
        """That each of these lines is once answered by refusal 1."""
        met, number, was_asked = set(), 0, True
        while was_asked:
            number += 1
            result, was_asked = self.run_refusing(script, number)
            met.add(refused_line(result) if was_asked else None)
        self.tell(set(lines) <= met, 'refused only at', met)

    def try_undos(self, script, undos):
        """The script with no more memory than it asks for, then undos, each of which succeeds and takes none."""
        def limited(script, limit):
            return subprocess.run([self.program, 'run'], input=script, stdout=subprocess.PIPE, stderr=subprocess.PIPE,
                                  env={'LD_PRELOAD': self.library, 'GROWTH_LIMIT': str(limit)}).stdout
        wanted, few, enough = self.transcript_of(script), 0, 1 << 24
        while few < enough:
            limit = (few + enough) // 2
            few, enough = (few, limit) if limited(script, limit) == wanted else (limit + 1, enough)
        met = limited(script + undos, enough)
        self.tell(met == wanted + b'undone\n' * undos.count(b'undo'), 'undos behind the last memory answered', met[len(wanted):])

    def try_program(self, *words):
        """How many growths a program beside the script has; with each refused it tells `no room` and writes nothing."""
        plain = subprocess.run([self.program, *words], stdout=subprocess.PIPE, stderr=subprocess.PIPE)
        for number in range(1, 5000):
            with tempfile.TemporaryDirectory() as folder:
                asked = os.path.join(folder, 'met')
                ended = subprocess.run([self.program, *words], stdout=subprocess.PIPE, stderr=subprocess.PIPE, env={
                    'LD_PRELOAD': self.library, 'REFUSE_GROWTH': str(number), 'REFUSE_GROWTH_MET': asked})
                if not os.path.exists(asked):
                    break
            met = ended.returncode, ended.stdout, ended.stderr
            self.tell(met == (2, b'', b'sgb: no room\n'), *words, 'with growth', number, 'refused ended', met)
        met = ended.returncode, ended.stdout, ended.stderr
        self.tell(met == (plain.returncode, plain.stdout, plain.stderr), *words, 'with no growth refused ended', met)
        return number - 1


def main():
    program, library = sys.argv[1:]
    wants = Wants(program, library, [])
    counts = [wants.try_units('the script of every command', every_command())]
    if wants.transcript_of(b'group\nend\n') == b'grouped 0\n':
        counts.append(wants.try_units('the script of groups', GROUPS))
        wants.try_met(b'seed 7\ngroup\nnext\nend\nundo\nredo\n', [2, 6])
        wants.try_undos(MANY, b'undo\n' * 3)
    with tempfile.TemporaryDirectory() as folder:
        for name, text in ('edge', EDGE), ('cut', EDGE[:60]), ('wrong', EDGE.replace(b'822', b'823')):
            path = os.path.join(folder, name)
            with open(path, 'wb') as file:
                file.write(text)
            counts.append(wants.try_program('check', path))
        path = os.path.join(folder, 'named')
        with open(path, 'wb') as file:
            file.write(EDGE.replace(b'"",A0', b'"a",A0').replace(b'"",A1', b'"b",A1'))
        counts.append(wants.try_program('export', '--as', 'edges', '--names', '--any', path))
        for words in PIPED:
            counts.append(wants.try_program(*words.replace('EDGE', os.path.join(folder, 'edge')).split()))
    for name in IMPORTED:
        path = os.path.join(os.path.dirname(__file__), 'imported', name)
        with open(path + '.out', encoding='utf-8') as told:
            counts.append(wants.try_program(*told.readline().split(), path))
    counts.append(wants.try_program('queen'))
    print('wants: of %s growths' % ', '.join(map(str, counts)))
    print('wants: %d passed, %d failed' % (wants.passed, wants.failed))
    return 1 if wants.failed else 0


if __name__ == '__main__':
    sys.exit(main())
