#!/usr/bin/env python3
"""Runs scripts with their Nth growth of memory refused, for N = 1, 2, .. until a run asks for none.

    growths.py PROGRAM LIBRARY [OTHER..]

Each run either has written nothing and told `sgb: no room`, or one unit of it, a line or a line with its text, is answered
`line L: refused 1 no room` and all others as if that unit had done nothing. What they answer then is
asked of the program itself, or of the command OTHER, another implementation that reads a script from a file.
A command that takes no memory of its own is refused only where the journal grows: where a multiple of 1,024
commands stand and nothing is undone.

Texts that claim more records than they have bytes for are refused before they take much memory.
"""
import os
import subprocess
import sys
import tempfile

# Draws past 1,024 commands, where the journal grows for the second time; behind that undos, redos and commands in the
# place of undone ones, also with 1,024 commands standing.
DRAWS = (b'seed -314159\nnext\nunif 6\ngen\n' + b'next\n' * 1021 + b'unif 6\nundo\nnext\n'
         + b'undo\n' * 20 + b'redo\n' * 10 + b'next\n' * 40
         + b'undo\nredo\nundo\nseed 7\nunif 1073741825\ngen\n')

# Edits of graphs. The journal grows at the first command alone. At the end all is undone and redone, for which
# each graph takes its memory again.
GRAPHS = (b'graph g 3\ngraph h 2\narc g 0 1 5\nedge g 1 2 -6\n'
          b'cut g 0\nundo\nredo\nshow g\n'
          b'set g V0 u 7\nset g V0 v "seven"\nset g G zz V1\n'
          b'len g 1 9\n'
          b'label g 2 "here"\nid g "map"\nset g A2 a ""\n'
          + b'undo\n' * 4 + b'list\n' + b'redo\n' * 4 + b'show g\ngen\n'
          + b'arc h 0 0 1\n' * 4
          + b'types g IIIZZZZAZZZZZV\nshow h\nundo\nundo\nredo\nredo\nnext\n'
          + b'edge h 0 1 2\n' * 14
          + b'drop h\nlist\nundo\nshow h\nredo\nlist\n'
          + b'graph h 70\nlabel h 69 "last"\nset h V69 z V69\nunif 6\nseed 8\n' + b'next\n' * 26
          + b'set g A1 b -3\nset g A1 b 0\nid g ""\nshow g\n'
          + b'undo\n' * 67 + b'list\n' + b'redo\n' * 67 + b'show g\nlist\ngen\n')

# A graph of two vertices and an edge, saved.
EDGE = (b'* GraphBase graph (util_types ZZZZZZZZZZZZZZ,2V,2A)\n"gb_new_graph(2)",2,2\n* Vertices\n"",A0\n"",A1\n'
        b'* Arcs\nV1,0,5\nV0,0,5\n* Checksum 450523822\n')

# Texts that claim many records and hold none: they end at the first line, at the vertices and at the arcs.
FIRST_LINE = b'* GraphBase graph (util_types ZZZZZZZZZZZZZZ,%s)\n'
CLAIMS = [FIRST_LINE % b'65535V,1000000A',
          FIRST_LINE % b'65535V,1000000A' + b'"",0,0\n* Vertices\n',
          FIRST_LINE % b'0V,1000000A' + b'"",0,0\n* Vertices\n* Arcs\n']

# The first words of the lines that are refused once at least.
MET_DRAWS = {b'seed', b'unif'}
MET_GRAPHS = {b'graph', b'arc', b'edge', b'set', b'label', b'id', b'redo'}

QUERIES = (b'gen', b'list', b'show')
NO_MEMORY = (b'seed', b'next', b'unif', b'cut', b'len', b'set', b'types', b'drop')


def run(program, script, environment):
    return subprocess.run([program, 'run'], input=script, stdout=subprocess.PIPE,
                          stderr=subprocess.PIPE, env=environment)


def run_other(command, script):
    """The transcript of a script, as another implementation has it."""
    with tempfile.NamedTemporaryFile() as file:
        file.write(script)
        file.flush()
        return subprocess.run(command + [file.name], stdout=subprocess.PIPE).stdout


def word(line):
    """The first word of a line."""
    return line.split(b' ')[0]


def takes_memory(line):
    """Whether a command takes memory of its own: for a graph, an arc, an edge, lengths or a text."""
    return word(line) not in NO_MEMORY or b'"' in line


def units(script):
    """The units of a script: the number of the first line of each, and how many lines it has."""
    found, in_text = [], False
    for number, line in enumerate(script.splitlines(), 1):
        if in_text:
            found[-1][1] += 1
            in_text = line != b'.'
        else:
            found.append([number, 1])
            in_text = word(line) == b'load'
    return found


def growing_lines(script):
    """The numbers of the units that may fail to allocate, where every command of the script is accepted."""
    growing = set()
    standing, undone = [], []
    lines = script.splitlines()
    for number, _ in units(script):
        line = lines[number - 1]
        if line == b'undo':
            undone.append(standing.pop())
        elif line == b'redo':
            if takes_memory(undone[-1]):
                growing.add(number)
            standing.append(undone.pop())
        elif word(line) == b'save':
            growing.add(number)
        elif word(line) not in QUERIES:
            if takes_memory(line) or len(standing) % 1024 == 0 and not undone:
                growing.add(number)
            standing.append(line)
            undone = []
    return growing


def refused_line(result):
    """The number of the one line that had no room, or None."""
    refused = [line for line in result.stdout.split(b'\n') if line.endswith(b': refused 1 no room')]
    return int(refused[0].split(b':')[0].split(b' ')[1]) if len(refused) == 1 else None


def with_refused(transcript_of, script, number):
    """The transcript of a script whose unit of this number alone has no room."""
    lines = script.split(b'\n')
    size = dict(units(script))[number]
    lines[number - 1:number - 1 + size] = [b'?'] + [b'#'] * (size - 1)
    answer = b'line %d: refused ' % number
    return transcript_of(b'\n'.join(lines)).replace(answer + b'100 bad command\n',
                                                    answer + b'1 no room\n')


class Growths:
    def __init__(self, program, library, other):
        self.program = program
        self.library = os.path.abspath(library)
        self.other = other
        self.passed = self.failed = 0

    def transcript_of(self, script):
        if self.other:
            return run_other(self.other, script)
        return run(self.program, script, {}).stdout

    def tell(self, is_right, *words):
        if is_right:
            self.passed += 1
        else:
            self.failed += 1
            print(*words)

    def run_refusing(self, script, number):
        """The run with this growth refused, and whether it was asked for."""
        with tempfile.TemporaryDirectory() as folder:
            met = os.path.join(folder, 'met')
            result = run(self.program, script,
                         {'LD_PRELOAD': self.library, 'REFUSE_GROWTH': str(number),
                          'REFUSE_GROWTH_MET': met})
            return result, os.path.exists(met)

    def is_right(self, script, growing, result, line):
        if result.stdout == b'':
            return result.returncode == 2 and result.stderr == b'sgb: no room\n'
        return (line in growing and result.returncode == 1 and result.stderr == b''
                and result.stdout == with_refused(self.transcript_of, script, line))

    def try_script(self, script, wanted):
        growing = growing_lines(script)
        lines = script.split(b'\n')
        words = set()
        for number in range(1, 1000):
            result, is_met = self.run_refusing(script, number)
            if not is_met:
                break
            line = refused_line(result)
            if line:
                words.add(lines[line - 1].split(b' ')[0])
            self.tell(self.is_right(script, growing, result, line),
                      'growth', number, 'refused: wrong', result)
        self.tell(not is_met, 'more growths than expected')
        self.tell(result.returncode == 0 and result.stdout == self.transcript_of(script),
                  'a run with no growth refused differs')
        self.tell(wanted <= words, 'never refused:', wanted - words)

    def check_within(self, limit, text):
        """How `sgb check` ends on a text where at most `limit` bytes are to be had, and what it prints."""
        with tempfile.NamedTemporaryFile() as file:
            file.write(text)
            file.flush()
            ended = subprocess.run([self.program, 'check', file.name], stdout=subprocess.PIPE, stderr=subprocess.PIPE,
                                   env={'LD_PRELOAD': self.library, 'GROWTH_LIMIT': str(limit)})
            return ended.returncode, ended.stdout, ended.stderr

    def try_claims(self):
        for text in CLAIMS:
            met = self.check_within(1 << 20, text)
            self.tell(met == (1, b'refused 20 bad saved graph\n', b''), text, 'ended', met)
        met = self.check_within(0, CLAIMS[0])
        self.tell(met == (2, b'', b'sgb: no room\n'), 'no memory at all ended', met)


def main():
    program, library = sys.argv[1:3]
    growths = Growths(program, library, sys.argv[3:])
    growths.try_script(DRAWS, MET_DRAWS)
    growths.try_script(GRAPHS, MET_GRAPHS)
    growths.try_claims()
    print('growths: %d passed, %d failed' % (growths.passed, growths.failed))
    return 1 if growths.failed else 0


if __name__ == '__main__':
    sys.exit(main())
