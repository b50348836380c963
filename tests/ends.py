#!/usr/bin/env python3
"""Runs scripts with reads that fail, end early or give few bytes, and with writes that fail or take few bytes, at every byte.

    ends.py PROGRAM LIBRARY

LIBRARY is made of fail_io.c. After a failed read the units that were complete are answered, and no other. After an
early end the script is what came until then. After a failed write just the bytes before it were written. What complete
units are answered is compared with the kept transcript; what a cut script is answered, with a run of the cut script from a
file, without the library.
"""
import os
import subprocess
import sys
import tempfile

from units import units

# The bytes that a read gives or a write takes at most, in turn.
SIZES = [None, 1, 2, 7, 100]

# The examples that are cut at every byte: with a text, with refused lines, with undos.
EXAMPLES = ['saved', 'refused', 'undo']

# Two vertices that an edge joins, as they are saved.
EDGE = b"""* GraphBase graph (util_types ZZZZZZZZZZZZZZ,2V,2A)
"gb_new_graph(2)",2,2
* Vertices
"",A0
"",A1
* Arcs
V1,0,5
V0,0,5
* Checksum 450523822
"""

# Texts that are refused or have no end.
TEXTS = (b'next\nload g check\n' + EDGE + b'.\nlist\n load g any\n' + EDGE[:70] + b'\n.\nload h\nnext\n.\n'
         b'load h any x\n.\nundo\n"load" h any\nload h any\n' + EDGE)

GROUPS = (b'next\ngroup\ngraph a 2\nedge a 0 1 5\n# a member is no line of its own\n\nnext\n end \nlist\nundo\ngen\n'
          b'redo\ngroup\nload h check\n' + EDGE + b'.\nid h "end"\nend\ngroup\nnext\ngraph a 1\nend\ngroup 2\nnext\nend\n'
          b'end\ngen\ngroup\nload i any\nend\n.\nend\nlist\ngroup\nnext\n')


class Ends:
    def __init__(self, program, library):
        self.program, self.library = program, os.path.abspath(library)
        self.folder = tempfile.TemporaryDirectory()
        self.passed = self.failed = 0

    def tell(self, met, wanted, *words):
        if met == wanted:
            self.passed += 1
        else:
            self.failed += 1
            print(*words, 'ended', met, 'in place of', wanted)

    def file(self, name, data):
        path = os.path.join(self.folder.name, name)
        with open(path, 'wb') as file:
            file.write(data)
        return path

    def plain(self, data, *words):
        """The status of a run over a file of these bytes, and what it wrote."""
        ended = subprocess.run([self.program, *words, self.file('plain', data)], stdout=subprocess.PIPE)
        return ended.returncode, ended.stdout

    def failing(self, words, path=None, **numbers):
        """The status of a run with these failures, and what it wrote to both its ends."""
        environment = {name.upper(): str(number) for name, number in numbers.items() if number is not None}
        with open(path or os.devnull, 'rb') as file:
            ended = subprocess.run([self.program, *words], stdin=file, stdout=subprocess.PIPE, stderr=subprocess.PIPE,
                                   env={'LD_PRELOAD': self.library, **environment})
        return ended.returncode, ended.stdout, ended.stderr

    def try_script(self, name, script, kept=None, has_groups=False):
        path, (status, transcript) = self.file('script', script), self.plain(script, 'run')
        found = units(script, has_groups)
        self.tell(transcript, kept or transcript, name)
        for size in SIZES:
            self.tell(self.failing(['run'], path, read_size=size, write_size=size), (status, transcript, b''), name, size)
        complete = self.complete(name, script, transcript, found)
        for at in range(len(script) + 1):
            told, size = complete[max(it for it in complete if it <= at)], SIZES[at % len(SIZES)]
            met = self.failing(['run'], path, read_fails_at=at, read_size=size)
            self.tell(met, (2, told, b'sgb: read failed\n'), name, 'with a read failing at', at)
            met = self.failing(['run'], path, read_ends_at=at, read_size=size)
            self.tell(met, (*self.cut(name, script, told, at, has_groups), b''), name, 'with its end at', at)
            if len(told) > 0:
                # Both fail: the write is met first, since what was answered is written before the next read.
                less = at % len(told)
                met = self.failing(['run'], path, read_fails_at=at, write_fails_at=less)
                self.tell(met, (2, told[:less], b'sgb: write failed\n'), name, 'with failures at', at, 'and', less)
        self.try_writes(name, ['run'], path, status, transcript)

    def complete(self, name, script, transcript, found):
        """What is answered to all units before each byte that ends one."""
        complete = {0: b''}
        for unit in found:
            if unit.is_whole:
                complete[unit.end] = self.plain(script[:unit.end], 'run')[1]
                self.tell(transcript[:len(complete[unit.end])], complete[unit.end], name, 'up to', unit.end)
        return complete

    def cut(self, name, script, told, at, has_groups):
        """How a script ends that is cut at a byte. A text or a group without its end is refused."""
        status, transcript = self.plain(script[:at], 'run')
        found = units(script[:at], has_groups)
        if found and found[-1].is_open:
            refused = b'line %d: refused 100 bad command\n' % found[-1].number
            self.tell((status, transcript), (1, told + refused), name, 'cut at', at)
        self.tell(transcript[:len(told)], told, name, 'cut at', at)
        return status, transcript

    def try_writes(self, name, words, path, status, written):
        for at in range(len(written)):
            met = self.failing(words, path, write_fails_at=at, write_size=SIZES[at % len(SIZES)])
            self.tell(met, (2, written[:at], b'sgb: write failed\n'), name, 'with a write failing at', at)
        met = self.failing(words, path, write_fails_at=len(written))
        self.tell(met, (status, written, b''), name, 'with no byte behind the failure')

    def try_check(self):
        path = self.file('edge', EDGE)
        for at in range(len(EDGE) + 1):
            size = SIZES[at % len(SIZES)]
            met = self.failing(['check', path], read_fails_at=at, read_size=size)
            self.tell(met, (2, b'', b'sgb: read failed\n'), 'check with a read failing at', at)
            for words in ['check'], ['check', '--any']:
                met = self.failing([*words, path], read_ends_at=at, read_size=size)
                self.tell(met, (*self.plain(EDGE[:at], *words), b''), *words, 'with its end at', at)
        self.try_writes('check', ['check', path], None, *self.plain(EDGE, 'check'))

    def try_export(self):
        """The export of a text from standard input. A cut text is refused as the check of it is."""
        words, path = ['export', '--as', 'dot'], self.file('edge', EDGE)
        status, exported = self.plain(EDGE, *words)
        self.tell((status, exported[:7]), (0, b'graph "'), *words)
        for at in range(len(EDGE) + 1):
            size = SIZES[at % len(SIZES)]
            met = self.failing(words, path, read_fails_at=at, read_size=size)
            self.tell(met, (2, b'', b'sgb: read failed\n'), 'export with a read failing at', at)
            status, told = self.plain(EDGE[:at], 'check')
            met = self.failing(words, path, read_ends_at=at, read_size=size)
            self.tell(met, (1, b'', b'sgb: ' + told) if status else (0, exported, b''), 'export with its end at', at)
        self.try_writes('export', words, path, 0, exported)

    def try_import(self, name):
        """The import of a text from standard input. A cut text is imported, or refused, as the same text from a file."""
        path = os.path.join(os.path.dirname(__file__), 'imported', name)
        with open(path, 'rb') as file, open(path + '.out', encoding='utf-8') as told:
            text, words = file.read(), told.readline().split()
        for at in range(len(text) + 1):
            size = SIZES[at % len(SIZES)]
            met = self.failing(words, path, read_fails_at=at, read_size=size)
            self.tell(met, (2, b'', b'sgb: read failed\n'), *words, 'with a read failing at', at)
            whole = subprocess.run([self.program, *words], input=text[:at], stdout=subprocess.PIPE, stderr=subprocess.PIPE)
            met = self.failing(words, path, read_ends_at=at, read_size=size)
            self.tell(met, (whole.returncode, whole.stdout, whole.stderr), *words, 'with its end at', at)
        status, written = self.plain(text, *words)
        if status == 0:
            self.try_writes(name, words, path, status, written)

    def try_reader(self, *words):
        """A program that reads a saved text from standard input, and writes of it."""
        path = self.file('edge', EDGE)
        status, written = self.plain(EDGE, *words)
        self.tell(status, 0, *words)
        for at in range(len(EDGE) + 1):
            met = self.failing([*words, '-'], path, read_fails_at=at, read_size=SIZES[at % len(SIZES)])
            self.tell(met, (2, b'', b'sgb: read failed\n'), *words, 'with a read failing at', at)
        self.try_writes(' '.join(words), [*words, '-'], path, 0, written)

    def try_queen(self):
        queen = subprocess.run([self.program, 'queen'], stdout=subprocess.PIPE).stdout
        self.try_writes('queen', ['queen'], None, 0, queen)


def main():
    program, library = sys.argv[1:]
    ends = Ends(program, library)
    for name in EXAMPLES:
        with open('examples/%s.sgb' % name, 'rb') as script, open('examples/%s.out' % name, 'rb') as kept:
            ends.try_script(name, script.read(), kept.read())
    ends.try_script('texts', TEXTS)
    if ends.plain(b'group\nend\n', 'run')[0] == 0:
        ends.try_script('groups', GROUPS, has_groups=True)
    ends.try_check()
    ends.try_export()
    for name in 'plain.edges', 'names-announced.edges', 'paths.dimacs', 'petersen.graph6', 'two.graph6':
        ends.try_import(name)
    for words in ['info'], ['export', '--as', 'graph6'], ['export', '--as', 'col']:
        ends.try_reader(*words)
    ends.try_queen()
    print('ends: %d passed, %d failed' % (ends.passed, ends.failed))
    return 1 if ends.failed else 0


if __name__ == '__main__':
    sys.exit(main())
