#!/usr/bin/env python3
"""What hostile scripts cost, and how the cost of each operation grows. No part of the gate: it tells, and refuses nothing.

    costs.py hostile PROGRAM    seconds of processor and megabytes at most of the worst scripts within the limits
    costs.py growth PROGRAM     instructions for each unit of work at four sizes, counted by valgrind
"""
import math
import os
import re
import subprocess
import sys
import tempfile

MOST = 16777216
NAMES = [b'g%d' % k for k in range(64)]
HEADER = b'* GraphBase graph (util_types ZZZZZZZZZZZZZZ,%dV,%dA)\n'

# A graph of as many arcs as there may be, on many vertices and on one.
FULL = b'random %s 65535 1000000 1 1 1 0 100 1\n'
LOOPS = b'random g 1 1000000 1 1 1 0 0 1\n'


def filled(front, line, behind=b'.\n'):
    """A script of nearly 16 MiB: this line again and again between front and behind."""
    return front + line * ((MOST - len(front) - len(behind)) // len(line)) + behind


def text(vertices, arcs, vertex_lines, arc_lines, name=b'""'):
    return (b'load g check\n' + HEADER % (vertices, arcs) + b'%s,%d,%d\n* Vertices\n' % (name, vertices, arcs) + vertex_lines
            + b'* Arcs\n' + arc_lines + b'* Checksum -1\n.\n')


def long_names():
    name = b'"' + (b'x' * 70 + b'\\\n') * 58 + b'x' * 35 + b'",0\n'
    count = 16700000 // len(name)
    return text(count, 0, name * count, b'')


def classes(count):
    return b''.join(b'set g V%d z %d\n' % (v, -1 - v) for v in range(count))


HOSTILE = [
    ('`board g 16 16 16 15 128 0 0`', lambda: b'board g 16 16 16 15 128 0 0\n'),
    ('`board g 16 16 16 15 -128 -1 0`, refused 40', lambda: b'board g 16 16 16 15 -128 -1 0\n'),
    ('`board g 2 1 -20 0 4 0 0`, 20 sizes', lambda: b'board g 2 1 -20 0 4 0 0\n'),
    ('`board g 2 1 -20 0 -4 -1 0`, refused 40', lambda: b'board g 2 1 -20 0 -4 -1 0\n'),
    ('`board g 2 -15 0 0 13 0 0`, refused 40', lambda: b'board g 2 -15 0 0 13 0 0\n'),
    ('`board g 2 -15 0 0 14 0 0`, the worst piece of 15 sizes', lambda: b'board g 2 -15 0 0 14 0 0\n'),
    ('`subsets g 360 -2 0 0 0 0 0 0`', lambda: b'subsets g 360 -2 0 0 0 0 0 0\n'),
    ('`subsets g 8 -10 0 0 0 0 9223372036854775808 0`', lambda: b'subsets g 8 -10 0 0 0 0 9223372036854775808 0\n'),
    ('`subsets g 65534 -1 0 0 0 0 0 0`', lambda: b'subsets g 65534 -1 0 0 0 0 0 0\n'),
    ('`perms g 1 -7 0 0 0 0 0`, 40,320 arrangements', lambda: b'perms g 1 -7 0 0 0 0 0\n'),
    ('`perms g 1 -8 0 0 0 14 0`, refused 40', lambda: b'perms g 1 -8 0 0 0 14 0\n'),
    ('`perms g 252 3 0 0 0 0 0`, refused 40', lambda: b'perms g 252 3 0 0 0 0 0\n'),
    ('`binary g 11 0 0`, 58,786 trees', lambda: b'binary g 11 0 0\n'),
    ('`binary g 12 0 0`, refused 40', lambda: b'binary g 12 0 0\n'),
    ('`binary` of 100 nodes at each height', lambda: b''.join(b'binary g 100 %d 0\nundo\n' % h for h in range(1, 101))),
    ('`induced` with 65,535 copies', lambda: b'graph g 1\nset g V0 z 65535\ninduced h g "" 1 1 0\n'),
    ('`induced` of 1,000,000 arcs into 60,000 classes', lambda: FULL % b'g' + classes(60000) + b'induced h g "" 1 0 1\n'),
    ('`complement` of 1,000 vertices without arcs', lambda: b'graph g 1000\ncomplement h g 0 1 1\n'),
    ('`gunion` of 1,000,000 arcs with themselves', lambda: FULL % b'g' + b'gunion h g g 0 1\n'),
    ('`product` of 255 and 257 vertices, names of 2,046 bytes', lambda: b'graph g 255\ngraph h 257\n' + b''.join(
        b'label %s %d "%s"\n' % (g, v, b'x' * 2046) for g, n in ((b'g', 255), (b'h', 257)) for v in range(n))
     + b'product i g h 0 0\n'),
    ('`random` of all but one pair of 1,000 vertices, refused 106', lambda: b'random g 1000 999999 0 1 1 0 0 1\n'),
    ('`random` of all pairs of 800 vertices', lambda: b'random g 800 640000 0 1 1 0 0 1\n'),
    ('`lengths` of 1,000,000 arcs, undone and redone', lambda: FULL % b'g' + b'lengths g 1 0 1073741824 -\nundo\nredo\n'),
    ('load: 16 MiB of continuation lines in a text', lambda: filled(b'load g any\n' + HEADER % (1, 0), b'\\\n')),
    ('load: 16 MiB of names in continuation lines', long_names),
    ('load: 1,000,000 holes of 16 bytes', lambda: text(1, 1000000, b'"",0\n', b'0,0,00000000000\n' * 1000000)),
    ('load: 1,000,000 arcs', lambda: text(1, 1000000, b'"",A0\n', b''.join(
        b'V0,A%d,1\n' % k for k in range(1, 1000000)) + b'V0,0,1\n')),
    ('load: 16 MiB of empty lines', lambda: filled(b'load g any\n', b'\n')),
    ('16 MiB of empty lines', lambda: b'\n' * MOST),
    ('8,388,608 lines `x`, refused 100', lambda: b'x\n' * (MOST // 2)),
    ('one line of 16 MiB', lambda: b'x' * MOST),
    ('4,194,304 lines `gen`', lambda: b'gen\n' * (MOST // 4)),
    ('300,000 lines `list` of 64 graphs', lambda: b''.join(b'graph %s 0\n' % n for n in NAMES) + b'list\n' * 300000),
    ('65,535 draws, undone and redone 20 times', lambda: b'next\n' * 65535 + (b'undo\n' * 65535 + b'redo\n' * 65535) * 20),
    ('64 random graphs of 1,000,000 arcs', lambda: b''.join(FULL % name for name in NAMES)),
    ('one such graph, shown and saved', lambda: FULL % b'g' + b'show g\nsave g\n'),
    ('one such graph, made and dropped 30 times', lambda: (FULL % b'g' + b'drop g\n') * 30),
    ('the last of 1,000,000 arcs of one vertex, cut and undone 200 times', lambda: LOOPS + b'cut g 0\nundo\n' * 200),
]


def hostile(program):
    for name, script in HOSTILE:
        with tempfile.NamedTemporaryFile() as file, tempfile.NamedTemporaryFile() as told:
            file.write(script())
            file.flush()
            # (started by this process itself, the program would count this one's memory as its own)
            ran = subprocess.Popen(['/usr/bin/time', '-o', told.name, '-f', '%U %S %M', program, 'run', file.name],
                                   stdout=subprocess.PIPE)
            last = subprocess.run(['tail', '-c', '200'], stdin=ran.stdout, stdout=subprocess.PIPE).stdout.split(b'\n')[-2:-1]
            ran.stdout.close()
            ran.wait()
            user, system, most = told.read().split(b'\n')[-2].split()
        print('| %s | %.2f | %d | %s |' % (name, float(user) + float(system), int(most) / 1024, b''.join(last).decode()),
              flush=True)


def random_graph(arcs, name=b'g'):
    return b'random %s %d %d 1 1 1 0 100 1\n' % (name, arcs // 4, arcs)


def saved(program, arcs):
    """A line `load` with the saved text of a random graph."""
    lines = run(program, random_graph(arcs) + b'save g\n').split(b'\n')
    return b'load h check\n' + b'\n'.join(lines[1:-2]) + b'\n.\n'


ARCS = [5000, 10000, 20000, 40000]

# An operation: what a unit of its work is, its sizes, and of each size the lines in front, its line, and its units of work.
GROWTH = [
    ('`board`, a wazir', 'vertex and arc', [20, 40, 80, 160],
     lambda p, n: (b'', b'board g %d %d 0 0 1 0 0\n' % (n, n), n * n + 4 * n * (n - 1))),
    ('`board`, a rook', 'vertex and arc', [10, 15, 20, 30],
     lambda p, n: (b'', b'board g %d %d 0 0 -1 0 0\n' % (n, n), n * n + 2 * n * n * (n - 1))),
    ('`simplex`', 'vertex and arc', [20, 40, 80, 160],
     lambda p, n: (b'', b'simplex g %d 0 0 0 0 0 0\n' % n, math.comb(n + 2, 2) + 6 * math.comb(n + 1, 2))),
    # (the points of fewer than 22 are compared by codes of one word, at a third of the cost)
    ('`subsets`', 'pair of vertices', [30, 40, 60, 80],
     lambda p, n: (b'', b'subsets g %d -2 0 0 0 0 0 0\n' % n, math.comb(math.comb(n + 2, 2), 2))),
    ('`perms` of k elements', 'element of each vertex', [5, 6, 7, 8],
     lambda p, k: (b'', b'perms g 1 -%d 0 0 0 0 0\n' % (k - 1), math.factorial(k) * k)),
    ('`binary` of n nodes', 'node of each vertex', [6, 7, 8, 9],
     lambda p, n: (b'', b'binary g %d 0 0\n' % n, math.comb(2 * n, n) // (n + 1) * n)),
    ('`random`', 'arc', ARCS, lambda p, m: (b'', random_graph(m), m)),
    ('`complement`', 'pair of vertices', [50, 100, 200, 300], lambda p, n: (b'graph g %d\n' % n, b'complement h g 0 1 1\n', n * n)),
    ('`gunion`', 'arc of both', ARCS,
     lambda p, m: (random_graph(m) + random_graph(m, b'h'), b'gunion i g h 0 1\n', 2 * m)),
    ('`intersection`', 'arc of both', ARCS,
     lambda p, m: (random_graph(m) + random_graph(m, b'h'), b'intersection i g h 1\n', 2 * m)),
    ('`product` of two cycles', 'vertex and arc', [20, 40, 60, 80],
     lambda p, n: (b'board g %d 0 0 0 1 1 0\n' % n, b'product h g g 0 0\n', 5 * n * n)),
    ('`induced`', 'arc', ARCS, lambda p, m: (random_graph(m) + classes(m // 4), b'induced h g "" 1 0 1\n', m)),
    ('`lengths`', 'arc', ARCS, lambda p, m: (random_graph(m), b'lengths g 1 0 100 -\n', m)),
    ('its undo and redo', 'arc', ARCS, lambda p, m: (random_graph(m) + b'lengths g 1 0 100 -\n', b'undo\nredo\n', m)),
    ('`save`', 'arc', ARCS, lambda p, m: (random_graph(m), b'save g\n', m)),
    ('`load`', 'arc', ARCS, lambda p, m: (b'', saved(p, m), m)),
    ('`show`', 'arc', ARCS, lambda p, m: (random_graph(m), b'show g\n', m)),
]


def run(program, script):
    return subprocess.run([program, 'run'], input=script, stdout=subprocess.PIPE).stdout


def instructions(program, script):
    with tempfile.NamedTemporaryFile() as file:
        file.write(script)
        file.flush()
        words = ['valgrind', '--tool=cachegrind', '--cache-sim=no', '--cachegrind-out-file=' + os.devnull]
        told = subprocess.run([*words, program, 'run', file.name], stdout=subprocess.DEVNULL, stderr=subprocess.PIPE, text=True)
        return int(re.search(r'I\s+refs:\s+([\d,]+)', told.stderr)[1].replace(',', ''))


def growth(program):
    for name, unit, sizes, made in GROWTH:
        told = []
        for size in sizes:
            front, line, work = made(program, size)
            told.append('%.0f' % ((instructions(program, front + line) - instructions(program, front)) / work))
        print('| %s | %s | %s | %s |' % (name, ', '.join('{:,}'.format(it) for it in sizes), unit, ' | '.join(told)), flush=True)


if __name__ == '__main__':
    {'hostile': hostile, 'growth': growth}[sys.argv[1]](sys.argv[2])
