#!/usr/bin/env python3
"""Runs the program with good and bad command lines, scripts, readers and writers, and compares what it prints
and its status with what the description of the program wants, which is written here by hand. Each run ends as a row of
the table of faults in docs/language.md says, and each row is met by each of its commands.

    program.py PROGRAM
"""
import os
import re
import resource
import select
import subprocess
import sys
import tempfile

# Two vertices that an edge joins, as they are saved.
EDGE = b'''* GraphBase graph (util_types ZZZZZZZZZZZZZZ,2V,2A)
"gb_new_graph(2)",2,2
* Vertices
"",A0
"",A1
* Arcs
V1,0,5
V0,0,5
* Checksum 450523822
'''

# The same graph under a number that is not that of its lines.
WRONG = EDGE.replace(b'22\n', b'23\n')

EDGE_TOLD = b'"gb_new_graph(2)"\n2 vertices, 2 arcs, 2 numbers\n'
EDGE_LISTED = b'# graph 2 1\n# id "gb_new_graph(2)"\n0 1 5\n'

EDGE_PLACED = b'''graph "gb_new_graph(2)" {
  0 [label="", pos="0,0"];
  1 [label="", pos="0,0"];
  0 -- 1 [label="5"];
}
'''

# An arc that is no edge, and a vertex whose field x is a text, as they are saved.
ARC = EDGE.replace(b'"",A1', b'"",0').replace(b'V0,0,5', b'0,0,0').replace(b',2,2', b',2,1').replace(b'450523822', b'-1')
NAMED = b'''* GraphBase graph (util_types ZZZSZZZZZZZZZZ,1V,0A)
"gb_new_graph(1)",1,0
* Vertices
"",0,"east"
* Arcs
* Checksum -1
'''

EDGE_FACTS = b'''id              "gb_new_graph(2)"
vertices        2
arcs            2
edges           1
loops           0
repeated        0
out-least       1
out-greatest    1
in-least        -
in-greatest     -
length-least    5
length-greatest 5
components      1
bipartite       yes
honest          yes
check           450523822
'''

# A vertex with an arc to none, as it is saved. Its check number is not compared.
ASTRAY = b'''* GraphBase graph (util_types ZZZZZZZZZZZZZZ,1V,1A)
"gb_new_graph(1)",1,1
* Vertices
"",A0
* Arcs
0,0,5
* Checksum -1
'''

# The files of the folder in which the program runs.
FILES = {'next': b'next\n', 'unfinished': b'next\nnext', 'refused': b'bogus\nnext\n', 'empty': b'',
         '-': b'seed 7\n', '--help': b'unif 1\n', 'edge': EDGE, 'wrong': WRONG,
         'large': EDGE.replace(b',2V', b',70000V'), 'longest': b'\n' * 16777216, 'long': b'\n' * 16777217,
         'astray': ASTRAY, 'arc': ARC, 'named': NAMED}

# Files of so many bytes 0.
SIZES = {'most': 268435456, 'more': 268435457}

NEXT = b'2029883356\n'
REFUSED = b'line 1: refused 100 bad command\n'
BAD_SAVED = b'refused 20 bad saved graph\n'
BAD_LINE = b'sgb: bad command line\n'
BAD_WORDS = b'sgb: refused 100 bad command\n'
BAD_SPECS = b'sgb: refused 30 bad specification\n'
BAD_TEXT = b'sgb: refused 20 bad saved graph\n'
BAD_CHECK = b'sgb: refused 11 check number is wrong\n'
BAD_OPERAND = b'sgb: refused 60 bad operand\n'
NOT_AN_EDGE = b'sgb: refused 20 (line 1: not an edge)\n'

# A vertex without arcs, as it is saved.
VERTEX = b'''* GraphBase graph (util_types ZZZZZZZZZZZZZZ,1V,0A)
"gb_new_graph(1)",1,0
* Vertices
"",0
* Arcs
* Checksum 607769883
'''

# The words of a command line, the status, and what standing output and standard error get.
COMMAND_LINES = [
    (['run', 'next'], 0, NEXT, b''),
    (['run', 'unfinished'], 0, NEXT + b'2073281797\n', b''),
    (['run', 'empty'], 0, b'', b''),
    (['run'], 0, b'', b''),
    (['run', 'refused'], 1, REFUSED + NEXT, b''),
    # `-` is standard input, `./-` is a file, and `--` ends the flags.
    (['run', '-'], 0, b'', b''),
    (['run', './-'], 0, b'ok\n', b''),
    (['run', '--', '-'], 0, b'', b''),
    (['run', '--', './-'], 0, b'ok\n', b''),
    (['run', '--', '--help'], 0, b'0\n', b''),
    (['run', '--', 'next'], 0, NEXT, b''),
    ([], 2, b'', b'sgb: bad command line\n'),
    ([''], 2, b'', b'sgb: bad command line\n'),
    (['walk'], 2, b'', b'sgb: bad command line\n'),
    (['next'], 2, b'', b'sgb: bad command line\n'),
    (['--walk'], 2, b'', b'sgb: bad command line\n'),
    (['run', '--walk'], 2, b'', b'sgb: bad command line\n'),
    (['run', '-w', 'next'], 2, b'', b'sgb: bad command line\n'),
    (['run', 'next', '--walk'], 2, b'', b'sgb: bad command line\n'),
    (['run', 'next', 'next'], 2, b'', b'sgb: bad command line\n'),
    (['run', '-', '-'], 2, b'', b'sgb: bad command line\n'),
    (['run', 'next', '--', 'next'], 2, b'', b'sgb: bad command line\n'),
    (['run', 'absent'], 2, b'', b'sgb: cannot open absent\n'),
    (['run', '--', '--walk'], 2, b'', b'sgb: cannot open --walk\n'),
    (['run', 'next/next'], 2, b'', b'sgb: cannot open next/next\n'),
    # A directory opens, and then the read fails.
    (['run', '.'], 2, b'', b'sgb: read failed\n'),
    (['queen', 'next'], 2, b'', b'sgb: bad command line\n'),
    (['queen', '--any'], 2, b'', b'sgb: bad command line\n'),
    (['check', 'edge'], 0, EDGE_TOLD, b''),
    (['check', 'wrong'], 1, b'refused 11 check number is wrong\n', b''),
    (['check', '--any', 'wrong'], 0, EDGE_TOLD, b''),
    (['check', 'wrong', '--any'], 0, EDGE_TOLD, b''),
    (['check', '--any', 'edge'], 0, EDGE_TOLD, b''),
    (['check', 'large'], 1, b'refused 40 too large\n', b''),
    (['check', 'empty'], 1, BAD_SAVED, b''),
    (['check', '--any', 'empty'], 1, BAD_SAVED, b''),
    (['check', '-'], 1, BAD_SAVED, b''),
    (['check', './-'], 1, BAD_SAVED, b''),
    (['check', '--', '--help'], 1, BAD_SAVED, b''),
    (['check', '--', 'edge'], 0, EDGE_TOLD, b''),
    (['check', '--any', '--', 'wrong'], 0, EDGE_TOLD, b''),
    (['check', 'longest'], 1, BAD_SAVED, b''),
    (['check', 'long'], 2, b'', b'sgb: too long\n'),
    (['check'], 2, b'', b'sgb: bad command line\n'),
    (['check', '--any'], 2, b'', b'sgb: bad command line\n'),
    (['check', '--any', '--any', 'edge'], 2, b'', b'sgb: bad command line\n'),
    (['check', '--all', 'edge'], 2, b'', b'sgb: bad command line\n'),
    (['check', 'edge', 'edge'], 2, b'', b'sgb: bad command line\n'),
    (['check', '-', '-'], 2, b'', b'sgb: bad command line\n'),
    (['check', 'absent'], 2, b'', b'sgb: cannot open absent\n'),
    (['check', '--', '--any'], 2, b'', b'sgb: cannot open --any\n'),
    (['check', '.'], 2, b'', b'sgb: read failed\n'),
    (['make', 'graph', '1'], 0, VERTEX, b''),
    (['make', '--', 'graph', '1'], 0, VERTEX, b''),
    (['make', 'graph', '--', '1'], 0, VERTEX, b''),
    (['make', 'graph'], 1, b'', BAD_WORDS),
    (['make', 'graph', 'g', '1'], 1, b'', BAD_WORDS),
    (['make', 'graph', '1', '1'], 1, b'', BAD_WORDS),
    (['make', 'graph', '+1'], 1, b'', BAD_WORDS),
    (['make', 'graph', '"1"'], 1, b'', BAD_WORDS),
    (['make', 'graph', '1\n'], 1, b'', BAD_WORDS),
    (['make', 'graph', ''], 1, b'', BAD_WORDS),
    (['make', 'graph', '0' * 8185], 1, b'', BAD_WORDS),
    (['make', 'graph', '-1'], 1, b'', BAD_SPECS),
    (['make', 'graph', '65536'], 1, b'', b'sgb: refused 40 too large\n'),
    (['make', 'random', '1', '1', '0', '0', '0', '1', '1', '-'], 1, b'', b'sgb: refused 106 stuck\n'),
    (['make', 'binary', '3', '9', 'no'], 1, b'', BAD_WORDS),
    (['make'], 2, b'', BAD_LINE),
    (['make', ''], 2, b'', BAD_LINE),
    (['make', '--any', 'graph', '1'], 2, b'', BAD_LINE),
    (['make', '--any', '--any', 'complement', 'wrong', '0', '0', '0'], 2, b'', BAD_LINE),
    (['make', 'lengths'], 2, b'', BAD_LINE),
    (['make', 'complement'], 2, b'', BAD_LINE),
    (['make', 'gunion', 'edge'], 2, b'', BAD_LINE),
    (['make', 'intersection', 'edge'], 2, b'', BAD_LINE),
    (['make', 'product', 'edge'], 2, b'', BAD_LINE),
    (['make', 'induced', 'edge'], 2, b'', BAD_LINE),
    (['make', 'gunion', '-', '-', '0', '0'], 2, b'', BAD_LINE),
    (['make', '--', 'product', '-', '-', '0', '0'], 2, b'', BAD_LINE),
    (['make', 'complement', 'absent', '0', '0', '0'], 2, b'', b'sgb: cannot open absent\n'),
    (['make', 'gunion', 'edge', 'absent', '0', '0'], 2, b'', b'sgb: cannot open absent\n'),
    (['make', 'lengths', '.', '0', '1', '1', '-'], 2, b'', b'sgb: read failed\n'),
    (['make', 'complement', 'long', '0', '0', '0'], 1, b'', BAD_TEXT),
    (['make', 'complement', 'more', '0', '0', '0'], 2, b'', b'sgb: too long\n'),
    (['make', 'gunion', 'edge', 'more', '0', '0'], 2, b'', b'sgb: too long\n'),
    # Of two files the first is refused first, and then the command.
    (['make', 'complement', 'wrong', '0', '0', '0'], 1, b'', BAD_CHECK),
    (['make', 'gunion', 'empty', 'wrong', '0', '0'], 1, b'', BAD_TEXT),
    (['make', 'gunion', 'wrong', 'empty', '0', '0'], 1, b'', BAD_CHECK),
    (['make', 'gunion', 'edge', 'wrong', '0', '0'], 1, b'', BAD_CHECK),
    (['make', 'gunion', 'edge', './-', '0', '0'], 1, b'', BAD_TEXT),
    (['make', '--any', 'gunion', 'wrong', 'empty', '0', '0'], 1, b'', BAD_TEXT),
    (['make', 'gunion', 'edge', 'wrong', '0', '0', '0'], 1, b'', BAD_CHECK),
    (['make', 'gunion', 'edge', 'edge', '0', '0', '0'], 1, b'', BAD_WORDS),
    (['make', 'gunion', 'edge', 'edge'], 1, b'', BAD_WORDS),
    (['make', 'complement', 'edge', 'edge', '0', '0', '0'], 1, b'', BAD_WORDS),
    (['make', 'complement', 'astray', '0', '0', '0'], 1, b'', BAD_OPERAND),
    (['make', 'lengths', 'edge', '0', '1', '0', '7'], 1, b'', b'sgb: refused 40 too large\n'),
    (['make', 'lengths', 'edge', '0', '1', '1'], 1, b'', BAD_WORDS),
    (['make', 'induced', 'edge', '"D"', '0', '0', '0'], 1, b'', BAD_WORDS),
    (['make', 'induced', 'edge', 'a" "b', '0', '0', '0'], 1, b'', BAD_WORDS),
    (['make', 'induced', 'edge', 'D' * 41, '0', '0', '0'], 1, b'', BAD_SPECS),
    (['make', 'load', 'any'], 2, b'', BAD_LINE),
    (['make', 'next'], 2, b'', BAD_LINE),
    (['make', 'graphs', '1'], 2, b'', BAD_LINE),
    (['make', '--walk', 'graph', '1'], 2, b'', BAD_LINE),
    (['make', 'graph', '--walk'], 2, b'', BAD_LINE),
    (['make', 'graph', '-w'], 2, b'', BAD_LINE),
    (['export', '--as', 'edges', 'edge'], 0, EDGE_LISTED, b''),
    (['export', 'edge', '--as', 'edges'], 0, EDGE_LISTED, b''),
    (['export', '--as', 'edges', '--any', 'wrong'], 0, EDGE_LISTED, b''),
    (['export', '--any', '--as', 'edges', '--', 'edge'], 0, EDGE_LISTED, b''),
    (['export', '--as', 'dimacs', 'edge'], 0, b'c gb_new_graph(2)\np sp 2 2\na 1 2 5\na 2 1 5\n', b''),
    (['export', '--as', 'col', 'edge'], 0, b'c gb_new_graph(2)\np edge 2 1\ne 1 2\n', b''),
    (['export', '--as', 'graph6', 'edge'], 0, b'A_\n', b''),
    (['export', '--as', 'dot', '--pos', 'edge'], 0, EDGE_PLACED, b''),
    (['export', '--pos', '--any', '--as', 'dot', 'wrong'], 0, EDGE_PLACED, b''),
    (['export', '--as', 'dot'], 1, b'', BAD_TEXT),
    (['export', '--as', 'dot', 'empty'], 1, b'', BAD_TEXT),
    (['export', '--as', 'dot', '--any', 'empty'], 1, b'', BAD_TEXT),
    (['export', '--as', 'dot', '-'], 1, b'', BAD_TEXT),
    (['export', '--as', 'dot', './-'], 1, b'', BAD_TEXT),
    (['export', '--as', 'dot', '--', '--help'], 1, b'', BAD_TEXT),
    (['export', '--as', 'dot', 'large'], 1, b'', b'sgb: refused 40 too large\n'),
    (['export', '--as', 'graphml', 'wrong'], 1, b'', BAD_CHECK),
    (['export', '--as', 'dot', 'astray'], 1, b'', BAD_OPERAND),
    (['export', '--as', 'edges', '--names', 'edge'], 1, b'', BAD_OPERAND),
    (['export', '--as', 'col', 'astray'], 1, b'', BAD_OPERAND),
    (['export', '--as', 'col', 'arc'], 1, b'', BAD_OPERAND),
    (['export', '--as', 'graph6', 'arc'], 1, b'', BAD_OPERAND),
    (['export', '--as', 'dot', '--pos', 'named'], 1, b'', BAD_OPERAND),
    (['export', '--as', 'edges', '--names', '--any', 'wrong'], 1, b'', BAD_OPERAND),
    # The text itself is refused before its export.
    (['export', '--as', 'edges', '--names', 'wrong'], 1, b'', BAD_CHECK),
    # More is read than of a graph that is checked.
    (['export', '--as', 'dot', 'long'], 1, b'', BAD_TEXT),
    (['export', '--as', 'dot', 'most'], 1, b'', BAD_TEXT),
    (['export', '--as', 'dot', 'more'], 2, b'', b'sgb: too long\n'),
    (['info', 'edge'], 0, EDGE_FACTS, b''),
    (['info', '--any', 'wrong'], 0, EDGE_FACTS, b''),
    (['info', 'wrong'], 1, b'', BAD_CHECK),
    (['info', 'empty'], 1, b'', BAD_TEXT),
    (['info', '--any', 'astray'], 1, b'', BAD_OPERAND),
    (['info', 'most'], 1, b'', BAD_TEXT),
    (['info', 'more'], 2, b'', b'sgb: too long\n'),
    (['info', 'absent'], 2, b'', b'sgb: cannot open absent\n'),
    (['info', '.'], 2, b'', b'sgb: read failed\n'),
    (['info'], 1, b'', BAD_TEXT),
    (['info', '--any', '--any', 'edge'], 2, b'', BAD_LINE),
    (['info', '--all', 'edge'], 2, b'', BAD_LINE),
    (['info', 'edge', 'edge'], 2, b'', BAD_LINE),
    (['info', '-', '-'], 2, b'', BAD_LINE),
    (['import', '--from', 'edges', 'next'], 1, b'', NOT_AN_EDGE),
    (['import', 'next', '--from', 'edges'], 1, b'', NOT_AN_EDGE),
    (['import', '--from', 'edges', '--', '--help'], 1, b'', NOT_AN_EDGE),
    (['import', '--from', 'edges', 'most'], 1, b'', NOT_AN_EDGE),
    (['import', '--from', 'edges', 'more'], 2, b'', b'sgb: too long\n'),
    (['import', '--from', 'dimacs', 'absent'], 2, b'', b'sgb: cannot open absent\n'),
    (['import', '--from', 'graph6', '.'], 2, b'', b'sgb: read failed\n'),
    (['import'], 2, b'', BAD_LINE),
    (['import', 'next'], 2, b'', BAD_LINE),
    (['import', '--from'], 2, b'', BAD_LINE),
    (['import', '--from', 'dot', 'next'], 2, b'', BAD_LINE),
    (['import', '--from', 'col', 'next'], 2, b'', BAD_LINE),
    (['import', '--from', 'edges', '--any', 'next'], 2, b'', BAD_LINE),
    (['import', '--from', 'edges', '--from', 'edges', 'next'], 2, b'', BAD_LINE),
    (['import', '--from', 'edges', '--names', '--names', 'next'], 2, b'', BAD_LINE),
    (['import', '--from', 'edges', '--directed', '--directed', 'next'], 2, b'', BAD_LINE),
    (['import', '--from', 'dimacs', '--names', 'next'], 2, b'', BAD_LINE),
    (['import', '--from', 'dimacs', '--directed', 'next'], 2, b'', BAD_LINE),
    (['import', '--from', 'graph6', '--names', 'next'], 2, b'', BAD_LINE),
    (['import', '--from', 'graph6', '--directed', 'next'], 2, b'', BAD_LINE),
    (['import', '--from', 'edges', 'next', 'next'], 2, b'', BAD_LINE),
    (['import', '--from', 'edges', '-', '-'], 2, b'', BAD_LINE),
    (['export'], 2, b'', BAD_LINE),
    (['export', 'edge'], 2, b'', BAD_LINE),
    (['export', '--as'], 2, b'', BAD_LINE),
    (['export', '--as', '', 'edge'], 2, b'', BAD_LINE),
    (['export', '--as', 'svg', 'edge'], 2, b'', BAD_LINE),
    (['export', '--as', 'DOT', 'edge'], 2, b'', BAD_LINE),
    (['export', '--as', '--any', 'edge'], 2, b'', BAD_LINE),
    (['export', '--as', 'dot', '--as', 'dot', 'edge'], 2, b'', BAD_LINE),
    (['export', '--as', 'dot', '--any', '--any', 'edge'], 2, b'', BAD_LINE),
    (['export', '--as', 'edges', '--names', '--names', 'edge'], 2, b'', BAD_LINE),
    (['export', '--as', 'dot', '--pos', '--pos', 'edge'], 2, b'', BAD_LINE),
    (['export', '--as', 'edges', '--pos', 'edge'], 2, b'', BAD_LINE),
    (['export', '--as', 'edges', '--names', '--pos', 'edge'], 2, b'', BAD_LINE),
    (['export', '--as', 'dot', '--names', '--pos', 'edge'], 2, b'', BAD_LINE),
    (['export', '--as', 'col', '--names', 'edge'], 2, b'', BAD_LINE),
    (['export', '--as', 'graph6', '--pos', 'edge'], 2, b'', BAD_LINE),
    (['export', '--as', 'dot', '--names', 'edge'], 2, b'', BAD_LINE),
    (['export', '--as', 'dimacs', '--names', 'edge'], 2, b'', BAD_LINE),
    (['export', '--as', 'graphml', '--names', 'edge'], 2, b'', BAD_LINE),
    (['export', '--as', 'dot', '--walk', 'edge'], 2, b'', BAD_LINE),
    (['export', '--as', 'dot', 'edge', 'edge'], 2, b'', BAD_LINE),
    (['export', '--as', 'dot', '-', '-'], 2, b'', BAD_LINE),
    (['export', '--as', 'dot', '--names', 'absent'], 2, b'', BAD_LINE),
    (['export', '--as', 'dot', 'absent'], 2, b'', b'sgb: cannot open absent\n'),
    (['export', '--as', 'dot', '--', '--any'], 2, b'', b'sgb: cannot open --any\n'),
    (['export', '--as', 'dot', '.'], 2, b'', b'sgb: read failed\n'),
]

# Words behind `sgb import`, a text, and a script that makes the graph that it spells as g.
IMPORTED = [
    ('--from edges', b'0 1 5\n', 'graph g 2\nlabel g 0 "0"\nlabel g 1 "1"\nid g "import(edges)"\nedge g 0 1 5\n'),
    ('--from edges', b'', 'graph g 0\nid g "import(edges)"\n'),
    ('--from edges', b'# graph 3 2\r\n# id "map"\n\n\t 2 1\n#\n1 1 -7',
     'graph g 3\nlabel g 0 "0"\nlabel g 1 "1"\nlabel g 2 "2"\nid g "map"\nedge g 1 1 -7\nedge g 2 1 1\n'),
    ('--from edges --directed', b'1 0 2\n', 'graph g 2\nlabel g 0 "0"\nlabel g 1 "1"\nid g "import(edges)"\narc g 1 0 2\n'),
    ('--from edges --names', b'Ada Bob\nBob Cid 5\n', 'graph g 3\nlabel g 0 "Ada"\nlabel g 1 "Bob"\nlabel g 2 "Cid"\n'
     'id g "import(edges)"\nedge g 1 2 5\nedge g 0 1 1\n'),
    ('--directed --names --from edges', b'# digraph 2 1\nb a\n',
     'graph g 2\nlabel g 0 "b"\nlabel g 1 "a"\nid g "import(edges)"\narc g 0 1 1\n'),
    ('--from dimacs', b'c a map\np sp 2 1\na 2 1 7\n', 'graph g 2\nlabel g 0 "1"\nlabel g 1 "2"\nid g "a map"\narc g 1 0 7\n'),
    ('--from dimacs', b'p col 2 1\ne 1 2\n', 'graph g 2\nlabel g 0 "1"\nlabel g 1 "2"\nid g "import(dimacs)"\nedge g 0 1 1\n'),
    ('--from graph6', b'A_\n', 'graph g 2\nlabel g 0 "0"\nlabel g 1 "1"\nid g "import(graph6)"\nedge g 0 1 1\n'),
    ('--from graph6', b'>>graph6<<?', 'graph g 0\nid g "import(graph6)"\n'),
]

# Texts that are not imported, and why.
NOT_IMPORTED = [
    ('--from edges', b'0 1\n\nx y\n', b'20 (line 3: not an edge)'),
    ('--from edges', b'# graph 2 1\n0 2\n', b'20 (line 2: no such vertex)'),
    ('--from edges', b'# graph 2 2\n0 1\n', b'20 (line 1: wrong number of edges)'),
    ('--from edges --directed', b'# graph 2 1\n0 1\n', b'20 (line 1: not directed)'),
    ('--from edges --names', b'# graph 3 1\na b\n', b'20 (line 1: wrong number of vertices)'),
    ('--from edges', b'0 65535\n', b'40 (line 1: too many vertices)'),
    ('--from edges', b'0 1\n' * 500001, b'40 (line 500001: too many arcs)'),
    ('--from edges --names', b'a b\nc "\n', b'60 (line 2: bad name)'),
    ('--from edges', b'# id "\\"\n', b'60 (line 1: bad id)'),
    ('--from dimacs', b'p edge 2 1\ne 1 3\n', b'20 (line 2: no such vertex)'),
    ('--from dimacs', b'p sp 2 1\na 1 2\n', b'20 (line 2: not an arc)'),
    ('--from dimacs', b'p sp 2\n', b'20 (line 1: not a problem)'),
    ('--from dimacs', b'p sp 2 0\np sp 2 0\n', b'20 (line 2: more than one problem)'),
    ('--from dimacs', b'a 1 2 5\n', b'20 (line 1: no problem before it)'),
    ('--from dimacs', b'q\n', b'20 (line 1: not a line of this format)'),
    ('--from graph6', b'A\n', b'20 (line 1: not a graph)'),
    ('--from graph6', b'A_\nA_\n', b'20 (line 2: more than one graph)'),
]

# Words that make graphs: each one alone, and such as begin with a minus.
MADE = ['graph 0', 'graph 7', 'board 3 4 0 0 -1 0 0', 'board 8 8 0 0 5 0 0', 'simplex 2 2 2 2 0 0 0',
        'subsets 2 1 -4 0 0 0 1 0', 'perms 2 1 1 0 0 0 0', 'binary 4 9 0', 'random 1000 5000 0 0 0 1 100 42',
        'random 10 20 1 1 1 -5 5 -', 'random 10 20 0 0 0 1 1 -7', 'random 10 20 -1 0 0 1 1 0']

# Words that make graphs of saved ones, and the line of a script that does: the files are graphs `a` and `b` of its session.
MADE_OF = [
    ('complement rook 0 0 0', 'complement g a 0 0 0'),
    ('complement rook 1 0 1', 'complement g a 1 0 1'),
    ('gunion rook bishop 0 0', 'gunion g a b 0 0'),
    ('gunion bishop rook 1 1', 'gunion g a b 1 1'),
    ('gunion rook rook 1 0', 'gunion g a b 1 0'),
    ('intersection rook edge 0', 'intersection g a b 0'),
    ('product rook edge 0 0', 'product g a b 0 0'),
    ('product edge rook 2 1', 'product g a b 2 1'),
    ('induced rook D 0 0 0', 'induced g a "D" 0 0 0'),
    ('induced edge two\twords 1 1 1', 'induced g a "two words" 1 1 1'),
    ('lengths rook 0 1 9 7', 'lengths a 0 1 9 7'),
    ('lengths edge 1 -9 9 -', 'lengths a 1 -9 9 -'),
]

# Words that make the Petersen graph, and its id; the names of its vertices, and where their arcs lead, the newest first.
# Each arc is half of an edge of length 1.
PETERSEN = 'subsets 2 1 -4 0 0 0 1 0'
PETERSEN_ID = 'subsets(2,1,-4,0,0,0,0x1,0)'
PETERSEN_VERTICES = [('0.0.0.1.1', [9, 8, 5]), ('0.0.1.0.1', [9, 7, 4]), ('0.0.1.1.0', [9, 6, 3]), ('0.1.0.0.1', [8, 7, 2]),
                     ('0.1.0.1.0', [8, 6, 1]), ('0.1.1.0.0', [7, 6, 0]), ('1.0.0.0.1', [5, 4, 2]), ('1.0.0.1.0', [5, 3, 1]),
                     ('1.0.1.0.0', [4, 3, 0]), ('1.1.0.0.0', [2, 1, 0])]

GRAPHML_HEAD = '''<?xml version="1.0" encoding="UTF-8"?>
<graphml xmlns="http://graphml.graphdrawing.org/xmlns">
  <key id="id" for="graph" attr.name="id" attr.type="string"/>
  <key id="name" for="node" attr.name="name" attr.type="string"/>
  <key id="len" for="edge" attr.name="len" attr.type="long"/>
  <graph id="G" edgedefault="undirected">
    <data key="id">%s</data>''' % PETERSEN_ID

# The front of the queen's moves, which are 110 lines.
QUEEN = b'''Queen Moves on a 3x4 Board

  The graph whose official name is
gunion(board(3,4,0,0,-1,0,0),board(3,4,0,0,-2,0,0),0,0)
  has 12 vertices and 92 arcs:

0.0
  -> 1.1, length 1
  -> 2.2, length 2
  -> 0.1, length 1
  -> 0.2, length 2
  -> 0.3, length 3
  -> 1.0, length 1
  -> 2.0, length 2
0.1
'''

COMMANDS = ['run', 'queen', 'check', 'export', 'import', 'info', 'make']

# Commands that read a text on standard input, where `-` stands for a file: the text, the status, and what they write.
PIPED = [
    (['run', '-'], b'next\n', 0, NEXT, b''),
    (['run', '--', '-'], b'next\n', 0, NEXT, b''),
    (['run', './-'], b'next\n', 0, b'ok\n', b''),
    (['check', '-'], EDGE, 0, EDGE_TOLD, b''),
    (['info'], EDGE, 0, EDGE_FACTS, b''),
    (['info', '-'], EDGE, 0, EDGE_FACTS, b''),
    (['info', './-'], EDGE, 1, b'', BAD_TEXT),
    (['check', '-', '--any'], WRONG, 0, EDGE_TOLD, b''),
    (['check', './-'], EDGE, 1, BAD_SAVED, b''),
    (['export', '--as', 'edges', '-'], EDGE, 0, EDGE_LISTED, b''),
    (['export', '--as', 'edges'], EDGE, 0, EDGE_LISTED, b''),
    (['export', '--as', 'edges', './-'], EDGE, 1, b'', BAD_TEXT),
    (['import', '--from', 'edges', './-'], b'0 1\n', 1, b'', NOT_AN_EDGE),
    (['make', 'gunion', '-', './-', '0', '0'], EDGE, 1, b'', BAD_TEXT),
    (['make', 'lengths', '-', '0', '1', '1', '-'], WRONG, 1, b'', BAD_CHECK),
]

# A script of 16,777,216 bytes, all of them a text of long lines.
FILLED = b'load g any\n' + (b'x' * 8191 + b'\n') * 2047
FILLED += b'x' * (16777216 - len(FILLED) - 3) + b'\n.\n'

# Scripts on standard input, up to the greatest that is run and past it.
SCRIPTS = [
    (b'next', 0, NEXT, b''),
    (b'bogus\nnext', 1, REFUSED + NEXT, b''),
    (b'next\nundo\nundo\n', 1, NEXT + b'undone\nline 3: refused 103 nothing to undo\n', b''),
    (b'\n' * 16777216, 0, b'', b''),
    (b'\n' * 16777217, 2, b'', b'sgb: too long\n'),
    (b'next\n' + b'\n' * 16777211, 0, NEXT, b''),
    (b'next\n' + b'\n' * 16777212, 2, NEXT, b'sgb: too long\n'),
    # Nearly all of the greatest script is one text; one byte more, and its unit is not answered.
    (FILLED, 1, b'line 1: refused 20 bad saved graph\n', b''),
    (FILLED + b'\n', 2, b'line 1: refused 20 bad saved graph\n', b'sgb: too long\n'),
    (FILLED.replace(b'load', b'load '), 2, b'', b'sgb: too long\n'),
    # A text without its end, and one with a line that is too long.
    (b'load g any\nnext\n', 1, b'line 1: refused 100 bad command\n', b''),
    (b'load g any\n' + b'x' * 8193 + b'\n.\nnext\n', 1, b'line 1: refused 100 bad command\n' + NEXT, b''),
    # A fault has status 2 where lines were refused before.
    (b'bogus\n' + b'\n' * 16777211, 2, REFUSED, b'sgb: too long\n'),
    # The line that passes the end is not done.
    (b'\n' * 16777213 + b'next', 2, b'', b'sgb: too long\n'),
]

# What one program sends, and what the other answers before it gets more.
CONVERSATION = [
    (b'next\n', NEXT),
    (b'bogus\n', b'line 2: refused 100 bad command\n'),
    (b'graph g 1\narc g 0 0 5\n', b'g: 1 vertices, 0 arcs\nA0\n'),
    (b'gen\nne', b'seed 0, draws 1, unread 53\n'),
    (b'xt\n', b'2073281797\n'),
    (b'show g\n', b'"gb_new_graph(1)" ZZZZZZZZZZZZZZ\n1 vertices, 1 arcs, 1 numbers\nV0 ""\n  A0 V0 5\n'),
    (b'undo\n', b'undone\n'),
]


def graph6(vertices):
    """The line of graph6 of a simple graph of at most 62 vertices: its upper triangle by columns, six bits a byte."""
    bits = ''.join('1' if u in vertices[v][1] else '0' for v in range(len(vertices)) for u in range(v))
    bits += '0' * (-len(bits) % 6)
    return chr(len(vertices) + 63) + ''.join(chr(int(bits[k:k + 6], 2) + 63) for k in range(0, len(bits), 6))


def exports():
    """The Petersen graph in each format: the words behind `--as`, and the lines."""
    names = [name for name, _ in PETERSEN_VERTICES]
    arcs = [(v, w) for v, (_, ends) in enumerate(PETERSEN_VERTICES) for w in ends]
    edges = [(v, w) for v, w in arcs if v < w]
    yield ['dot'], ['graph "%s" {' % PETERSEN_ID, *['  %d [label="%s"];' % it for it in enumerate(names)],
                    *['  %d -- %d [label="1"];' % it for it in edges], '}']
    yield ['dimacs'], ['c ' + PETERSEN_ID, 'p sp 10 30', *['a %d %d 1' % (v + 1, w + 1) for v, w in arcs]]
    yield ['col'], ['c ' + PETERSEN_ID, 'p edge 10 15', *['e %d %d' % (v + 1, w + 1) for v, w in edges]]
    yield ['graph6'], [graph6(PETERSEN_VERTICES)]
    head = ['# graph 10 15', '# id "%s"' % PETERSEN_ID]
    yield ['edges'], [*head, *['%d %d 1' % it for it in edges]]
    yield ['edges', '--names'], [*head, *['%s %s 1' % (names[v], names[w]) for v, w in edges]]
    yield ['graphml'], [
        GRAPHML_HEAD, *['    <node id="v%d"><data key="name">%s</data></node>' % it for it in enumerate(names)],
        *['    <edge id="e%d" source="v%d" target="v%d"><data key="len">1</data></edge>' % (k, *it)
          for k, it in enumerate(edges)], '  </graph>', '</graphml>']


def rows():
    """The table of faults: the commands of each row, or none for all; what standard error gets; and the status."""
    with open(os.path.join(os.path.dirname(__file__), '../docs/language.md'), encoding='utf-8') as file:
        table = re.search(r'\n\| when .*\n.*\n((?:\|.*\n)+)', file.read())[1]
    found = []
    for row in table.splitlines():
        _, commands, told, status, _ = (it.strip() for it in row.strip('|').split(' |'))
        words = re.sub('NN|L', r'\\d+', re.sub('TEXT|FILE|FAULT', '.+', re.sub(r'([()])', r'\\\1', told.strip('`'))))
        pattern = '' if told == 'nothing' else words + '\n'
        found.append((re.findall('`(.*?)`', commands), re.compile(pattern.encode()), int(status)))
    return found


class Tests:
    def __init__(self, program, folder):
        self.program = os.path.abspath(program)
        self.folder = folder
        self.passed = self.failed = 0

        self.ends = set()

    def tell(self, is_right, *words):
        if is_right:
            self.passed += 1
        else:
            self.failed += 1
            print(*words)

    def run(self, words, script=b'', **ends):
        """The status of a run, and what it printed."""
        if 'stdin' not in ends:
            ends['input'] = script
        ended = subprocess.run([self.program] + words, cwd=self.folder, stderr=subprocess.PIPE,
                               **{'stdout': subprocess.PIPE, **ends})
        self.ends.add((words[0] if words and words[0] in COMMANDS else '', ended.returncode, ended.stderr))
        return ended.returncode, ended.stdout, ended.stderr

    def expect(self, wanted, what, words, script=b'', **ends):
        met = self.run(words, script, **ends)
        self.tell(met == wanted, what, 'ended', met, 'in place of', wanted)

    def try_help(self):
        """Each help has an example. That of the program tells the statuses and where the language is described."""
        for words in ['--help'], ['-h'], ['help']:
            status, said, complaint = self.run(words)
            told = all(it in said for it in [b'\n  0 ', b'\n  1 ', b'\n  2 ', b'docs/language.md', b'\nExample:\n'])
            self.tell(status == 0 and told and complaint == b'', words, 'ended', status, said, complaint)
        for command in COMMANDS:
            for words in [command, '--help'], [command, '-h'], ['help', command]:
                status, said, complaint = self.run(words)
                example = said.partition(b'\nExample:\n')[2].partition(b'\n\n')[0]
                told = b'sgb ' + command.encode() in example and b'status: sgb --help' in said
                self.tell(status == 0 and told and complaint == b'', words, 'ended', status, said, complaint)
        self.tell(self.run(['--version'])[::2] == (0, b''), 'the version is not told')

    def try_queen(self):
        status, moves, complaint = self.run(['queen'])
        told = moves.startswith(QUEEN) and moves.endswith(b'\n') and moves.count(b'\n') == 110
        self.tell(status == 0 and told and complaint == b'', 'queen ended', status, moves, complaint)

    def try_made(self):
        """What is made is what a script saves under a name."""
        for words in MADE:
            command, rest = words.split(' ', 1)
            ran = self.run(['run'], ('%s name %s\nsave name\n' % (command, rest)).encode())
            saved = re.sub(rb'\Aname: .*\n|cleaned 0\n\Z', b'', ran[1])
            self.tell(ran[0] == 0 and saved.startswith(b'* GraphBase graph'), words, 'is saved', ran)
            self.expect((0, saved, b''), words, ['make'] + words.split())
            self.expect((0, saved, b''), words + ', in one', ['make', command, rest])

    def save(self, name, words):
        with open(os.path.join(self.folder, name), 'wb') as file:
            file.write(self.run(['make', *words.split()])[1])

    def scripted(self, words, line, rule):
        """What a script that loads the files saves of the graph that a line makes."""
        texts = []
        for name in words.split(' '):
            if name in ('edge', 'wrong', 'rook', 'bishop'):
                with open(os.path.join(self.folder, name), 'rb') as file:
                    texts.append(file.read())
        loads = [b'load %s %s\n%s.\n' % (name, rule, text) for name, text in zip([b'a', b'b'], texts)]
        script = b''.join(loads) + line.encode() + b'\nsave ' + (b'a' if line.startswith('lengths') else b'g') + b'\n'
        status, said, complaint = self.run(['run'], script)
        text = re.search(rb'(?s)^\* GraphBase graph.*^\* Checksum \d+\n', said, re.M)
        self.tell(status == 0 and text and complaint == b'', words, 'is saved', status, said, complaint)
        return text[0] if text else b'', texts[0]

    def try_made_of(self):
        """What is made of files is what a script makes of the same graphs; either file may be standard input."""
        self.save('rook', 'board 3 4 0 0 -1 0 0')
        self.save('bishop', 'board 3 4 0 0 -2 0 0')
        for words, line in MADE_OF:
            saved, text = self.scripted(words, line, b'check')
            given = [it.replace('\t', ' ') for it in words.split(' ')]
            self.expect((0, saved, b''), words, ['make', *given])
            self.expect((0, saved, b''), words + ', piped', ['make', given[0], '-', *given[2:]], text)
            if given[0] in ('gunion', 'intersection', 'product'):
                with open(os.path.join(self.folder, given[2]), 'rb') as second:
                    self.expect((0, saved, b''), words + ', piped', ['make', *given[:2], '-', *given[3:]], stdin=second)
        for words, line in ('gunion wrong edge 0 0', 'gunion g a b 0 0'), ('lengths wrong 0 1 9 3', 'lengths a 0 1 9 3'):
            wanted = 0, self.scripted(words, line, b'any')[0], b''
            self.expect(wanted, words + ', any', ['make', '--any', *words.split()])

    def try_imported(self):
        """What is imported is what a script makes, and what was exported comes back."""
        for words, text, script in IMPORTED:
            said = self.run(['run'], (script + 'save g\n').encode())[1]
            saved = re.search(rb'(?s)\* GraphBase.*\n(?=cleaned)', said)[0]
            self.expect((0, saved, b''), (words, text), ['import', *words.split()], text)
            self.expect((0, saved, b''), (words, text, '-'), ['import', *words.split(), '-'], text)
        for words, text, told in NOT_IMPORTED:
            self.expect((1, b'', b'sgb: refused %s\n' % told), (words, text[:20]), ['import', *words.split()], text)
        for words, lines in exports():
            form = {'col': 'dimacs'}.get(words[0], words[0])
            if form in ('edges', 'dimacs', 'graph6') and len(words) == 1:
                text = ''.join(it + '\n' for it in lines).encode()
                saved = self.run(['import', '--from', form], text)[1]
                self.expect((0, text, b''), (words, 'and back'), ['export', '--as', *words], saved)

    def try_room(self):
        """Where there is no memory nothing is written."""
        def limit():
            resource.setrlimit(resource.RLIMIT_AS, (1 << 26, 1 << 26))

        for words in (['export', '--as', 'dot', 'most'], ['info', 'most'], ['import', '--from', 'edges', 'most'],
                      ['make', 'lengths', 'most', '0', '1', '1', '-']):
            self.expect((2, b'', b'sgb: no room\n'), words, words, preexec_fn=limit)

    def try_table(self):
        """Each run ended as a row of the table says, and each row was met by each of its commands."""
        found = rows()
        for command, status, complaint in sorted(self.ends):
            described = any((not commands or command in commands) and status == wanted and pattern.fullmatch(complaint)
                            for commands, pattern, wanted in found)
            self.tell(described, 'no row of the table of faults tells that', command, 'ends with', status, complaint)
        for commands, pattern, wanted in found:
            for one in commands or [None]:
                met = any((one is None or command == one) and status == wanted and pattern.fullmatch(complaint)
                          for command, status, complaint in self.ends)
                self.tell(met, one, 'was not met to end with', wanted, pattern.pattern)

    def try_exported(self):
        """One program makes what the other writes in each format."""
        for words, lines in exports():
            with subprocess.Popen([self.program, 'make', *PETERSEN.split()], stdout=subprocess.PIPE) as made:
                wanted = ''.join(it + '\n' for it in lines).encode()
                self.expect((0, wanted, b''), words, ['export', '--as', *words], stdin=made.stdout)
        self.save('square', 'board 2 2 0 0 1 0 0')
        plain, placed = (self.run(['export', '--as', 'dot', *more, 'square'])[1] for more in ([], ['--pos']))
        corners = [(b'0.0', b'0,0'), (b'0.1', b'0,72'), (b'1.0', b'72,0'), (b'1.1', b'72,72')]
        for name, place in corners:
            plain = plain.replace(b'[label="%s"]' % name, b'[label="%s", pos="%s"]' % (name, place))
        self.tell(placed == plain and placed.count(b'pos') == 4, 'a square is placed as', placed, 'in place of', plain)
        for name, lines in ('loop', 'graph g 1\nedge g 0 0 1\n'), ('twice', 'graph g 2\nedge g 0 1 1\nedge g 1 0 1\n'):
            text = re.search(rb'(?s)\* GraphBase.*\n(?=cleaned)', self.run(['run'], (lines + 'save g\n').encode())[1])[0]
            for form in 'col', 'graph6':
                self.expect((1, b'', BAD_OPERAND), name, ['export', '--as', form, '-'], text)

    def try_readers(self):
        read_failed = 2, b'', b'sgb: read failed\n'
        opened = os.open(self.folder, os.O_RDONLY)
        self.expect(read_failed, 'a directory as standard input', ['run'], stdin=opened)
        self.expect(read_failed, 'a directory to export', ['export', '--as', 'dot'], stdin=opened)
        os.close(opened)
        with open(self.folder + '/written', 'wb', buffering=0) as only_written:
            self.expect(read_failed, 'a file that is not to be read', ['run'], stdin=only_written)

    def try_writers(self):
        write_failed = 2, None, b'sgb: write failed\n'
        long_script = b'next\n' * 100000
        with open('/dev/full', 'wb', buffering=0) as full:
            self.expect(write_failed, 'a full device', ['run'], b'next\n', stdout=full)
            self.expect(write_failed, 'a full device, early', ['run'], long_script, stdout=full)
            self.expect(write_failed, 'a full device, a refused line', ['run'], b'bogus\n', stdout=full)
            self.expect(write_failed, 'a full device, help', ['--help'], stdout=full)
            self.expect(write_failed, 'a full device, queen', ['queen'], stdout=full)
            self.expect(write_failed, 'a full device, an accepted graph', ['check', 'edge'], stdout=full)
            self.expect(write_failed, 'a full device, a refused graph', ['check', 'wrong'], stdout=full)
            self.expect(write_failed, 'a full device, an export', ['export', '--as', 'dot', 'edge'], stdout=full)
            self.expect((1, None, BAD_CHECK), 'a full device, no export', ['export', '--as', 'dot', 'wrong'], stdout=full)
            self.expect(write_failed, 'a full device, a made graph', ['make', 'graph', '1'], stdout=full)
            self.expect((1, None, BAD_SPECS), 'a full device, no graph is made', ['make', 'graph', '-1'], stdout=full)
            self.expect(write_failed, 'a full device, facts', ['info', 'edge'], stdout=full)
            self.expect(write_failed, 'a full device, an import', ['import', '--from', 'edges'], b'0 1\n', stdout=full)
            self.expect((0, None, b''), 'a full device, nothing to write', ['run'], stdout=full)
        for script in b'next\n', long_script:
            gone, pipe = os.pipe()
            os.close(gone)
            self.expect(write_failed, 'a closed pipe', ['run'], script, stdout=pipe)
            os.close(pipe)

    def answer(self, program, length):
        """What the program answers, up to this length, within ten seconds."""
        answer = b''
        while len(answer) < length and select.select([program.stdout], [], [], 10)[0]:
            more = os.read(program.stdout.fileno(), length - len(answer))
            if not more:
                break
            answer += more
        return answer

    def converse(self):
        program = subprocess.Popen([self.program, 'run'], stdin=subprocess.PIPE, stdout=subprocess.PIPE,
                                   stderr=subprocess.PIPE, bufsize=0)
        for sent, wanted in CONVERSATION:
            program.stdin.write(sent)
            met = self.answer(program, len(wanted))
            self.tell(met == wanted, sent, 'is answered', met, 'in place of', wanted)
            if met != wanted:
                break
        rest = program.communicate(b'next')
        self.tell(rest == (b'2073281797\n', b''), 'the last line is answered', rest)
        self.tell(program.returncode == 1, 'a conversation ended', program.returncode)


def main():
    with tempfile.TemporaryDirectory() as folder:
        for name, script in FILES.items():
            with open(os.path.join(folder, name), 'wb') as file:
                file.write(script)
        for name, size in SIZES.items():
            with open(os.path.join(folder, name), 'wb') as file:
                file.truncate(size)
        tests = Tests(sys.argv[1], folder)
        for words, *wanted in COMMAND_LINES:
            tests.expect(tuple(wanted), words, words)
        for script, *wanted in SCRIPTS:
            tests.expect(tuple(wanted), script[:20], ['run'], script)
        tests.try_help()
        tests.try_queen()
        for words, text, *wanted in PIPED:
            tests.expect(tuple(wanted), words, words, text)
        tests.try_made()
        tests.try_made_of()
        tests.try_exported()
        tests.try_imported()
        tests.converse()
        tests.try_writers()
        tests.try_readers()
        tests.try_room()
        tests.try_table()
    print('program: %d passed, %d failed' % (tests.passed, tests.failed))
    return 1 if tests.failed else 0


if __name__ == '__main__':
    sys.exit(main())
