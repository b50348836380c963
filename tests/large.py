#!/usr/bin/env python3
"""Runs the program on long sessions and on large graphs, and compares what it answers with what is counted out here.

    large.py PROGRAM
"""
import re
import subprocess
import sys

# The most letters of a text, and of an id.
MOST, MOST_OF_ID = 4095, 160
FIRST = '2029883356\n'


class Talk:
    """A script, and the transcript that it is to have."""

    def __init__(self):
        self.lines, self.answers = [], []

    def say(self, lines, answers='', count=1):
        self.lines.append(lines * count)
        self.answers.append(answers * count)
        return self

    def make_arcs(self, count):
        """Adds so many arcs among 100 vertices, with numbers from 0."""
        for number in range(count):
            self.say('arc g %d %d %d\n' % (number % 100, number % 97, number), 'A%d\n' % number)
        return self

    def make_edges(self, count):
        """Adds so many edges among 100 vertices, with two numbers each, from 0."""
        for edge in range(count):
            self.say('edge g %d %d -%d\n' % (edge % 97, edge % 100, edge), 'A%d A%d\n' % (2 * edge, 2 * edge + 1))
        return self


def counted(arcs):
    return '1 graphs\ng: 100 vertices, %d arcs\n' % arcs


def new_graph():
    return Talk().say('graph g 100\n', 'g: 100 vertices, 0 arcs\n')


def arcs_redone():
    talk = new_graph().make_arcs(30000).say('list\n', counted(30000))
    talk.say('undo\n', 'undone\n', 30000).say('list\n', counted(0))
    for number in range(30000):
        talk.say('redo\n', 'A%d\n' % number)
    return talk.say('list\n', counted(30000))


def edges_cut():
    talk = new_graph().make_edges(5000)
    for number in range(10000):
        talk.say('cut g %d\n' % number, 'ok\n')
    talk.say('list\n', counted(0)).say('undo\n', 'undone\n', 10000).say('list\n', counted(10000))
    return talk.say('redo\n', 'ok\n', 10000).say('list\n', counted(0))


def graphs_dropped():
    talk = Talk().say('graph g 9\ndrop g\n', 'g: 9 vertices, 0 arcs\nok\n', 10000)
    talk.say('undo\n', 'undone\n', 20000).say('undo\n', 'line 40001: refused 103 nothing to undo\n')
    return talk.say('redo\nredo\n', 'g: 9 vertices, 0 arcs\nok\n', 10000).say('list\n', '0 graphs\n')


def journal_filled():
    """A journal of 65,535 commands is full, until one is taken back."""
    talk = new_graph().make_arcs(65534).say('arc g 0 0 1\n', 'line 65536: refused 105 journal is full\n')
    talk.say('undo\narc g 0 0 1\n', 'undone\nA65533\n').say('next\n', 'line 65539: refused 105 journal is full\n')
    return talk.say('list\n', counted(65534))


def longest_texts():
    talk = Talk().say('graph g 2\narc g 0 1 7\n', 'g: 2 vertices, 0 arcs\nA0\n')
    most = 'a' * MOST
    for front in ['label g 1', 'set g V0 u', 'set g A0 b', 'set g G zz']:
        talk.say('%s "%s"\n' % (front, most), 'ok\n')
    talk.say('label g 1 "a%s"\n' % most, 'line 7: refused 100 bad command\n')
    talk.say('set g V0 u "a%s"\n' % most, 'line 8: refused 100 bad command\n')
    talk.say('id g "a%s"\n' % most, 'line 9: refused 100 bad command\n')
    talk.say('id g "%s"\n' % most, 'line 10: refused 60 bad operand\n')
    talk.say('id g "%s"\n' % ('a' * (MOST_OF_ID + 1)), 'line 11: refused 60 bad operand\n')
    talk.say('id g "%s"\n' % ('a' * MOST_OF_ID), 'ok\n')
    return talk.say('show g\n', '"%s" ZZZZZZZZZZZZZZ\n2 vertices, 1 arcs, 1 numbers\nG zz="%s"\nV0 "" u="%s"\n  A0 V1 7 b="%s"\n'
                    'V1 "%s"\n' % ('a' * MOST_OF_ID, most, most, most, most))


def texts_redone():
    """300 labels, 300 fields and 300 ids of the most letters are taken back and redone."""
    most = 'a' * MOST
    talk = Talk().say('graph g 1\n', 'g: 1 vertices, 0 arcs\n')
    talk.say('label g 0 "%s"\nset g V0 z "%s"\nid g "%s"\n' % (most, most, 'a' * MOST_OF_ID), 'ok\nok\nok\n', 300)
    talk.say('undo\n', 'undone\n', 900)
    talk.say('show g\n', '"gb_new_graph(1)" ZZZZZZZZZZZZZZ\n1 vertices, 0 arcs, 0 numbers\nV0 ""\n')
    return talk.say('redo\n', 'ok\n', 900).say('redo\n', 'line 2703: refused 104 nothing to redo\n')


def longest_line():
    return Talk().say('#' * 8192 + '\nnext\n', FIRST)


def longer_line():
    return Talk().say('#' * 8193 + '\nnext\n', 'line 1: refused 100 bad command\n' + FIRST)


TALKS = [arcs_redone, edges_cut, graphs_dropped, journal_filled, longest_texts, texts_redone, longest_line, longer_line]

# After 65,535 numbers nothing more is performed, until the last number is taken back; it comes again.
FULL = 'next\n' * 65535 + 'next\ndrop nobody\nshow nobody\nundo\nnext\nnext\n'
FULL_ENDING = '''line 65536: refused 105 journal is full
line 65537: refused 105 journal is full
line 65538: refused 50 no such graph
undone
1104040056
line 65541: refused 105 journal is full
'''

# The words of a random graph; its arcs, the sum of their lengths, the draws, and the number that follows them, as
# another implementation has them.
RANDOM = [('50 300 -1 1 0 1 1000 17', 540, 254422, 900, 1789914442),
          ('50 300 1 0 0 -7 1000 18', 600, 297664, 916, 1750732423),
          ('200 20000 0 0 1 5 2000 19', 20000, 20138248, 75674, 1979665294),
          ('1000 50000 0 0 0 1 1 20', 100000, 100000, 105446, 1994523700)]


class Saved:
    """The names of the vertices, and of each the tips and lengths of its arcs, newest first, of a saved text."""

    def __init__(self, text):
        found = re.search(r'\* Vertices\n(.*)\* Arcs\n(.*)\* Checksum', text, re.S)
        vertices = [re.fullmatch(r'"([^"]*)",(?:A(\d+)|0)(?:,.*)?', it) for it in found[1].splitlines()]
        arcs = [re.fullmatch(r'V(\d+),(?:A(\d+)|0),(-?\d+)(?:,.*)?', it) for it in found[2].splitlines()]
        self.names, self.lists = [it[1] for it in vertices], []
        for vertex in vertices:
            self.lists.append([])
            number = vertex[2]
            while number is not None:
                arc = arcs[int(number)]
                self.lists[-1].append((int(arc[1]), int(arc[3])))
                number = arc[2]

    def lengths(self):
        return [length for it in self.lists for _, length in it]


def is_exchanged(first, second):
    """Whether the second name comes of the first by the exchange of two neighbours."""
    places = [at for at in range(len(first)) if first[at] != second[at]]
    return (len(first) == len(second) and len(places) == 2 and places[1] == places[0] + 1
            and first[places[0]] == second[places[1]] and first[places[1]] == second[places[0]])


class Large:
    def __init__(self, program):
        self.program, self.passed, self.failed = program, 0, 0

    def run(self, script, words=('run',)):
        ran = subprocess.run([self.program, *words], input=script, stdout=subprocess.PIPE, stderr=subprocess.STDOUT,
                             encoding='ascii')
        return ran.stdout

    def tell(self, is_right, what):
        self.passed, self.failed = self.passed + is_right, self.failed + (not is_right)
        if not is_right:
            print('%s: what it answers differs' % what)

    def converse(self):
        for talk in TALKS:
            told = talk()
            self.tell(self.run(''.join(told.lines)) == ''.join(told.answers), talk.__name__)
        self.tell(self.run(FULL).endswith(FULL_ENDING), 'a full journal')

    def try_random(self):
        for words, arcs, total, draws, following in RANDOM:
            answers = self.run('random r %s\ngen\nnext\nsave r\narc r 0 0 1\n' % words)
            lengths = Saved(answers).lengths()
            self.tell(answers.split('\n')[1].split(', ')[1] == 'draws %d' % draws
                      and answers.split('\n')[2] == str(following)
                      and answers.endswith('\nA%d\n' % arcs) and len(lengths) == arcs and sum(lengths) == total,
                      'random ' + words)

    def try_permutations(self):
        """Each of the permutations of eight has seven neighbours, one for each pair of neighbouring places."""
        answers = self.run('perms p 1 -7 0 0 0 0 0\nsave p\narc p 0 0 1\n')
        saved = Saved(answers)
        self.tell(answers.startswith('p: 40320 vertices, 282240 arcs\n') and answers.endswith('\nA282240\n')
                  and len(saved.names) == len(set(saved.names)) == 40320
                  and all(len(it) == 7 and all(is_exchanged(saved.names[v], saved.names[tip]) for tip, _ in it)
                          for v, it in enumerate(saved.lists)), 'the permutations of eight')

    def try_trees(self):
        saved = Saved(self.run('', ('make', 'binary', '11', '0', '0')))
        self.tell(len(saved.names) == 58786 and saved.names[-1] == '.x.x.x.x.x.x.x.x.x.x.xx', 'the trees of eleven')


def main():
    large = Large(sys.argv[1])
    large.converse()
    large.try_random()
    large.try_permutations()
    large.try_trees()
    print('large: %d passed, %d failed' % (large.passed, large.failed))
    return 1 if large.failed else 0


if __name__ == '__main__':
    sys.exit(main())
