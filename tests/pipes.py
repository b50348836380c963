#!/usr/bin/env python3
"""Compares what the program imports, exports and tells of graphs with another reading of the same formats, which is written
here by hand: on the texts of tests/imported, on hostile texts, and on random ones.

    pipes.py PROGRAM [SEED [COUNT]]

A text of tests/imported is named for what it shows. The first line of NAME.out has the words of the command line; behind it
stands what the program writes: a saved text, or one line on standard error.
"""
import os
import random
import re
import subprocess
import sys
from collections import Counter, namedtuple

IMPORTED = os.path.join(os.path.dirname(__file__), 'imported')
MOST_VERTICES, MOST_ARCS = 65535, 1000000

# What a text says: links are pairs of vertices with a length, in the order of the text.
Outline = namedtuple('Outline', 'id names directed links')


class Refused(Exception):
    """A text that is refused: by which number, at which line, and why."""

    def __str__(self):
        return 'sgb: refused %d (line %d: %s)\n' % self.args


def is_text(word, most=4095):
    return len(word) <= most and all(32 <= byte <= 126 and byte not in b'"\\' for byte in word)


def lines(text):
    """The lines with their numbers, without a return at the end."""
    for number, line in enumerate(text.split(b'\n'), 1):
        yield number, line[:-1] if line[-1:] == b'\r' else line


def words(line):
    return list(filter(None, line.replace(b'\t', b' ').split(b' ')))


def natural(word):
    """The number, or one above all limits."""
    return int(word.lstrip(b'0')[:30] or b'0') if re.fullmatch(rb'[0-9]+', word) else None


def length(word):
    number = natural(word[1:] if word[:1] == b'-' else word)
    number = -number if number is not None and word[:1] == b'-' else number
    return number if number is not None and -2 ** 63 <= number < 2 ** 63 else None


def read_id(found, default):
    """The id of the first comment that has one."""
    if not found:
        return default
    number, text = found[0]
    if not is_text(text, 160):
        raise Refused(60, number, 'bad id')
    return text


def read_header(comments):
    """The line of the first comment, whether arcs are meant, and the counts, if it tells them."""
    for number, line in comments[:1]:
        told = words(line)
        if len(told) == 4 and told[0] == b'#' and told[1] in (b'graph', b'digraph') and None not in map(natural, told[2:]):
            return number, told[1] == b'digraph', natural(told[2]), natural(told[3])
    return None


def read_edges(text, directed=False, names=False):
    told = [(number, line, words(line)) for number, line in lines(text)]
    comments = [(number, line) for number, line, parts in told if parts and parts[0][:1] == b'#']
    header = read_header(comments)
    if header and directed and not header[1]:
        raise Refused(20, header[0], 'not directed')
    if header and header[2] > MOST_VERTICES:
        raise Refused(40, header[0], 'too many vertices')
    directed = header[1] if header else directed
    quoted = [(number, re.fullmatch(rb'# id "(.*)"', line, re.DOTALL)) for number, line in comments]
    the_id = read_id([(number, it[1]) for number, it in quoted if it], b'import(edges)')
    links, met = [], {}
    for number, _, parts in told:
        if not parts or parts[0][:1] == b'#':
            continue
        ends, behind = parts[:2], parts[2:]
        far = length(behind[0]) if behind else 1
        if len(ends) < 2 or len(behind) > 1 or far is None:
            raise Refused(20, number, 'not an edge')
        if names:
            for end in ends:
                if not is_text(end):
                    raise Refused(60, number, 'bad name')
            ends = [met.setdefault(end, len(met)) for end in ends]
            if header and len(met) > header[2]:
                raise Refused(20, number, 'wrong number of vertices')
            if len(met) > MOST_VERTICES:
                raise Refused(40, number, 'too many vertices')
        else:
            ends = [natural(end) for end in ends]
            for end in ends:
                if end is None:
                    raise Refused(20, number, 'not an edge')
                if header and end >= header[2]:
                    raise Refused(20, number, 'no such vertex')
                if end >= MOST_VERTICES:
                    raise Refused(40, number, 'too many vertices')
        links.append((*ends, far))
        if len(links) * (1 if directed else 2) > MOST_ARCS:
            raise Refused(40, number, 'too many arcs')
    if header and header[3] != len(links):
        raise Refused(20, header[0], 'wrong number of edges')
    if header and names and header[2] != len(met):
        raise Refused(20, header[0], 'wrong number of vertices')
    n = header[2] if header else max([end + 1 for link in links for end in link[:2]], default=0)
    return Outline(the_id, list(met) if names else [b'%d' % v for v in range(n)], directed, links)


def read_problem(number, told):
    """Whether arcs are meant, and the counts."""
    kinds = {b'sp': True, b'edge': False, b'col': False}
    if len(told) != 4 or told[1] not in kinds or None in map(natural, told[2:]):
        raise Refused(20, number, 'not a problem')
    if natural(told[2]) > MOST_VERTICES:
        raise Refused(40, number, 'too many vertices')
    return number, kinds[told[1]], natural(told[2]), natural(told[3])


def read_dimacs(text):
    the_id = read_id([(number, line[2:]) for number, line in lines(text) if line[:2] == b'c '], b'import(dimacs)')
    problem, links, number = None, [], 0
    for number, line in lines(text):
        told = words(line)
        if not told or told[0] == b'c':
            continue
        if told[0] == b'p':
            if problem:
                raise Refused(20, number, 'more than one problem')
            problem = read_problem(number, told)
        elif told[0] in (b'a', b'e'):
            if not problem:
                raise Refused(20, number, 'no problem before it')
            directed = told[0] == b'a'
            if directed != problem[1]:
                raise Refused(20, number, 'not a line of this format')
            ends = [natural(end) for end in told[1:3]]
            far = length(told[3]) if directed and len(told) == 4 else 1
            if len(told) != (4 if directed else 3) or None in ends or far is None:
                raise Refused(20, number, 'not an arc' if directed else 'not an edge')
            if not all(1 <= end <= problem[2] for end in ends):
                raise Refused(20, number, 'no such vertex')
            links.append((ends[0] - 1, ends[1] - 1, far))
            if len(links) * (1 if directed else 2) > MOST_ARCS:
                raise Refused(40, number, 'too many arcs')
        else:
            raise Refused(20, number, 'not a line of this format')
    if not problem:
        raise Refused(20, number, 'no problem before it')
    if problem[3] != len(links):
        raise Refused(20, problem[0], 'wrong number of edges')
    return Outline(the_id, [b'%d' % v for v in range(1, problem[2] + 1)], problem[1], links)


def pairs(n):
    return [(i, j) for j in range(n) for i in range(j)]


def read_graph6(text):
    (_, first), *others = lines(text)
    line = first[10:] if first[:10] == b'>>graph6<<' else first
    sixes = [byte - 63 for byte in line]
    wide = 0 if line[:1] != b'~' else 3 if line[1:2] != b'~' else 6
    size, bits = sixes[wide // 3:wide // 3 + max(wide, 1)], sixes[wide // 3 + max(wide, 1):]
    if any(not 0 <= six < 64 for six in sixes) or len(size) < max(wide, 1):
        raise Refused(20, 1, 'not a graph')
    n = sum(six << 6 * (len(size) - 1 - k) for k, six in enumerate(size))
    if n > MOST_VERTICES:
        raise Refused(40, 1, 'too many vertices')
    count = n * (n - 1) // 2
    if len(bits) != (count + 5) // 6 or any(bits[k // 6] >> 5 - k % 6 & 1 for k in range(count, 6 * len(bits))):
        raise Refused(20, 1, 'not a graph')
    links = [(*pair, 1) for k, pair in enumerate(pairs(n)) if bits[k // 6] >> 5 - k % 6 & 1]
    if 2 * len(links) > MOST_ARCS:
        raise Refused(40, 1, 'too many arcs')
    for number, line in others:
        if line:
            raise Refused(20, number, 'more than one graph')
    return Outline(b'import(graph6)', [b'%d' % v for v in range(n)], False, links)


READERS = {'edges': read_edges, 'dimacs': read_dimacs, 'graph6': read_graph6}


def read(text, kind, *flags):
    """The outline of a text, or the line on standard error."""
    try:
        return READERS[kind](text, **{flag.lstrip('-'): True for flag in flags}), ''
    except Refused as refused:
        return None, str(refused)


def written(outline):
    """The links as an export writes them: vertex by vertex, each edge from its lower end, in the order of the text."""
    links = outline.links if outline.directed else [(min(v, w), max(v, w), far) for v, w, far in outline.links]
    return sorted(links, key=lambda link: link[0])


def edges_text(outline):
    links = written(outline)
    kind = b'digraph' if outline.directed and links else b'graph'
    head = b'# %s %d %d\n# id "%s"\n' % (kind, len(outline.names), len(links), outline.id)
    return head + b''.join(b'%d %d %d\n' % link for link in links)


def is_simple(outline):
    links = [link[:2] for link in written(outline)]
    return not (outline.directed and links) and len(set(links)) == len(links) and all(v != w for v, w in links)


def col_text(outline):
    links = written(outline)
    head = b'c %s\np edge %d %d\n' % (outline.id, len(outline.names), len(links))
    return head + b''.join(b'e %d %d\n' % (v + 1, w + 1) for v, w, _ in links)


def graph6_text(outline):
    n, joined = len(outline.names), {link[:2] for link in written(outline)}
    bits = [pair in joined for pair in pairs(n)]
    bits += [False] * (-len(bits) % 6)
    sixes = [n] if n < 63 else [63, n >> 12, n >> 6 & 63, n & 63]
    sixes += [sum(bit << 5 - k for k, bit in enumerate(bits[at:at + 6])) for at in range(0, len(bits), 6)]
    return bytes(six + 63 for six in sixes) + b'\n'


def is_paired(outline):
    """Whether the arcs, which are numbered from the last on, are halves of edges by chance: the half that leads up comes first."""
    if not outline.directed or not outline.links:
        return True
    arcs = dict(enumerate(link[:2] for link in reversed(outline.links)))
    return all(v != w and arcs.get(k + 1 if v < w else k - 1) == (w, v) for k, (v, w) in arcs.items())


def colours(outline):
    """How many components there are, and whether two colours are enough."""
    beside = {v: set() for v in range(len(outline.names))}
    for v, w, _ in outline.links:
        beside[v].add(w)
        beside[w].add(v)
    colour, components, fit = {}, 0, True
    for start in beside:
        components += start not in colour
        waiting = [(start, 0)] if start not in colour else []
        while waiting:
            v, now = waiting.pop()
            if v in colour:
                fit &= colour[v] == now
                continue
            colour[v] = now
            waiting += [(w, 1 - now) for w in beside[v]]
    return components, fit


def facts(outline):
    """What `info` tells of a graph whose arcs are not paired by chance, but for its check number."""
    links, n = written(outline), len(outline.names)
    ends = Counter(v for link in links for v in (link[:1] if outline.directed else link[:2]))
    heads = Counter(link[1] for link in links)
    tell = lambda numbers: (str(min(numbers)), str(max(numbers))) if numbers else ('-', '-')
    least_in, most_in = tell([heads[v] for v in range(n)]) if outline.directed and links else ('-', '-')
    least_out, most_out = tell([ends[v] for v in range(n)])
    shortest, longest = tell([link[2] for link in links])
    components, fit = colours(outline)
    return {'id': '"%s"' % outline.id.decode(), 'vertices': str(n), 'arcs': str(len(links) * (1 if outline.directed else 2)),
            'edges': '-' if outline.directed and links else str(len(links)), 'loops': str(sum(v == w for v, w, _ in links)),
            'repeated': str(len(links) - len({link[:2] for link in links})), 'out-least': least_out, 'out-greatest': most_out,
            'in-least': least_in, 'in-greatest': most_in, 'length-least': shortest, 'length-greatest': longest,
            'components': str(components), 'bipartite': 'yes' if fit else 'no', 'honest': 'yes'}


class Tests:
    def __init__(self, program):
        self.program, self.passed, self.failed = os.path.abspath(program), 0, 0

    def count(self, holds, *what):
        self.passed, self.failed = self.passed + bool(holds), self.failed + (not holds)
        if not holds:
            print('FAILED:', *what, flush=True)

    def run(self, given, *words):
        """The status, and what is written to both ends."""
        ended = subprocess.run([self.program, *words], input=given, stdout=subprocess.PIPE, stderr=subprocess.PIPE)
        return ended.returncode, ended.stdout, ended.stderr.decode()

    def writes(self, given, wanted, *words):
        """The program accepts this and writes that."""
        met = self.run(given, *words)
        self.count(met == (0, wanted, ''), *words, repr(given[:300]), 'gives', met[0], repr(met[1][:200]), met[2], 'in place of', repr(wanted[:200]))

    def refuses(self, given, line, *words):
        met = self.run(given, *words)
        self.count(met == (1, b'', line), *words, repr(given[:300]), 'gives', met[0], repr(met[1][:200]), met[2], 'in place of', line)

    def compare(self, text, kind, *flags):
        """Imports a text, and compares the graph with what the text says: its exports and its facts."""
        outline, line = read(text, kind, *flags)
        words = ['import', '--from', kind, *flags]
        if outline is None:
            return self.refuses(text, line, *words)
        status, saved, told = self.run(text, *words)
        self.count((status, told) == (0, ''), *words, repr(text[:300]), 'gives', status, told)
        if status == 0:
            self.compare_saved(saved, outline, text)

    def compare_saved(self, saved, outline, text):
        # (arcs that are paired by chance are told as edges, which is no fault)
        if outline.directed and outline.links and is_paired(outline):
            return
        self.writes(saved, edges_text(outline), 'export', '--as', 'edges')
        for kind, form in ('col', col_text), ('graph6', graph6_text):
            if is_simple(outline):
                self.writes(saved, form(outline), 'export', '--as', kind)
            else:
                self.refuses(saved, 'sgb: refused 60 bad operand\n', 'export', '--as', kind)
        status, told, _ = self.run(saved, 'info')
        met = dict(line.split(maxsplit=1) for line in told.decode().splitlines())
        check = re.search(rb'\* Checksum (\d+)\n$', saved)[1].decode()
        self.count((status, met) == (0, {**facts(outline), 'check': check}), 'info of', repr(text[:300]), 'gives', met, 'in place of', facts(outline))

    def returns(self, saved, *kinds):
        """What is exported and imported again is exported as the same text."""
        for kind, flags in kinds:
            status, text, told = self.run(saved, 'export', '--as', kind, *flags)
            if status:
                continue
            back = self.run(text, 'import', '--from', 'dimacs' if kind == 'col' else kind, *flags)
            self.count(back[0] == 0, kind, 'cannot be read back:', back[2], repr(text[:200]))
            if back[0] == 0:
                self.writes(back[1], text, 'export', '--as', kind, *flags)


def random_outline(draw):
    n, directed = draw.choice([0, 1, 2, 3, 5, 9, 20, 62, 63, 70]), draw.random() < 0.4
    simple = draw.random() < 0.5
    links = []
    for _ in range(draw.randrange(0, 2 * n + 1) if n else 0):
        v, w = draw.randrange(n), draw.randrange(n)
        if not simple or (v != w and not any({v, w} == {a, b} for a, b, _ in links)):
            links.append((v, w, 1 if simple and not directed else draw.choice([1, 1, 7, -3, 0, 2 ** 63 - 1, -2 ** 63])))
    return Outline(draw.choice([b'', b'a graph', b'x(1,2)', b'#c']), [b'%d' % v for v in range(n)], directed, links)


def noise(draw, text):
    """The text, with what may stand in it, or with a fault."""
    parts = text.split(b'\n')
    for _ in range(draw.randrange(4)):
        at = draw.randrange(len(parts) + 1)
        parts.insert(at, draw.choice([b'', b' \t ', b'# x', b'c', b'c x', b'# id "y"', b'# graph 2 1', b'# id "' + b'z' * draw.choice([160, 161]) + b'"']))
    if draw.random() < 0.3:
        at = draw.randrange(len(parts))
        parts[at] = draw.choice([parts[at] + b'\r', b'\t' + parts[at], parts[at].replace(b' ', b'  '), parts[at] + b' 9', parts[at][:-1],
                                 parts[at] + b'\0', b'0 1 99999999999999999999999', b'1 65535', b'99999999999999999999 1', b'a 1 1', b'e 1 2', b'p sp 3 0'])
    if draw.random() < 0.1:
        parts.insert(draw.randrange(len(parts) + 1), parts[draw.randrange(len(parts))])
    return b'\n'.join(parts)


def random_text(draw):
    """A text, the format, and flags."""
    outline = random_outline(draw)
    kind = draw.choice(['edges', 'edges', 'edges', 'dimacs', 'dimacs', 'graph6'])
    if kind == 'graph6':
        if not is_simple(outline):
            outline = Outline(b'', outline.names, False, [])
        text = graph6_text(outline)
        if draw.random() < 0.4:
            at = draw.randrange(len(text))
            text = draw.choice([text[:at] + bytes([draw.randrange(256)]) + text[at + 1:], b'>>graph6<<' + text, text[:at], text + text, text + b'\n\r\n',
                                text[:-1] + b'\r\n', b'~~' + text, b'', b'~????', b'~~?????B\x57'])
        return text, kind, []
    if kind == 'dimacs':
        text = col_text(outline) if not outline.directed else b'p sp %d %d\n' % (len(outline.names), len(outline.links)) + \
            b''.join(b'a %d %d %d\n' % (v + 1, w + 1, far) for v, w, far in outline.links)
        return noise(draw, text), kind, []
    text = edges_text(outline)
    if draw.random() < 0.4:
        text = b'\n'.join(text.split(b'\n')[draw.choice([1, 2]):])
    flags = [flag for flag in ('--directed', '--names') if draw.random() < 0.25]
    if '--names' in flags:
        text = re.sub(rb'(?m)^(\d+) (\d+)', lambda it: b'v%s w%s' % it.groups(), text)
    return noise(draw, text), kind, flags


# Texts that ask for much, or are none: how they are refused, or the counts of vertices and arcs.
HOSTILE = [(b'\0' * 100000, 'edges', '20 (line 1: not an edge)'), (b'\n' * 1000000, 'edges', (0, 0)),
           (b'\n' * 1000000 + b'x', 'edges', '20 (line 1000001: not an edge)'), (b'a' * 1000000 + b' b', 'edges --names', '60 (line 1: bad name)'),
           (b'0 ' * 500000, 'edges', '20 (line 1: not an edge)'), (b'0 1\n' * 500000, 'edges', (2, 1000000)),
           (b'0 1\n' * 500001, 'edges', '40 (line 500001: too many arcs)'), (b'0 0\n' * 500000, 'edges', (1, 1000000)),
           (b'0 1\n' * 1000000, 'edges --directed', (2, 1000000)),
           (b'0 1\n' * 1000001, 'edges --directed', '40 (line 1000001: too many arcs)'),
           (b''.join(b'%d a\n' % v for v in range(65534)), 'edges --names', (65535, 131068)),
           (b''.join(b'%d a\n' % v for v in range(65535)), 'edges --names', '40 (line 65535: too many vertices)'),
           (b'# graph 65535 0\n', 'edges', (65535, 0)), (b'# graph 65536 0\n', 'edges', '40 (line 1: too many vertices)'),
           (b'65534 0\n', 'edges', (65535, 2)), (b'65535 0\n', 'edges', '40 (line 1: too many vertices)'),
           (b'9' * 1000000 + b' 1\n', 'edges', '40 (line 1: too many vertices)'), (b'18446744073709551616 1\n', 'edges', '40 (line 1: too many vertices)'),
           (b'0' * 1000000 + b'5 1\n', 'edges', (6, 2)), (b'0 1 ' + b'0' * 1000000 + b'5\n', 'edges', (2, 2)),
           (b'0 1 -9223372036854775808\n1 2 9223372036854775807', 'edges', (3, 4)),
           (b'0 1 9223372036854775808\n', 'edges', '20 (line 1: not an edge)'), (b'0 1 +5\n', 'edges', '20 (line 1: not an edge)'),
           (b'', 'edges', (0, 0)), (b'', 'dimacs', '20 (line 1: no problem before it)'), (b'', 'graph6', '20 (line 1: not a graph)'),
           (b'c\n' * 1000000, 'dimacs', '20 (line 1000001: no problem before it)'),
           (b'p sp 99999999999999999999999 0\n', 'dimacs', '40 (line 1: too many vertices)'),
           (b'p sp 3 99999999999999999999999\n', 'dimacs', '20 (line 1: wrong number of edges)'), (b'p sp 65535 0\n', 'dimacs', (65535, 0)),
           (b'c ' + b'x' * 1000000 + b'\np sp 0 0\n', 'dimacs', '60 (line 1: bad id)'),
           (b'p edge 2 500001\n' + b'e 1 2\n' * 500001, 'dimacs', '40 (line 500002: too many arcs)'),
           (b'p edge 2 500000\n' + b'e 1 2\n' * 500000, 'dimacs', (2, 1000000)), (b'p edge\n', 'dimacs', '20 (line 1: not a problem)'),
           (b'~~??????\n', 'graph6', (0, 0)), (b'~~~~~~~~\n', 'graph6', '40 (line 1: too many vertices)'), (b'?\0', 'graph6', '20 (line 1: not a graph)'),
           (b'~?', 'graph6', '20 (line 1: not a graph)'), (b'>>graph6<<', 'graph6', '20 (line 1: not a graph)'), (b'>>graph6<<?', 'graph6', (0, 0)),
           (b'~??@B\n', 'graph6', '20 (line 1: not a graph)'), (b'~??A_', 'graph6', (2, 2))]


def check_hostile(tests):
    for text, words, wanted in HOSTILE:
        words = ['import', '--from', *words.split()]
        if isinstance(wanted, str):
            tests.refuses(text, 'sgb: refused %s\n' % wanted, *words)
            continue
        status, saved, told = tests.run(text, *words)
        counts = re.match(rb'\* GraphBase graph \(util_types Z{14},(\d+)V,(\d+)A\)\n', saved)
        met = counts and tuple(map(int, counts.groups()))
        tests.count((status, told, met) == (0, '', wanted), *words, repr(text[:60]), 'gives', status, told, met, 'in place of', wanted)


def check_kept(tests):
    for name in sorted(os.listdir(IMPORTED)):
        if name.endswith('.out'):
            continue
        with open(os.path.join(IMPORTED, name), 'rb') as file, open(os.path.join(IMPORTED, name + '.out'), 'rb') as kept:
            text, (words, wanted) = file.read(), kept.read().split(b'\n', 1)
        words = words.decode().split()
        if wanted.startswith(b'sgb: '):
            tests.refuses(text, wanted.decode(), *words)
        else:
            tests.writes(text, wanted, *words)


def main():
    tests, seed, count = Tests(sys.argv[1]), int((sys.argv[2:] or ['1'])[0]), int((sys.argv[3:] or ['300'])[0])
    check_kept(tests)
    check_hostile(tests)
    for number in range(count):
        draw = random.Random('%d %d' % (seed, number))
        text, kind, flags = random_text(draw)
        tests.compare(text, kind, *flags)
        status, saved, _ = tests.run(text, 'import', '--from', kind, *flags)
        if status == 0:
            tests.returns(saved, ('edges', []), ('dimacs', []), ('col', []), ('graph6', []))
    print('pipes: %d passed, %d failed' % (tests.passed, tests.failed))
    return 1 if tests.failed else 0


if __name__ == '__main__':
    sys.exit(main())
