#!/usr/bin/env python3
"""Exchanges graphs with tools of others: Graphviz draws them, networkx and nauty read them and write what the program reads, and
networkx tells what it finds in them. What is missing of these is installed by the system's packages, where that can be done. No part
of the gate.

    tools.py PROGRAM
"""
import heapq
import os
import random
import shutil
import subprocess
import sys
from itertools import combinations
from xml.etree import ElementTree

PACKAGES = ['graphviz', 'python3-networkx', 'nauty']
# The system's own Python, for which its packages are.
PYTHON = '/usr/bin/python3'
HAS_NETWORKX = [PYTHON, '-c', 'import networkx']
SVG = '{http://www.w3.org/2000/svg}'

PETERSEN = 'subsets 2 1 -4 0 0 0 1 0'
KNIGHT = 'board 8 8 0 0 5 0 0'
RANDOM = 'random 60 150 0 0 0 1 1000 5'

# Graphs, the tool of Graphviz that draws them, and how many vertices and edges or arcs they have.
DRAWN = [(PETERSEN, 'neato', 10, 15), (KNIGHT, 'neato', 64, 168), (RANDOM, 'neato', 60, 150),
         ('binary 4 0 1', 'dot', 14, 21), ('random 20 40 0 1 1 -9 9 5', 'dot', 20, 40)]

# Random graphs, some with parallel edges and loops, and whether they have arcs.
READ = [(RANDOM, False), ('random 200 900 0 0 1 1 1000 6', True), ('random 30 200 1 1 0 0 50 7', False),
        ('random 30 200 1 1 1 0 50 8', True)]

# A script that makes combinations of graphs, of which it saves one, of this name.
COMBINED = '''board p 3 0 0 0 1 0 0
subsets q 2 1 -4 0 0 0 1 0
complement c q 0 0 0
product cartesian p q 0 0
product direct p q 1 0
product strong p q 2 0
gunion both q c 0 0
save %s
'''

passed = failed = 0


def count(holds, what):
    global passed, failed
    passed, failed = passed + bool(holds), failed + (not holds)
    if not holds:
        print('FAILED: ' + what)


def has_tools():
    return all(map(shutil.which, ['neato', 'dot', 'nauty-geng', 'nauty-copyg'])) \
        and subprocess.run(HAS_NETWORKX, stderr=subprocess.DEVNULL).returncode == 0


def install():
    """Installs what is missing, and answers whether all is there."""
    if has_tools():
        return True
    words = ['apt-get', 'install', '-y', *PACKAGES]
    print('tools: ' + ' '.join(words), flush=True)
    try:
        for command in ['apt-get', 'update'], words:
            subprocess.run(command, stdin=subprocess.DEVNULL, stdout=subprocess.DEVNULL, check=True)
    except (OSError, subprocess.CalledProcessError) as fault:
        print('tools: cannot install: %s' % fault)
    return has_tools()


def make(words):
    """The saved text of a graph."""
    return subprocess.run([program, 'make', *words.split()], stdout=subprocess.PIPE, check=True).stdout


def combine(name):
    """The saved text of a graph that the script of combinations makes."""
    script = (COMBINED % name).encode()
    told = subprocess.run([program, 'run'], input=script, stdout=subprocess.PIPE, check=True).stdout
    return told[told.index(b'* GraphBase graph'):]


def export(saved, *words):
    return subprocess.run([program, 'export', '--as', *words], input=saved, stdout=subprocess.PIPE, check=True).stdout


def draw(saved, tool):
    """The vertices and the edges that Graphviz draws, by the titles that it gives them."""
    drawn = subprocess.run([tool, '-Tsvg'], input=export(saved, 'dot'), stdout=subprocess.PIPE, check=True).stdout
    parts = ElementTree.fromstring(drawn).iter(SVG + 'g')
    found = [(part.get('class'), part.findtext(SVG + 'title')) for part in parts]
    return [sorted(title for kind, title in found if kind == wanted) for wanted in ('node', 'edge')]


def listed(text):
    """Whether a list of edges says that they are arcs, how many vertices it tells, and its lines: two ends and a length."""
    first, _, *lines = text.decode().splitlines()
    _, kind, n, m = first.split(' ')
    links = [tuple(map(int, line.split(' '))) for line in lines]
    assert len(links) == int(m)
    return kind == 'digraph', int(n), links


def check_drawings():
    for words, tool, n, m in DRAWN:
        saved = make(words)
        is_directed, _, links = listed(export(saved, 'edges'))
        vertices, edges = draw(saved, tool)
        arrow = '->' if is_directed else '--'
        count((len(vertices), len(edges)) == (n, m), '%s draws %s' % (tool, words))
        count(edges == sorted('%d%s%d' % (v, arrow, w) for v, w, _ in links), '%s draws the edges of %s' % (tool, words))


def from_graphml(nx, saved):
    graph = nx.parse_graphml(export(saved, 'graphml').decode(), force_multigraph=True)
    return nx.relabel_nodes(graph, {name: int(name[1:]) for name in graph})


def from_edges(nx, saved):
    is_directed, n, links = listed(export(saved, 'edges'))
    graph = nx.MultiDiGraph() if is_directed else nx.MultiGraph()
    graph.add_nodes_from(range(n))
    lines = export(saved, 'edges').decode().splitlines()
    graph.add_edges_from(nx.parse_edgelist(lines, create_using=type(graph), nodetype=int, data=[('len', int)]).edges(data=True))
    return graph


def links_of(graph):
    """Both ends of each edge or arc, with its length, in any order."""
    ends = graph.edges(data='len')
    return sorted((v, w, length) if graph.is_directed() else (min(v, w), max(v, w), length) for v, w, length in ends)


def ends_of(graph):
    return {frozenset(ends) for ends in graph.edges}


def named(nx, saved):
    """The graph with the names of its vertices in place of their numbers."""
    lines = export(saved, 'edges', '--names').decode().splitlines()
    return nx.parse_edgelist(lines, data=[('len', int)])


def from_dimacs(saved):
    """The arcs of a shortest-path problem by the vertex that they leave, which counts from 1."""
    arcs = {}
    for line in export(saved, 'dimacs').decode().splitlines():
        word, *numbers = line.split(' ')
        if word == 'p':
            arcs = {v: [] for v in range(1, int(numbers[1]) + 1)}
        elif word == 'a':
            v, w, length = map(int, numbers)
            arcs[v].append((w, length))
    return arcs


def distances(arcs, start):
    """How far each vertex is from one, by Dijkstra's way."""
    found, waiting = {}, [(0, start)]
    while waiting:
        far, v = heapq.heappop(waiting)
        if v not in found:
            found[v] = far
            for w, length in arcs[v]:
                heapq.heappush(waiting, (far + length, w))
    return found


def check_readers(nx):
    for words, is_directed in READ:
        saved = make(words)
        n, m = map(int, words.split()[1:3])
        graph, other, arcs = from_graphml(nx, saved), from_edges(nx, saved), from_dimacs(saved)
        count(graph.is_directed() == other.is_directed() == is_directed, 'edges or arcs of ' + words)
        count((len(graph), graph.size()) == (len(other), other.size()) == (n, m), 'the counts of ' + words)
        count(links_of(graph) == links_of(other), 'the same edges of ' + words)
        for v in 0, n - 1:
            far = nx.single_source_dijkstra_path_length(graph, v, weight='len')
            count(distances(arcs, v + 1) == {w + 1: length for w, length in far.items()}, 'paths from %d of %s' % (v, words))


def kneser(nx, n, k):
    """Sets of k of n elements, joined where they have nothing in common."""
    sets = [frozenset(it) for it in combinations(range(n), k)]
    graph = nx.Graph()
    graph.add_nodes_from(sets)
    graph.add_edges_from((a, b) for a, b in combinations(sets, 2) if not a & b)
    return graph


def known(nx):
    """Graphs of our own beside those that networkx makes."""
    petersen, path, complete = nx.petersen_graph(), nx.path_graph(3), nx.complete_graph
    for words, graph in [(PETERSEN, petersen), ('board 5 7 0 0 1 0 0', nx.grid_2d_graph(5, 7)),
                         ('board 4 5 0 0 1 -1 0', nx.grid_2d_graph(4, 5, periodic=True)),
                         ('board 3 4 5 0 1 0 0', nx.grid_graph([3, 4, 5])), ('board 2 -6 0 0 1 0 0', nx.hypercube_graph(6)),
                         ('board 9 0 0 0 1 1 0', nx.cycle_graph(9)), ('board 2 8 0 0 1 0 0', nx.ladder_graph(8)),
                         ('board 5 6 0 0 -1 0 0', nx.line_graph(nx.complete_bipartite_graph(5, 6))),
                         ('subsets 3 1 -6 0 0 0 1 0', kneser(nx, 7, 3)), ('subsets 2 1 -4 0 0 0 2 0', nx.line_graph(complete(5))),
                         ('subsets 2 1 -4 0 0 0 3 0', complete(10)), ('simplex 2 1 -3 0 0 0 0', nx.octahedral_graph()),
                         ('simplex 1 -5 0 0 0 0 0', complete(6)), ('perms 1 -2 0 0 0 0 0', nx.cycle_graph(6)),
                         ('binary 3 0 0', nx.cycle_graph(5))]:
        yield words, make(words), graph
    for name, graph in [('c', nx.complement(petersen)), ('both', complete(10)), ('strong', nx.strong_product(path, petersen)),
                        ('cartesian', nx.cartesian_product(path, petersen)), ('direct', nx.tensor_product(path, petersen))]:
        yield name, combine(name), graph


def check_known(nx):
    for what, saved, graph in known(nx):
        ours = nx.Graph(from_graphml(nx, saved))
        count((len(ours), ours.size()) == (len(graph), graph.size()), 'the counts of ' + what)
        count(nx.is_isomorphic(ours, graph), '%s is the graph of networkx' % what)
    petersen = nx.Graph(from_graphml(nx, make(PETERSEN)))
    count(min(map(len, nx.minimum_cycle_basis(petersen))) == 5, 'the Petersen graph has girth 5')
    count(nx.diameter(petersen) == 2, 'the Petersen graph has diameter 2')
    pairs = nx.relabel_nodes(kneser(nx, 5, 2), lambda pair: '.'.join('01'[k in pair] for k in range(5)))
    count(ends_of(named(nx, make(PETERSEN))) == ends_of(pairs), 'the vertices of the Petersen graph are named as pairs')


def random_graph(nx, number):
    """A random graph of at most 100 vertices."""
    draw = random.Random(number)
    n, share = draw.choice([0, 1, 2, draw.randrange(3, 20), 62, 63, draw.randrange(101)]), draw.choice([0.02, 0.1, 0.5, 0.9, 1])
    return nx.gnp_random_graph(n, share, number)


def imported(text, *words):
    return subprocess.run([program, 'import', '--from', *words], input=text, stdout=subprocess.PIPE, check=True).stdout


def check_graph6(nx):
    """What networkx and nauty write in graph6 is read, and written again byte for byte."""
    texts = []
    for number in range(1000):
        graph = random_graph(nx, number)
        text = nx.to_graph6_bytes(graph, header=number % 2 == 0)
        saved = imported(text, 'graph6')
        texts.append(export(saved, 'graph6'))
        count(texts[-1] == nx.to_graph6_bytes(graph, header=False), 'the graph6 of random graph %d' % number)
        count({(v, w) for v, w, _ in listed(export(saved, 'edges'))[2]} == {(min(it), max(it)) for it in graph.edges},
              'the edges of random graph %d' % number)
    # (nauty refuses a graph without vertices)
    some = [text for text in texts if text != b'?\n']
    met = subprocess.run(['nauty-copyg', '-q'], input=b''.join(some), stdout=subprocess.PIPE, check=True).stdout
    count(met == b''.join(some), 'nauty reads our graph6')
    for n in range(1, 7):
        for line in subprocess.run(['nauty-geng', '-q', str(n)], stdout=subprocess.PIPE, check=True).stdout.splitlines(keepends=True):
            count(export(imported(line, 'graph6'), 'graph6') == line, 'a graph of nauty-geng %d' % n)


def facts_of(saved):
    told = subprocess.run([program, 'info'], input=saved, stdout=subprocess.PIPE, check=True).stdout.decode()
    return dict(line.split(maxsplit=1) for line in told.splitlines())


def facts_by(nx, graph):
    """The facts that networkx finds in a graph without parallel edges, all of one length."""
    is_directed, degrees = graph.is_directed(), [d for _, d in (graph.out_degree if graph.is_directed() else graph.degree)()]
    components = nx.number_weakly_connected_components if is_directed else nx.number_connected_components
    return {'vertices': len(graph), 'edges': '-' if is_directed else graph.size(), 'loops': nx.number_of_selfloops(graph), 'repeated': 0,
            'out-least': min(degrees, default='-'), 'out-greatest': max(degrees, default='-'),
            'components': components(graph) if len(graph) else 0,
            'bipartite': 'yes' if nx.is_bipartite(nx.Graph(graph)) else 'no'}


def check_facts(nx):
    for number in range(200):
        graph = random_graph(nx, number)
        saved = imported(nx.to_graph6_bytes(graph), 'graph6')
        met, wanted = facts_of(saved), facts_by(nx, graph)
        count({name: met[name] for name in wanted} == {name: str(it) for name, it in wanted.items()}, 'the facts of random graph %d' % number)
        arcs = nx.gnp_random_graph(2 + number % 30, 0.1, number, directed=True)
        lines = ['# digraph %d %d' % (len(arcs), arcs.size()), *('%d %d' % it for it in arcs.edges)]
        met, wanted = facts_of(imported('\n'.join(lines).encode(), 'edges')), facts_by(nx, arcs)
        # (arcs that are paired by chance, or none at all, are edges)
        if met['edges'] == '-':
            count({name: met[name] for name in wanted} == {name: str(it) for name, it in wanted.items()}, 'the facts of random digraph %d' % number)
            heads = [d for _, d in arcs.in_degree()]
            count((met['in-least'], met['in-greatest']) == (str(min(heads)), str(max(heads))), 'the in-degrees of random digraph %d' % number)


def check_lists(nx):
    """Lists of edges and DIMACS texts of networkx's graphs."""
    for number in range(200):
        graph = random_graph(nx, number)
        draw = random.Random(number)
        for v, w in graph.edges:
            graph.edges[v, w]['len'] = draw.randrange(-9, 10)
        lines = [line + '\n' for line in nx.generate_edgelist(graph, data=['len'])]
        met = listed(export(imported(''.join(lines).encode(), 'edges'), 'edges'))
        count(sorted(met[2]) == links_of(nx.MultiGraph(graph)), 'the list of edges of random graph %d' % number)
        dimacs = 'p edge %d %d\n%s' % (len(graph), graph.size(), ''.join('e %d %d\n' % (v + 1, w + 1) for v, w in graph.edges))
        met = listed(export(imported(dimacs.encode(), 'dimacs'), 'edges'))
        count((met[1], {it[:2] for it in met[2]}) == (len(graph), {(min(it), max(it)) for it in graph.edges}), 'the DIMACS text of random graph %d' % number)


def attempt(check, *given):
    """Runs a check, and counts it as failed where a program that it starts fails."""
    try:
        check(*given)
    except subprocess.CalledProcessError as fault:
        count(False, str(fault))


def main():
    if not install():
        print('tools: Graphviz, networkx or nauty is not there and cannot be installed, so nothing is tried')
        print('tools: 0 passed, 1 failed')
        return 1
    try:
        import networkx as nx
    except ImportError:
        sys.stdout.flush()
        os.execv(PYTHON, [PYTHON, *sys.argv])
    told = subprocess.run(['dot', '-V'], stderr=subprocess.PIPE, check=True).stderr.decode().strip()
    print('%s; networkx %s' % (told, nx.__version__))
    attempt(check_drawings)
    attempt(check_readers, nx)
    attempt(check_known, nx)
    attempt(check_graph6, nx)
    attempt(check_lists, nx)
    attempt(check_facts, nx)
    print('tools: %d passed, %d failed' % (passed, failed))
    return 1 if failed else 0


if __name__ == '__main__':
    program = os.path.abspath(sys.argv[1])
    sys.exit(main())
