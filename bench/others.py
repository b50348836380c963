#!/usr/bin/env python3
"""Times whole calls of igraph and networkx, where they are installed, beside lines of a script of the same sizes.

    others.py [--turns N] PROGRAM

All times are milliseconds of processor, of each call the least of N turns, three if none is given. A library is looked
for in this Python and in the system's. A line of a script counts with its command read and its answer written: the time
of a script with the line, less that of the script without it. The graphs are drawn anew by each, so that they have the
same size and not the same edges.
"""
import os
import subprocess
import sys
import tempfile
import time

PYTHONS = [sys.executable, '/usr/bin/python3']
LIBRARIES = ['igraph', 'networkx']
SIDE, N, M, DENSE_N, DENSE_M, CYCLE = 250, 10000, 300000, 1000, 100000, 250

LATTICE = 'lattice %d x %d' % (SIDE, SIDE)
RANDOM = 'G(%d, %d)' % (N, M)
UNION, INTERSECTION = 'union of two of them', 'intersection of two of them'
COMPLEMENT = 'complement of G(%d, %d)' % (DENSE_N, DENSE_M)
PRODUCT = 'strong product of two cycles of %d' % CYCLE
WRITE_EDGES, WRITE_XML = 'G(n, m) written as edges', 'G(n, m) written as GraphML'
READ_EDGES, READ_XML = 'G(n, m) read from edges', 'G(n, m) read from GraphML'
WRITE_G6, READ_G6 = ('G(%d, %d) %s' % (DENSE_N, DENSE_M, it) for it in ('written as graph6', 'read from graph6'))
SAVE, LOAD = 'G(n, m) saved', 'G(n, m) loaded'
ROWS = [LATTICE, RANDOM, UNION, INTERSECTION, COMPLEMENT, PRODUCT, WRITE_EDGES, WRITE_XML, WRITE_G6, READ_EDGES, READ_XML, READ_G6, SAVE, LOAD]


def random_line(name, n=N, m=M, seed=1):
    return 'random %s %d %d 0 0 0 1 1 %d\n' % (name, n, m, seed)


BOTH = random_line('g') + random_line('h', seed=2)
# The lines in front, and the line.
LINES = {
    LATTICE: ('', 'board g %d %d 0 0 1 0 0\n' % (SIDE, SIDE)),
    RANDOM: ('', random_line('g')),
    UNION: (BOTH, 'gunion i g h 0 0\n'),
    INTERSECTION: (BOTH, 'intersection i g h 0\n'),
    COMPLEMENT: (random_line('g', DENSE_N, DENSE_M), 'complement i g 0 0 0\n'),
    PRODUCT: ('board g %d 0 0 0 1 1 0\n' % CYCLE, 'product i g g 2 0\n'),
    SAVE: (random_line('g'), 'save g\n'),
}


def spent(words, script=b''):
    """Milliseconds of processor of a program, and what it wrote."""
    with tempfile.TemporaryFile() as written, tempfile.TemporaryFile() as given:
        given.write(script)
        given.seek(0)
        child = subprocess.Popen(words, stdin=given, stdout=written)
        _, status, usage = os.wait4(child.pid, 0)
        child.returncode = os.waitstatus_to_exitcode(status)
        written.seek(0)
        return 1000 * (usage.ru_utime + usage.ru_stime), written.read()


def time_program(program, turns):
    least = lambda words, script='': min(spent(words, script.encode())[0] for _ in range(turns))
    run = [program, 'run']
    times = {}
    for row, (front, line) in LINES.items():
        times[row] = least(run, front + line) - least(run, front)
    # An export reads a saved text first, as a check does; an import saves what it read.
    text, dense = made(run, N, M), made(run, DENSE_N, DENSE_M)
    check = [program, 'check', '/dev/stdin']
    times[LOAD] = least(check, text)
    for row, form, saved in ((WRITE_EDGES, 'edges', text), (WRITE_XML, 'graphml', text), (WRITE_G6, 'graph6', dense)):
        times[row] = least([program, 'export', '--as', form], saved) - least(check, saved)
    for row, form, saved in ((READ_EDGES, 'edges', text), (READ_G6, 'graph6', dense)):
        written = spent([program, 'export', '--as', form], saved.encode())[1].decode()
        n, m = (N, M) if saved is text else (DENSE_N, DENSE_M)
        line = random_line('g', n, m)
        times[row] = least([program, 'import', '--from', form], written) - (least(run, line + 'save g\n') - least(run, line))
    return times


def made(run, n, m):
    """The saved text of a random graph."""
    lines = spent(run, (random_line('g', n, m) + 'save g\n').encode())[1].decode().split('\n')
    return '\n'.join(lines[1:-2]) + '\n'


def calls_of_igraph(folder):
    import igraph
    g, h = (igraph.Graph.Erdos_Renyi(n=N, m=M) for _ in range(2))
    dense = igraph.Graph.Erdos_Renyi(n=DENSE_N, m=DENSE_M)
    edges, xml = folder + '/edges', folder + '/graphml'
    return {
        LATTICE: lambda: igraph.Graph.Lattice([SIDE, SIDE], circular=False),
        RANDOM: lambda: igraph.Graph.Erdos_Renyi(n=N, m=M),
        UNION: lambda: g.union(h),
        INTERSECTION: lambda: g.intersection(h),
        COMPLEMENT: lambda: dense.complementer(loops=False),
        WRITE_EDGES: lambda: g.write_edgelist(edges),
        WRITE_XML: lambda: g.write_graphml(xml),
        READ_EDGES: lambda: igraph.Graph.Read_Edgelist(edges, directed=False),
        READ_XML: lambda: igraph.Graph.Read_GraphML(xml),
    }


def calls_of_networkx(folder):
    import networkx
    g, h = (networkx.gnm_random_graph(N, M, seed) for seed in (1, 2))
    dense = networkx.gnm_random_graph(DENSE_N, DENSE_M, 1)
    cycle = networkx.cycle_graph(CYCLE)
    edges, xml, graph6 = folder + '/edges', folder + '/graphml', folder + '/graph6'
    return {
        LATTICE: lambda: networkx.grid_2d_graph(SIDE, SIDE),
        RANDOM: lambda: networkx.gnm_random_graph(N, M, 1),
        UNION: lambda: networkx.compose(g, h),
        INTERSECTION: lambda: networkx.intersection(g, h),
        COMPLEMENT: lambda: networkx.complement(dense),
        PRODUCT: lambda: networkx.strong_product(cycle, cycle),
        WRITE_EDGES: lambda: networkx.write_edgelist(g, edges, data=False),
        WRITE_XML: lambda: networkx.write_graphml(g, xml),
        WRITE_G6: lambda: networkx.write_graph6(dense, graph6),
        READ_EDGES: lambda: networkx.read_edgelist(edges, nodetype=int),
        READ_XML: lambda: networkx.read_graphml(xml, node_type=int),
        READ_G6: lambda: networkx.read_graph6(graph6),
    }


def time_calls(library, turns):
    """Prints each call's time and row, in the Python that has the library."""
    with tempfile.TemporaryDirectory() as folder:
        for row, call in globals()['calls_of_' + library](folder).items():
            times = []
            for _ in range(turns):
                start = time.process_time()
                call()
                times.append(time.process_time() - start)
            print('%f %s' % (1000 * min(times), row), flush=True)


def time_library(library, turns):
    """The times by row, of which there are none where the library is not installed, and its version."""
    for python in PYTHONS:
        asked = [python, '-c', 'import %s; print(%s.__version__)' % (library, library)]
        found = subprocess.run(asked, stdout=subprocess.PIPE, stderr=subprocess.DEVNULL, text=True)
        if found.returncode == 0:
            words = [python, __file__, '--calls', library, str(turns)]
            told = subprocess.run(words, stdout=subprocess.PIPE, check=True, text=True).stdout
            times = (line.split(' ', 1) for line in told.splitlines())
            return {row: float(number) for number, row in times}, found.stdout.strip()
    return {}, None


def main():
    flags, program = sys.argv[1:-1], os.path.abspath(sys.argv[-1])
    turns = int(flags[flags.index('--turns') + 1]) if '--turns' in flags else 3
    columns = []
    for library in LIBRARIES:
        times, version = time_library(library, turns)
        if version:
            columns.append((library + ' ' + version, times))
        else:
            print('%s is not installed' % library)
    if not columns:
        return
    columns.insert(0, ('sgb', time_program(program, turns)))
    print('%-36s' % 'ms of processor' + ''.join('%18s' % name for name, _ in columns))
    for row in ROWS:
        if any(row in times for _, times in columns):
            print('%-36s' % row + ''.join('%18.1f' % times[row] if row in times else '%18s' % '-' for _, times in columns))


if __name__ == '__main__':
    if sys.argv[1:2] == ['--calls']:
        time_calls(sys.argv[2], int(sys.argv[3]))
    else:
        main()
