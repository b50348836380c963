#!/usr/bin/env python3
"""Times scripts by two programs in turn, and compares them line by line.

    lines.py [--instructions] OURS PLAIN

Each is called as PROGRAM run FILE, and both must write the same transcripts. Printed are nanoseconds of processor time
for a line, the best of several runs, and the ratio of ours to the plain one: below 1 ours is faster. With
--instructions it is instructions for a line, of shorter scripts, by perf where it counts them and else by valgrind;
they hardly change from run to run.

A row is the difference of two scripts, the shorter of which is the front of the longer.
"""
import os
import random
import re
import shutil
import subprocess
import sys
import tempfile

ROUNDS = 40
EDITS = 60_000
# No more commands than this stand at once in the rows with undos.
BLOCK = 1000


def edits(count):
    lines = ['graph g 1000']
    for k in range(count - 1):
        lines.append((
            'arc g %d %d %d' % (k % 1000, k * 7 % 1000, k),
            'edge g %d %d 3' % (k * 3 % 1000, k % 997),
            'next',
            'set g V%d u %d' % (k % 1000, k),
            'len g 0 %d' % k,
            'unif 6',
        )[k % 6])
    return lines


def blocks(count, make, *behind):
    """About so many lines: a block of commands, and as many of each line behind, again and again."""
    lines = []
    for start in range(0, count, BLOCK * (1 + len(behind))):
        lines += [make(k) for k in range(start, start + BLOCK)]
        for line in behind:
            lines += [line] * BLOCK
    return lines


def scattered(count):
    chance = random.Random(1)
    pairs = [(chance.randrange(1000), chance.randrange(1000)) for _ in range(count)]
    return ['graph g 1000'] + ['arc g %d %d %d' % (u, v, k % 1000) for k, (u, v) in enumerate(pairs)]


def with_fields(count):
    """A number in each arc, and a text in each eighth."""
    return (scattered(count) + ['types g ZZZZZZISZZZZZZ'] + ['set g A%d a %d' % (k, k) for k in range(count)]
            + ['set g A%d b "%d"' % (k, k) for k in range(0, count, 8)])


def rows(million, shows):
    """Of each row its name, the lines in front, its lines, and by how many it is divided."""
    bounds = (6, 1000, 2 ** 30 + 1)

    def row(name, lines, front=()):
        return name, list(front), lines, len(lines)

    yield row('gen', ['gen'] * million)
    yield row('draws, undos, redos', blocks(million, lambda k: 'next', 'undo', 'redo', 'undo'))
    yield row('seeds and undos', blocks(million // 4, lambda k: 'seed %d' % k, 'undo'))
    yield row('uniform draws and undos', blocks(million // 2, lambda k: 'unif %d' % bounds[k % 3], 'undo'))
    yield row('arcs and undos', blocks(million // 2, lambda k: 'arc g %d %d %d' % (k % 1000, k * 7 % 1000, k), 'undo'),
              ['graph g 1000'])
    made = edits(EDITS)
    yield row('60,000 mixed edits', made)
    yield row('their undo', ['undo'] * EDITS, made)
    yield row('their redo', ['redo'] * EDITS, made + ['undo'] * EDITS)
    yield 'show of 60,000 arcs, an arc', scattered(EDITS), ['show g'] * shows, shows * EDITS
    yield 'of 30,000 with fields, an arc', with_fields(EDITS // 2), ['show g'] * shows, shows * EDITS // 2


def processor_time(program, script):
    """In nanoseconds, of user and system."""
    with open(os.devnull, 'wb') as sink:
        child = subprocess.Popen([program, 'run', script], stdout=sink)
        _, status, usage = os.wait4(child.pid, 0)
        child.returncode = os.waitstatus_to_exitcode(status)
    if child.returncode != 0:
        sys.exit('%s: status %d' % (program, child.returncode))
    return (usage.ru_utime + usage.ru_stime) * 1e9


def by_perf(program, script):
    command = ['perf', 'stat', '-x,', '-e', 'instructions:u', program, 'run', script]
    told = subprocess.run(command, stdout=subprocess.DEVNULL, stderr=subprocess.PIPE, text=True).stderr
    found = re.search(r'^(\d+),', told, re.MULTILINE)
    return int(found.group(1)) if found else None


def by_valgrind(program, script):
    command = ['valgrind', '--tool=cachegrind', '--cache-sim=no', '--cachegrind-out-file=' + os.devnull,
               program, 'run', script]
    told = subprocess.run(command, stdout=subprocess.DEVNULL, stderr=subprocess.PIPE, text=True).stderr
    found = re.search(r'I\s+refs:\s+([\d,]+)', told)
    return int(found.group(1).replace(',', '')) if found else None


def counter(programs):
    """What counts instructions here."""
    for tool, count in (('perf', by_perf), ('valgrind', by_valgrind)):
        if shutil.which(tool) and all(count(program, os.devnull) for program in programs):
            return count
    sys.exit('neither perf nor valgrind counts instructions here')


class Scripts:
    """The scripts of all rows, each once, and what they cost each program."""

    def __init__(self, programs, place, cost):
        self.programs, self.place, self.cost = programs, place, cost
        self.known = {}

    def add(self, lines):
        """The file of these lines, whose transcripts by the programs are the same."""
        text = ''.join(line + '\n' for line in lines)
        if text not in self.known:
            name = os.path.join(self.place, '%d.sgb' % len(self.known))
            with open(name, 'w') as script:
                script.write(text)
            self.compare(name)
            self.known[text] = name
        return self.known[text]

    def compare(self, name):
        transcripts = [subprocess.run([program, 'run', name], stdout=subprocess.PIPE, check=True).stdout
                       for program in self.programs]
        if transcripts[0] != transcripts[1]:
            sys.exit('different transcripts of the same script')

    def costs(self, rounds):
        """By file, the least cost for each program. All are run in turn, again and again, so that what else the machine does
        for some seconds is the same for all."""
        runs = [{name: [self.cost(program, name) for program in self.programs] for name in self.known.values()}
                for _ in range(rounds)]
        return {name: [min(of_one) for of_one in zip(*(run[name] for run in runs))] for name in self.known.values()}


def main():
    counts = sys.argv[1:2] == ['--instructions']
    programs = sys.argv[-2:]
    cost, rounds, million, shows, unit = processor_time, ROUNDS, 1_000_000, 20, 'ns'
    if counts:
        cost, rounds, million, shows, unit = counter(programs), 1, 50_000, 1, 'instr.'
    print('%-32s %14s %14s %7s' % ('a line', 'ours, ' + unit, 'plain, ' + unit, 'ratio'))
    with tempfile.TemporaryDirectory() as place:
        scripts = Scripts(programs, place, cost)
        told = [(name, scripts.add(front), scripts.add(front + lines), count) for name, front, lines, count in rows(million, shows)]
        costs = scripts.costs(rounds)
        for name, less, more, count in told:
            ours, plain = [(all_of - front_of) / count for all_of, front_of in zip(costs[more], costs[less])]
            # A difference of two times may come out below 0 on a loaded machine.
            ratio = ours / plain if plain > 0 else float('nan')
            print('%-32s %14.1f %14.1f %7.2f' % (name, ours, plain, ratio), flush=True)


if __name__ == '__main__':
    main()
