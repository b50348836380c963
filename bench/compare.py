#!/usr/bin/env python3
"""Runs benchmarks in turn, and compares the best time of each call.

    compare.py [--same] [--turns N] OURS PLAIN

Each prints lines NAME PICOSECONDS CHECK, and is run N times, three if none is given. The ratio is ours to the plain one: below 1
ours is faster. With --same both must print the same checks.
"""
import subprocess
import sys


def best(programs, turns):
    times = [{} for _ in programs]
    checks = [set() for _ in programs]
    for _ in range(turns):
        for program, known, seen in zip(programs, times, checks):
            output = subprocess.run([program], stdout=subprocess.PIPE, check=True).stdout.decode()
            for line in output.splitlines():
                name, time, check = line.split()
                known[name] = min(int(time), known.get(name, int(time)))
                seen.add((name, check))
    return times, checks


def main():
    flags, programs = sys.argv[1:-2], sys.argv[-2:]
    same = '--same' in flags
    turns = int(flags[flags.index('--turns') + 1]) if '--turns' in flags else 3
    (ours, plain), checks = best(programs, turns)
    if same and checks[0] != checks[1]:
        sys.exit('different results: %s' % sorted(checks[0] ^ checks[1]))
    print('%-20s %14s %14s %7s' % ('', 'ours, ns', 'plain, ns', 'ratio'))
    for name in ours:
        print('%-20s %14.3f %14.3f %7.2f' % (name, ours[name] / 1000, plain[name] / 1000,
                                            ours[name] / plain[name]))
    if 'back_by' in ours:
        print('back to next: %.2f; back_by to back: %.2f' % (ours['back'] / ours['next'],
                                                           ours['back_by'] / ours['back']))


if __name__ == '__main__':
    main()
