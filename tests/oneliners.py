#!/usr/bin/env python3
"""Runs the commands that a document shows behind `$`, in one folder, and compares what they print with the lines that stand below them.

    oneliners.py PROGRAM [--tools] FILE

A command that names a tool which is not on every system is left out, unless `--tools` is given.
"""
import os
import re
import subprocess
import sys
import tempfile

COMMAND = re.compile(r'(?m)^    \$ (.*)\n((?:    (?!\$ ).*\n)*)')
# What is on no system by itself.
TOOL = re.compile(r'\b(?:neato|dot -T|gvpr|nauty-\w+)')


def main():
    program, *flags, name = sys.argv[1:]
    with open(name, encoding='utf-8') as file:
        commands = COMMAND.findall(file.read())
    passed = failed = left_out = 0
    with tempfile.TemporaryDirectory() as bin_folder, tempfile.TemporaryDirectory() as folder:
        os.symlink(os.path.abspath(program), os.path.join(bin_folder, 'sgb'))
        path = bin_folder + os.pathsep + os.environ['PATH']
        for command, told in commands:
            if TOOL.search(command) and '--tools' not in flags:
                left_out += 1
                continue
            ended = subprocess.run(['sh', '-c', command], cwd=folder, env={**os.environ, 'PATH': path}, stdout=subprocess.PIPE, stderr=subprocess.STDOUT)
            met = ended.stdout.decode()
            if met == re.sub(r'(?m)^    ', '', told):
                passed += 1
            else:
                failed += 1
                print('%s: %s\nprints\n%s' % (name, command, met))
    if left_out:
        print('oneliners: %d left out for want of a tool' % left_out)
    print('oneliners: %d passed, %d failed' % (passed, failed))
    return 0 if passed and not failed else 1


if __name__ == '__main__':
    sys.exit(main())
