#!/usr/bin/env python3
"""Compares the programs that a page shows with the files that are proved: each block of the page is a file word for word, and each
file of the crate's src/ and specs/, but for the root of either, is shown once.

    shown.py PAGE CRATE
"""
import glob
import os
import re
import sys

BLOCK = re.compile(r'(?ms)^```(?:rust|antt)\n(.*?)^```$')
ROOTS = ('lib.rt', 'Lib.antt')


def read(name):
    with open(name, encoding='utf-8') as file:
        return file.read()


def main():
    page, folder = sys.argv[1:]
    blocks = BLOCK.findall(read(page))
    names = sorted(glob.glob(folder + '/src/*.rt') + glob.glob(folder + '/specs/*.antt'))
    files = {name: read(name) for name in names if os.path.basename(name) not in ROOTS}
    unknown = [block for block in blocks if block not in files.values()]
    for block in unknown:
        print('%s shows what is no file of %s:\n%s' % (page, folder, block))
    hidden = [name for name, text in files.items() if blocks.count(text) != 1]
    for name in hidden:
        print('%s does not show %s once' % (page, name))
    passed, failed = len(blocks) - len(unknown), len(unknown) + len(hidden)
    print('shown: %d passed, %d failed' % (passed, failed))
    return 0 if passed and not failed else 1


if __name__ == '__main__':
    sys.exit(main())
