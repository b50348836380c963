#!/usr/bin/env python3
"""Runs the examples of a document: a block of indented lines, the words `is answered by`, and a
second block, its transcript.

    documents.py PROGRAM FILE..
"""
import re
import subprocess
import sys

BLOCK = r'((?:    [^\n]*\n)+)'
EXAMPLE = re.compile(BLOCK + r'\nis answered by\n\n' + BLOCK)


def text(block):
    return ''.join(line[4:] + '\n' for line in block.splitlines()).encode()


def main():
    program, files = sys.argv[1], sys.argv[2:]
    passed = failed = 0
    for name in files:
        with open(name, encoding='utf-8') as file:
            examples = EXAMPLE.findall(file.read())
        for script, transcript in examples:
            answer = subprocess.run([program, 'run'], input=text(script), stdout=subprocess.PIPE).stdout
            if answer == text(transcript):
                passed += 1
            else:
                failed += 1
                print(name + ': an example is answered otherwise:\n' + script + '->\n' + answer.decode())
    print('documents: %d passed, %d failed' % (passed, failed))
    return 0 if passed and not failed else 1


if __name__ == '__main__':
    sys.exit(main())
