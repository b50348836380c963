#!/usr/bin/env python3
"""Looks up each relative link of the pages of the repository: the file, and in a page the heading that it names.

    links.py
"""
import os
import re
import subprocess
import sys

LINK = re.compile(r'\]\(([^)\s]+)\)')
HEADING = re.compile(r'(?m)^#+ (.*)$')


def read(name):
    with open(name, encoding='utf-8') as file:
        return file.read()


def without_code(text):
    return re.sub(r'(?ms)^```.*?^```', '', re.sub(r'(?m)^    .*$', '', text))


def anchors(page):
    """The names by which the headings of a page are linked to."""
    found = set()
    for heading in HEADING.findall(read(page)):
        words = re.sub(r'\[([^]]*)\]\([^)]*\)', r'\1', heading).lower()
        found.add(re.sub(r'[^\w\- ]', '', words).replace(' ', '-'))
    return found


def wrong(page, link):
    """What is wrong with a link, if anything is."""
    path, _, anchor = link.partition('#')
    target = os.path.normpath(os.path.join(os.path.dirname(page), path)) if path else page
    if not os.path.exists(target):
        return 'there is no %s' % target
    if anchor and target.endswith('.md') and anchor not in anchors(target):
        return '%s has no heading %s' % (target, anchor)
    return None


def main():
    pages = subprocess.run(['git', 'ls-files', '*.md'], stdout=subprocess.PIPE, check=True, text=True).stdout.split()
    passed = failed = 0
    for page in pages:
        for link in LINK.findall(without_code(read(page))):
            if re.match(r'[a-z]+:', link):
                continue
            fault = wrong(page, link)
            passed, failed = passed + (not fault), failed + bool(fault)
            if fault:
                print('%s: %s: %s' % (page, link, fault))
    print('links: %d passed, %d failed' % (passed, failed))
    return 1 if failed or not passed else 0


if __name__ == '__main__':
    sys.exit(main())
