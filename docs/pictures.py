#!/usr/bin/env python3
"""Draws the pictures of docs/pictures by the commands that stand in its README.md, and keeps of each what can be seen.

    pictures.py PROGRAM
"""
import os
import re
import subprocess
import sys
from xml.etree import ElementTree
from xml.sax.saxutils import escape

FOLDER = 'docs/pictures'
# An indented command, which may go on in lines that a backslash ends, and the picture that it writes.
COMMAND = re.compile(r'(?m)^    ((?:[^\n]*\\\n)*[^\n]*) > (\w+\.svg)$')
NUMBER = re.compile(r'-?\d+\.?\d*')
SVG = '{http://www.w3.org/2000/svg}'

PAGE = '''<svg xmlns="http://www.w3.org/2000/svg" width="%s" height="%s" viewBox="%s">
<rect x="0" y="0" width="100%%" height="100%%" fill="white"/>
<g transform="%s" stroke="black">
%s</g>
</svg>
'''


def short(number):
    return '%g' % round(float(number), 1)


def outline(text):
    """The way of a line, with short numbers; a curve that does not bend is two points."""
    points = [(float(x), float(y)) for x, y in re.findall(r'(-?[\d.]+),(-?[\d.]+)', text)]
    (x, y), (u, v) = points[0], points[-1]
    if all(abs((a - x) * (v - y) - (b - y) * (u - x)) < 1 + abs(u - x) + abs(v - y) for a, b in points):
        return 'M%s,%sL%s,%s' % tuple(map(short, (x, y, u, v)))
    return NUMBER.sub(lambda it: short(it[0]), text)


def parts(drawn):
    """The lines, the tips of arrows, the circles and the words of a drawing, each as it is written."""
    lines, tips, shapes, words = [], [], [], []
    for group in drawn.iter(SVG + 'g'):
        for part in group if group.get('class') in ('node', 'edge') else []:
            kind = part.tag[len(SVG):]
            if kind == 'path':
                lines.append(outline(part.get('d')))
            elif kind == 'polygon':
                tips.append('M' + 'L'.join(','.join(map(short, point.split(','))) for point in part.get('points').split()))
            elif kind == 'ellipse':
                at = [short(part.get(name)) for name in ('cx', 'cy', 'rx')]
                shapes.append('<circle cx="%s" cy="%s" r="%s"/>\n' % tuple(at))
            elif kind == 'text':
                words.append('<text x="%s" y="%s">%s</text>\n' % (short(part.get('x')), short(part.get('y')), escape(part.text)))
    return lines, tips, shapes, words


def picture(svg):
    """The drawing without what Graphviz tells of it, as one line where it has many."""
    drawn = ElementTree.fromstring(svg)
    lines, tips, shapes, words = parts(drawn)
    # The shapes of vertices that stand for themselves are full.
    fill = 'white' if words else 'black'
    body = '<path fill="none" d="%s"/>\n' % '\n'.join(lines)
    if tips:
        body += '<path d="%s"/>\n' % '\n'.join(tips)
    if shapes:
        body += '<g fill="%s">\n%s</g>\n' % (fill, ''.join(shapes))
    if words:
        body += '<g stroke="none" text-anchor="middle" font-family="Times,serif" font-size="14">\n%s</g>\n' % ''.join(words)
    place = drawn.find(SVG + 'g').get('transform')
    return PAGE % (drawn.get('width'), drawn.get('height'), drawn.get('viewBox'), place, body)


def main():
    with open(FOLDER + '/README.md', encoding='utf-8') as file:
        commands = COMMAND.findall(file.read())
    path = os.path.dirname(os.path.abspath(sys.argv[1])) + os.pathsep + os.environ['PATH']
    for command, name in commands:
        svg = subprocess.run(['sh', '-c', command], cwd=FOLDER, env={**os.environ, 'PATH': path},
                             stdout=subprocess.PIPE, check=True).stdout
        with open(os.path.join(FOLDER, name), 'w', encoding='utf-8') as file:
            file.write(picture(svg))
        print('%s/%s, %d bytes' % (FOLDER, name, os.path.getsize(os.path.join(FOLDER, name))))


if __name__ == '__main__':
    main()
