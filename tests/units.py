"""The units of a script: single lines, and lines with those behind them that they take."""
import re
from collections import namedtuple

# The number of a unit's first line, where its bytes begin and end, its lines, whether what it takes goes on without an
# end, and whether it ends with a newline.
Unit = namedtuple('Unit', 'number start end lines is_open is_whole')


def word(line):
    """The first word of a line."""
    return line.lstrip(b' ').split(b' ')[0]


def units(script, has_groups=False):
    """All units of a script, the last of which may be open, or a line without its newline."""
    found, lines, start, at, inside = [], [], 0, 0, None
    split = [line for line in re.split(rb'(?<=\n)', script) if line]
    for number, line in enumerate(split, 1):
        bare = line.rstrip(b'\n')
        lines.append(bare)
        at += len(line)
        if inside == 'text':
            inside = 'text' if bare != b'.' else 'group' if word(lines[0]) == b'group' else None
        elif word(bare) == b'load':
            inside = 'text'
        elif has_groups and len(lines) == 1 and word(bare) == b'group':
            inside = 'group'
        elif inside == 'group' and bare.strip(b' ') == b'end':
            inside = None
        if not inside or number == len(split):
            is_whole = not inside and line.endswith(b'\n')
            found.append(Unit(number - len(lines) + 1, start, at, lines, bool(inside), is_whole))
            lines, start = [], at
    return found
