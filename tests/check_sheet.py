#!/usr/bin/env python3
"""The program `sheet` held against the reference on random lists of tickets: every answer, and all rows after it.

  check_sheet.py [LISTS] [--seed S] [--size TICKETS] [--mix NAME]

Needs crates/sheet/out/sheet (`rt run` in crates/sheet). Mixes: even, redraw, abuse, faces, stitch
(tests/reference/fuzz.py), islands (islands.py), or all of them. Of each class of difference one list is printed, made
as short as it still differs.
"""

import argparse
import itertools
import sys

from comparison import counted, seeds, tally
from repository import LEVEL, program     # finds the reference

import compare
import fuzz

MIXES = ('all', 'islands', *fuzz.MIXES)
COUNTED = 'lists', 'tickets'


def class_of(lines, at, expected, said):
    """The kind of the ticket, the refusal expected and the one said; or that the ends differ."""
    if at >= len(lines):
        return 'at the end'
    kind, wanted, given = (text.split()[:1] for text in (lines[at], expected[0], said[0]))
    return ' '.join(['kind', *kind, 'expected', *wanted, 'said', *given])


def shown(sheet, lines, class_):
    """The shortest list that differs, and how."""
    lines = compare.shortest(sheet, lines, LEVEL, True)
    _, expected, said = compare.difference(sheet, lines, LEVEL, True)
    return '\n  '.join([class_, *lines, 'expected:', *expected, 'said:', *said])


def comparisons(seed, mix='all', size=60):
    sheet, classes = program('sheet'), set()
    for s in seeds(seed):
        lines, found = compare.make(s, size, mix, LEVEL), []
        differs = compare.difference(sheet, lines, LEVEL, True)
        if differs:
            class_ = class_of(lines, *differs)
            found.append(f'{class_}, again' if class_ in classes else shown(sheet, lines[:differs[0] + 1], class_))
            classes.add(class_)
        yield {'lists': 1, 'tickets': len(lines)}, found


def main():
    p = argparse.ArgumentParser(description=__doc__, formatter_class=argparse.RawDescriptionHelpFormatter)
    p.add_argument('lists', nargs='?', type=int, default=100)
    p.add_argument('--seed', type=int, default=1)
    p.add_argument('--size', type=int, default=60)
    p.add_argument('--mix', default='all', choices=MIXES)
    a = p.parse_args()
    counts, differences = tally(itertools.islice(comparisons(a.seed, a.mix, a.size), a.lists))
    print(f'{counted(counts, *COUNTED)}, {differences} differences')
    return 1 if differences else 0


if __name__ == '__main__':
    sys.exit(main())
