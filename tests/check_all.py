#!/usr/bin/env python3
"""All comparisons with the reference for about so many minutes, and one line at the end.

  check_all.py MINUTES [--seed S]

Needs crates/sheet/out/sheet (`rt run` in crates/sheet), crates/solgwid/out/libsolgwid.a (`rt lib` in crates/solgwid), a
C compiler and the Rattle kit; it builds nothing and says what is missing. The parts run one after the other, each for
its share of the time. The definitions come last: their first run in a clone may have the prover check the map's crates,
some minutes, and it is not broken off. Differences and progress go to standard error. The seed is the clock's if none
is given; a run with the same seed makes the same comparisons, as far as its time reaches. Exit status 1 if anything
differs.
"""

import argparse
import sys
import time

import check_calls
import check_definitions
import check_limits
import check_sheet
import check_split_heal
from comparison import counted, tally
from repository import needed, program


def parts(seed):
    """Of each part the name, the comparisons, its share of the time and what is counted. Ends at once where something
    is missing."""
    needed('rt', 'the Rattle kit')
    program('sheet')
    lib = check_calls.library()
    return (('sheet, all mixes', check_sheet.comparisons(seed), 0.15, check_sheet.COUNTED),
            ('sheet, islands', check_sheet.comparisons(seed, 'islands'), 0.15, check_sheet.COUNTED),
            ('library', check_calls.calls(lib, seed), 0.15, ('whole calls',)),
            ('library', check_calls.lists(lib, seed), 0.05, ('lists in one call', 'lists turned down')),
            ('library', check_calls.face_tables(lib, seed), 0.04, ('spoiled face tables',)),
            ('library', check_calls.creations(lib, seed), 0.01, ('maps created',)),
            ('library', check_calls.sheets(lib, seed), 0.05, ('contents',)),
            ('library', check_split_heal.comparisons(lib, seed), 0.1, ('maps', 'cuts healed')),
            ('library', check_limits.comparisons(lib, seed), 0.1, ('calls at the limits',)),
            ('definitions', check_definitions.comparisons(seed), 0.2, ('lists', 'calls')))


def held(name, comparisons, seconds, names):
    """What a part compared, as text, and its differences."""
    counts, differences = tally(comparisons, seconds)
    text = f'{name}: {counted(counts, *names)}'
    print(f'{text}, {differences} differences', file=sys.stderr, flush=True)
    return text, differences


def main():
    p = argparse.ArgumentParser(description=__doc__, formatter_class=argparse.RawDescriptionHelpFormatter)
    p.add_argument('minutes', type=float)
    p.add_argument('--seed', type=int, default=int(time.time()))
    a = p.parse_args()
    print(f'seed {a.seed}', file=sys.stderr, flush=True)
    results = [held(name, part, share * 60 * a.minutes, names) for name, part, share, names in parts(a.seed)]
    differences = sum(n for _, n in results)
    print(f'seed {a.seed}; {"; ".join(text for text, _ in results)}; {differences} differences')
    return 1 if differences else 0


if __name__ == '__main__':
    sys.exit(main())
