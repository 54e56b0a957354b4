#!/usr/bin/env python3
"""A split that is healed at once (document 02, request (vi)): carried out by the static library, judged by the
reference's `sluice_faults`.

  check_split_heal.py [MAPS] [--seed S]

Needs crates/solgwid/out/libsolgwid.a (`rt lib` in crates/solgwid) and a C compiler. The maps are grown by the
reference, for 6 points or 12, with islands among them and curves of as many points. Every edge is cut at its points and
between them: by 8 and healed by 10, by 7 and healed by 9. Then the same in tables with one free row, also with the next
edge number at 999,996 to 1,000,000 (999,997 is the last that leaves a number for kind 9).
"""

import ctypes
import itertools
import random
import sys
from collections import Counter
from dataclasses import astuple, replace

from comparison import command, seeds
from check_calls import Lent, cells, library, listed, slice_of     # finds the reference
from repository import LEVEL

import check
import full
import fuzz
import grown
import plotmap as pm

HIGH = range(999_996, 1_000_001)
COUNTED = ('maps', 'maps for 6 points', 'maps with islands', 'cuts healed', 'cuts of loops',
           'cuts of curves with the most points', 'cuts with next edge above 999,997', 'splits turned down')


def by_library(lib):
    """`check.answered` with the ticket carried out by the library: the map after it, or its refusal."""
    def answered(m, s, ticket, level):
        before = listed(*pm.encode(m, s, level))
        lent, value = Lent(*before), ctypes.c_int64(99)
        numbers = slice_of(cells(ticket), len(ticket))
        refusal = lib.solgwid_ticket(*lent.words(), *numbers, ctypes.byref(value))
        if refusal:
            assert lent.now() == before and value.value == 0, 'a refusal changed something'
            return refusal
        rows, head = lent.now()
        after = pm.decode(pm.Tables(*map(tuple, rows)), pm.Head(*head), level)
        again = astuple(pm.encode(after, s, level)[0])
        assert tuple(map(tuple, rows)) == again, 'another rectangle, or rows past a count that are not 0'
        return after
    return answered


def places(rng, e):
    return sorted({*e.points, *(fuzz.along(rng, e) for _ in range(6))})


def settings(m):
    """Roomy tables, and tables with one free row; there also the last edge numbers."""
    tight = pm.Sizes(len(m.nodes) + 1, len(m.edges) + 1, len(m.faces))
    return [(m, grown.BIG), (m, tight), *((replace(m, next_edge=n), tight) for n in HIGH)]


def of_map(rng, m):
    """All edges of a map cut and healed: the counts and the differences."""
    seen, found = Counter({'maps': 1, 'maps for 6 points': m.points == 6}), []
    seen['maps with islands'] += pm.piece_count(m) > 1
    for e in m.edges:
        for at, (x, sizes) in itertools.product(places(rng, e), settings(m)):
            faults = check.sluice_faults(x, sizes, e.number, at, LEVEL)
            found += [f'{faults} at {at} on {e} of {x}'] * bool(faults)
            healed = faults == []
            seen['cuts healed' if healed else 'splits turned down'] += 1
            seen['cuts of loops'] += healed and e.start == e.end
            seen['cuts of curves with the most points'] += healed and len(e.points) == m.points
            seen['cuts with next edge above 999,997'] += healed and x.next_edge in HIGH[2:]
    return seen, found


def comparisons(lib, seed):
    check.answered = by_library(lib)
    for s in seeds(seed):
        rng = random.Random(s)
        yield of_map(rng, full.filled(rng, grown.grow(rng, rng.choice([30, 60, 120]), LEVEL), LEVEL))


if __name__ == '__main__':
    sys.exit(command(__doc__, 'maps', 200, lambda seed: comparisons(library(), seed), COUNTED))
