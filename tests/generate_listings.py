#!/usr/bin/env python3
"""The stored calls of crates/test_listings: writes its stdin and stdout, the answers worked out by the reference.

  generate_listings.py [TABLES] [--seed S]

Two calls on each set of tables, for the edges of a face and for the contents. First those of the manual's chapter on
the edges of a face, the square sheet after its fourth ticket, and contents by hand: a tree, none, lists that just fit.
Then so many small grown maps for 6 points or 12, a quarter with other faces on rings and lone nodes, so that 28
answers; a third distorted (curves bent, nodes moved, links off the law, faces at will) and a third spoiled in one
place, with another rectangle or with another record of points, so that each part of condition 2 answers; lists too
short, just long enough and longer.
Needs nothing that is built. Fails where 28, 20, 2, 1 or 0 is not the answer to some call for the contents.
"""

import argparse
import itertools
import random
from collections import Counter
from dataclasses import astuple, replace

from repository import LEVEL, ROOT     # finds the reference

import contents
import fuzz
import fuzz_tables as ft
import plotmap as pm
import raw_gen
import rectangles
import ticket as tk
from computed.contents import by_hand, reborne
from computed.lent import without_unborne

ROWS = pm.Sizes(8, 6, 8)
ROOM = ROWS.nodes * pm.NODE_WIDTH, ROWS.edges * pm.EDGE_WIDTH, ROWS.faces * pm.face_width(LEVEL)
LIST = 48
SQUARE = (b'1 -1 0 0', b'12 1 1 0 0 10 0 10 10 0 10 0 0', b'8 1 10 10', b'12 1 2 0 0 10 10')
FOUR_TICKETS = pm.Sizes(2, 3, 3)     # the rows that they make


def by_manual():
    """Each face, in a list of four numbers an edge; a list one short; no such face; tables not whole; not in form: a
    link, a rectangle."""
    *_, (_, _, t, h) = tk.answers(SQUARE, level=LEVEL)
    m = pm.decode(t, h, LEVEL)
    t, h = pm.encode(m, FOUR_TICKETS, LEVEL)
    enough, needed = 4 * len(m.edges), len(pm.edges_of_face(m, 1))
    spoiled, _ = pm.encode(pm.lead(m, 3, 1), FOUR_TICKETS, LEVEL)
    return [*((t, h, face, enough) for face in m.faces), (t, h, 1, needed - 1), (t, h, 9, enough),
            (replace(t, nodes=t.nodes[:-1]), h, 1, enough), (spoiled, h, 1, enough),
            (replace(t, faces=t.faces[:-1] + (t.faces[-1] + 1,)), h, 1, enough)]


def grown(rng, grid):
    m = fuzz.empty_map(rng, LEVEL)
    for _ in range(rng.randint(2, 30)):
        k = fuzz.make_ticket(rng, m, grid, fuzz.MIXES[rng.choice(['faces', 'even', 'stitch'])])
        if pm.shape_ok(k) and pm.first_reason(pm.reasons(m, ROWS, k, LEVEL)) == 0:
            m = pm.apply(m, k, LEVEL)[0]
    return m


def call(rng):
    grid = (0, 0, rng.choice([4, 6, 9, pm.MAX_COORDINATE + 1]))
    m = grown(rng, grid)
    how = rng.random()
    if how > 0.7:
        m = raw_gen.bend(rng, m, grid) if rng.random() < 0.5 else raw_gen.move(rng, m, grid)
    if how > 0.8:
        m = ft.off_law(rng, m)
    if 0.4 < how < 0.65:
        m = reborne(rng, m)
        if rng.random() < 0.7:
            m = without_unborne(m)
    rows = zip(astuple(ROWS), (m.nodes, m.edges, m.faces))
    t, h = pm.encode(m, pm.Sizes(*(min(most, len(r) + rng.randint(0, 2)) for most, r in rows)), LEVEL)
    if how < 0.1 or 0.9 < how:
        t = rng.choice(rectangles.spoiled(t, h, LEVEL))
    elif how < 0.35:
        t, h = ft.spoil(rng, t, h, LEVEL)
    elif how < 0.4:
        h = replace(h, points=rng.choice(ft.RECORDS))
    return t, h, rng.choice(m.faces * 4 + (-1, m.next_face)), rng.choice([rng.randint(0, LIST), room(t, h)])


def room(t, h):
    """Just as much as the contents take, where there are any."""
    return contents.list_contents(t, h, (77,) * LIST, LEVEL)[2]


def fits(t, h, face):
    tables = (t.nodes, t.edges, t.faces)
    numbers = [v for table in tables for v in table] + [*pm.head_numbers(h, LEVEL), face]
    return all(len(table) <= room for table, room in zip(tables, ROOM)) and all(abs(v) < 10 ** 7 for v in numbers)


def record(t, h, face, length):
    tables = (t.nodes, t.edges, t.faces)
    numbers = [*map(len, tables), *pm.head_numbers(h, LEVEL), face, length] + [0] * 4
    for table, room in zip(tables, ROOM):
        numbers += [*table] + [0] * (room - len(table))
    return ''.join(f'{"-" if v < 0 else "+"}{abs(v):07d}' for v in numbers) + '\n'


def answers(t, h, face, length):
    listed = (77,) * length
    return [pm.list_edges_of_face(t, h, face, listed, LEVEL), contents.list_contents(t, h, listed, LEVEL)]


def spelled(after, r, v):
    return ' '.join(map(str, (r, v, *after))) + ' \n'


def main():
    p = argparse.ArgumentParser(description=__doc__, formatter_class=argparse.RawDescriptionHelpFormatter)
    p.add_argument('tables', type=int, nargs='?', default=1000)
    p.add_argument('--seed', type=int, default=1)
    args = p.parse_args()
    rng = random.Random(args.seed)
    some = (call(rng) for _ in itertools.count())
    calls = by_manual() + [(t, h, 0, len(listed)) for t, h, listed in by_hand()]
    calls += itertools.islice((c for c in some if fits(*c[:3])), args.tables)
    told = [answers(*c) for c in calls]
    met = Counter(outline[1] for _, outline in told)
    assert all(met[r] for r in (0, 1, 2, 20, 28)), met
    folder = ROOT / 'crates' / 'test_listings'
    (folder / 'stdin').write_text(''.join(record(*c) for c in calls))
    (folder / 'stdout').write_text(''.join(spelled(*a) for both in told for a in both))
    print(dict(sorted(met.items())))


if __name__ == '__main__':
    main()
