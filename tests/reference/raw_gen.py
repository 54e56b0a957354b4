#!/usr/bin/env python3
"""Calls for raw.py: grown maps, distorted (links off the law, faces at will, crossing curves, nodes on one point),
crossed (an edge led over a node, to be drawn back), spoiled, with other rectangles or another record of points, with
tickets and lists.

  raw_gen.py MAPS SEED [LEVEL]     up to six calls on each map
"""

import random
import sys
from dataclasses import replace

import fuzz
import fuzz_tables as ft
import islands
import meetings
import plotmap as pm
import rectangles
import sweeps

BIG = pm.Sizes(30, 40, 30)


def text(t, h, level):
    return ' '.join(str(x) for table in (t.nodes, t.edges, t.faces) for x in (len(table), *table)) \
        + ' ' + ' '.join(map(str, pm.head_numbers(h, level)))


def bend(rng, m, grid):
    """Any curves between the same ends."""
    def new(e):
        pts = [e.points[0]] + [fuzz.spot(rng, grid) for _ in range(rng.randint(0, 5))] + [e.points[-1]]
        return replace(e, points=tuple(pts)) if rng.random() < 0.3 else e
    return replace(m, edges=tuple(new(e) for e in m.edges))


def move(rng, m, grid):
    """Nodes anywhere, curves with them."""
    for n in m.nodes:
        if rng.random() < 0.25:
            x, y = fuzz.spot(rng, grid)
            m = replace(m, nodes=pm.changed(m.nodes, replace(n, x=x, y=y)), edges=tuple(
                replace(e, points=(((x, y),) if e.start == n.number else e.points[:1]) + e.points[1:-1]
                        + (((x, y),) if e.end == n.number else e.points[-1:])) for e in m.edges))
    return m


def grown(rng, grid, level):
    m, world = fuzz.empty_map(rng, level), islands.World(rng) if rng.random() < 0.3 else None
    for _ in range(rng.randint(2, 40)):
        k = islands.ticket(rng, m, world) if world else fuzz.make_ticket(
            rng, m, grid, fuzz.MIXES[rng.choice(['faces', 'even', 'stitch', 'abuse'])])
        if pm.shape_ok(k) and pm.first_reason(pm.reasons(m, BIG, k, level)) == 0:
            m = pm.apply(m, k, level)[0]
    return m


def redrawn(rng, m, grid, level):
    """Other curves and places, mostly in form."""
    for _ in range(8):
        x = m
        if rng.random() < 0.4:
            x = bend(rng, x, grid)
        if rng.random() < 0.3:
            x = move(rng, x, grid)
        if pm.in_form(*pm.encode(x, BIG, level), level):
            break
    return x


def distorted(rng, m, grid, level):
    """Redrawn, off the link law, near the last numbers, nodes in any face."""
    x = redrawn(rng, m, grid, level)
    if rng.random() < 0.5:
        x = ft.off_law(rng, x)
    if rng.random() < 0.15:
        x = replace(x, **{f'next_{a}': rng.choice([999_998, 999_999, 1_000_000]) for a in ('node', 'edge', 'face')})
    if rng.random() < 0.3:
        x = replace(x, nodes=tuple(n if n.face == -1 else replace(n, face=rng.choice(x.faces)) for n in x.nodes))
    return x


def ticket(rng, m, s, grid, level):
    """Carried out for the most part; some redrawings past a node or turned over, some curves that meet edges."""
    form = pm.in_form(*pm.encode(m, s, level), level)
    how = rng.random()
    if form and m.edges and how < 0.15:
        return sweeps.ticket(rng, m)
    if form and m.edges and how < 0.3:
        return meetings.ticket(rng, m)
    for _ in range(6):
        k = fuzz.make_ticket(rng, m, grid, fuzz.MIXES['even'])
        if form and pm.shape_ok(k) and pm.first_reason(pm.reasons(m, s, k, level)) == 0:
            break
    return k


def call(rng, m, grid, level):
    """One call on the map distorted; None where a spoiled number does not fit 64 bits."""
    x, back = sweeps.crossed(rng, m) if rng.random() < 0.15 else (distorted(rng, m, grid, level), None)
    s = pm.Sizes(*(len(r) + rng.randint(0, 2) for r in (x.nodes, x.edges, x.faces)))
    t, h = pm.encode(x, s, level)
    k = back or ticket(rng, x, s, grid, level)
    how = rng.random()
    if how < 0.1:
        t = rng.choice(rectangles.spoiled(t, h, level) or [t])
    elif how < 0.25:
        t, h = ft.spoil(rng, t, h, level)
        if any(abs(v) >= 2 ** 63 for v in (*t.nodes, *t.edges, *t.faces, *pm.head_numbers(h, level), *k)):
            return None
    elif how < 0.32:
        h = replace(h, points=rng.choice(ft.RECORDS))
    if rng.random() < 0.15:
        k = 'L', rng.choice(x.faces + (-1, x.next_face)), rng.randint(0, 3 * len(x.edges) + 2)
    else:
        k = 'T', *k
    return f'{text(t, h, level)} {" ".join(map(str, k))}'


def calls(count, seed, level=0):
    """Up to six calls on each of so many maps."""
    rng = random.Random(seed)
    for _ in range(count):
        grid = (0, 0, rng.choice([4, 6, 9, pm.MAX_COORDINATE + 1]))
        m = grown(rng, grid, level)
        yield from filter(None, [call(rng, m, grid, level) for _ in range(6)])


if __name__ == '__main__':
    for line in calls(*map(int, sys.argv[1:4])):
        print(line)
