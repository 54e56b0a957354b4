#!/usr/bin/env python3
"""Grow maps by random tickets and check them after every carried-out ticket.

  fuzz.py LISTS [--seed S] [--size TICKETS] [--grid G] [--level L] [--mix NAME] [--jobs J]
          [--out DIR]   (write each ticket list to DIR/list-<seed>.txt, rows a table and record of points first)
          [--no-form]   (skip the in-form test of plotmap itself; check.py still looks)

Mixes: even, redraw (many kind 6), abuse (wells and loops redrawn), faces (many 11 to 14), stitch (many 7 to 10),
islands (see islands.py). In all of them some curves meet edges on purpose (see meetings.py), and some have points along
straight runs (see surplus.py); in all but islands some have as many points as the head records (see full.py).
"""

import argparse
import collections
import multiprocessing
import random
import sys
from dataclasses import replace
from math import gcd

import check
import full
import islands
import meetings
import plotmap as pm
import surplus
import sweeps
import ticket as tk

SWEEP = 'sweep'     # kind 6 past a well or a node, or turned over
MEET = 'meet'       # kinds 4, 6, 11 and 12 along, across or touching other edges
FULL = 'full'       # to the recorded number of points, or one more: kinds 4, 6, 11, 12, and heals
MIXES = {
    'even':   {1: 10, 2: 5, 3: 3, 4: 8, 5: 4, 6: 12, 7: 6, 8: 6, 9: 5, 10: 5, 11: 14, 12: 14,
               13: 4, 14: 4, 0: 2, MEET: 10, FULL: 8},
    'redraw': {1: 10, 2: 2, 3: 1, 4: 4, 5: 3, 6: 25, 7: 3, 8: 3, 9: 2, 10: 2, 11: 16, 12: 16,
               13: 6, 14: 6, 0: 0, SWEEP: 15, MEET: 10, FULL: 8},
    'abuse':  {1: 22, 2: 2, 3: 1, 4: 6, 5: 2, 6: 30, 7: 2, 8: 2, 9: 1, 10: 1, 11: 14, 12: 14,
               13: 2, 14: 2, 0: 0, MEET: 8, FULL: 4},
    'faces':  {1: 10, 2: 2, 3: 1, 4: 4, 5: 2, 6: 10, 7: 4, 8: 4, 9: 2, 10: 2, 11: 28, 12: 28,
               13: 7, 14: 7, 0: 1, MEET: 12, FULL: 6},
    'stitch': {1: 8, 2: 2, 3: 1, 4: 10, 5: 3, 6: 10, 7: 15, 8: 15, 9: 12, 10: 12, 11: 12, 12: 12,
               13: 3, 14: 3, 0: 1, MEET: 10, FULL: 20},
}


def empty_map(rng, level):
    """Under either record of points; below level 9 it is 12."""
    return replace(pm.EMPTY_MAP, points=rng.choice(pm.POINT_RECORDS)) if level >= 9 else pm.EMPTY_MAP


def some_node(rng, m):
    return rng.choice(m.nodes).number if m.nodes and rng.random() < 0.97 else rng.randint(-1, m.next_node + 1)


def some_edge(rng, m):
    return rng.choice(m.edges).number if m.edges and rng.random() < 0.97 else rng.randint(-2, m.next_edge + 1)


def spot(rng, grid):
    x0, y0, w = grid
    if rng.random() < 0.003:
        return rng.choice([(-1, 0), (pm.MAX_COORDINATE + 1, 0), (0, pm.MAX_COORDINATE), (0, 2 ** 63 - 1)])
    return (x0 + rng.randrange(w), y0 + rng.randrange(w))


def curve(rng, m, grid, u, v, old=None):
    a, b = pm.node(m, u), pm.node(m, v)
    p = (a.x, a.y) if a else spot(rng, grid)
    q = (b.x, b.y) if b else spot(rng, grid)
    if rng.random() < 0.01:
        q = spot(rng, grid)
    r = rng.random()
    if old is not None and r < (0.25 if u == v else 0.5):
        pts = list(old)                       # nudge the old course
        for _ in range(rng.randint(1, 2)):
            c = rng.random()
            if c < 0.4 and len(pts) > 2:
                pts[rng.randrange(1, len(pts) - 1)] = spot(rng, grid)
            elif c < 0.8:
                pts.insert(rng.randrange(1, len(pts)), spot(rng, grid))
            elif len(pts) > 2:
                pts.pop(rng.randrange(1, len(pts) - 1))
        return pts
    most = m.points                           # the curve has n points more than its ends: up to two over the record
    n = rng.choice([0, 0, 1, 1, 2, 3, 4, 5, most - 2, most - 1, most] if rng.random() < 0.3 else [0, 0, 0, 1, 1, 2])
    if u == v and n < 2:
        n = rng.choice([2, 2, 3])
    if u == v and rng.random() < 0.5 and n >= 2:     # a rectangle or triangle about the node
        x, y = spot(rng, grid)
        box = [(x, p[1]), (x, y), (p[0], y)]
        if rng.random() < 0.4:
            box.pop(rng.randrange(3))
        if rng.random() < 0.5:
            box.reverse()
        return [p] + box + [q]
    return [p] + [spot(rng, grid) for _ in range(n)] + [q]


def along(rng, e):
    """A whole point on the curve of a row, if it finds one."""
    (ax, ay), (bx, by) = rng.choice(pm.segments(e.points))
    g = gcd(abs(bx - ax), abs(by - ay)) or 1
    k = rng.randint(0, g)
    return (ax + (bx - ax) // g * k, ay + (by - ay) // g * k)


def on_isolated(rng, m, grid, kind):
    """Kinds 2 to 4, for the most part on isolated nodes."""
    bare = [n.number for n in m.nodes if n.face != -1] or [0]
    pick = lambda: rng.choice(bare) if rng.random() < 0.9 else some_node(rng, m)
    if kind == 2:
        return (2, pick(), *spot(rng, grid))
    if kind == 3:
        return (3, pick())
    u, v = pick(), pick()
    return (4, u, v, *(c for p in curve(rng, m, grid, u, v) for c in p))


def redrawn(rng, m, grid):
    """Kind 6, loops often."""
    e = some_edge(rng, m)
    loops = [f.number for f in m.edges if f.start == f.end]
    if loops and rng.random() < 0.4:
        e = rng.choice(loops)
    r = pm.edge(m, e)
    pts = curve(rng, m, grid, r.start, r.end, r.points) if r else [spot(rng, grid), spot(rng, grid)]
    return (6, e, *(c for p in pts for c in p))


def make_ticket(rng, m, grid, weights):
    return surplus.mixed(rng, plain_ticket(rng, m, grid, weights), m.points)


def plain_ticket(rng, m, grid, weights):
    kind = rng.choices(list(weights), list(weights.values()))[0]
    if len(m.nodes) < 3 and rng.random() < 0.6:
        kind = 1
    if kind == 0:
        return tuple(rng.randint(-2, 16) for _ in range(rng.randint(0, 7)))
    if kind == 1:
        f = -1 if rng.random() < 0.7 else rng.choice(m.faces + (m.next_face, -2))
        return (1, f, *spot(rng, grid))
    if kind in (2, 3, 4):
        return on_isolated(rng, m, grid, kind)
    if kind in (5, 13, 14):
        return (kind, some_edge(rng, m))
    if kind == SWEEP and m.edges:
        return sweeps.ticket(rng, m)
    if kind == MEET and m.edges:
        return meetings.ticket(rng, m)
    if kind == FULL and m.edges:
        return full.ticket(rng, m)
    if kind in (6, SWEEP, MEET, FULL):
        return redrawn(rng, m, grid)
    if kind in (7, 8):
        e = some_edge(rng, m)
        r = pm.edge(m, e)
        p = along(rng, r) if r and rng.random() < 0.9 else spot(rng, grid)
        return (kind, e, *p)
    if kind in (9, 10):
        e = some_edge(rng, m)
        r = pm.edge(m, e)
        near = [f.number for f in m.edges if r and f.number != e and {f.start, f.end} & {r.start, r.end}]
        f = rng.choice(near) if near and rng.random() < 0.9 else some_edge(rng, m)
        return (kind, e, f)
    u = some_node(rng, m)
    v = u if rng.random() < 0.25 else some_node(rng, m)
    return (kind, u, v, *(c for p in curve(rng, m, grid, u, v) for c in p))


def one_list(seed, size, grid, level, mix, cap, form=True, points=pm.MAX_POINTS):
    """Tickets, answers and the first fault found (or None)."""
    rng = random.Random(seed)
    t, h = tk.blank(cap, level, points=points)
    tickets, said = [], []
    world = islands.World(rng) if mix == 'islands' else None
    for _ in range(size):
        m = pm.decode(t, h, level)
        k = islands.ticket(rng, m, world) if world else make_ticket(rng, m, grid, MIXES[mix])
        tickets.append(k)
        if form:
            t, h, r, v = pm.run(t, h, k, level)
        else:
            r = 0 if pm.shape_ok(k) else 3
            r = r or pm.first_reason(pm.reasons(m, pm.sizes_of(t, level), k, level))
            v = 0
            if r == 0:
                after, v = pm.apply(m, k, level)
                t, h = pm.encode(after, pm.sizes_of(t, level), level)
        said.append((k[0] if k else None, r))
        if r == 2:
            return tickets, said, 'not in form'
        if r == 0 and k[0] != 3:
            bad = check.faults(pm.decode(t, h, level), drawn=level >= 1)
            if bad:
                return tickets, said, ' '.join(bad)
    if not pm.in_form(t, h, level):
        return tickets, said, 'not in form at the end'
    return tickets, said, None


def work(job):
    seed, args = job
    rng = random.Random(seed * 7919 + 1)
    w = args.grid or rng.choice([4, 5, 6, 8, 12, 30, 1000, pm.MAX_COORDINATE + 1])
    grid = (0, 0, w) if rng.random() < 0.8 else (pm.MAX_COORDINATE + 1 - w,) * 2 + (w,)
    cap = (40, 60, 40) if rng.random() < 0.85 else (rng.randint(1, 12), rng.randint(0, 14), rng.randint(1, 6))
    mix = args.mix or rng.choice([*MIXES, 'islands'])
    points = empty_map(rng, args.level).points
    tickets, said, fault = one_list(seed, args.size, grid, args.level, mix, cap, not args.no_form, points)
    if args.out:
        with open(f'{args.out}/list-{seed}.txt', 'w') as f:
            f.write(f'{cap[0]} {cap[1]} {cap[2]} {points}\n')
            f.writelines(' '.join(map(str, k)) + '\n' for k in tickets)
    return seed, mix, grid, said, fault, tickets


def main():
    ap = argparse.ArgumentParser()
    ap.add_argument('lists', type=int)
    ap.add_argument('--seed', type=int, default=1)
    ap.add_argument('--size', type=int, default=60)
    ap.add_argument('--grid', type=int, default=0)
    ap.add_argument('--level', type=int, default=0)
    ap.add_argument('--mix', default='')
    ap.add_argument('--jobs', type=int, default=2)
    ap.add_argument('--out', default='')
    ap.add_argument('--no-form', action='store_true')
    args = ap.parse_args()
    tally, faults = collections.Counter(), 0
    with multiprocessing.Pool(args.jobs) as pool:
        for seed, mix, grid, said, fault, tickets in pool.imap_unordered(
                work, [(args.seed + i, args) for i in range(args.lists)], chunksize=4):
            tally.update(said)
            if fault:
                faults += 1
                if faults <= 5:
                    print('FAULT', seed, mix, grid, fault)
                    for k in tickets:
                        print('  ', *k)
    print('lists', args.lists, 'faults', faults)
    for kind in range(1, 15):
        print(kind, {r: n for (k, r), n in sorted(tally.items(), key=lambda z: (z[0][0] is None, str(z[0])))
                     if k == kind})
    return faults > 0


if __name__ == '__main__':
    sys.exit(main())
