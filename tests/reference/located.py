#!/usr/bin/env python3
"""Whether tables and drawing agree on every grown map once request (i) is in force, tried ticket by ticket.

  located.py LISTS [--seed S] [--size TICKETS] [--level L] [--jobs J] [--every]

After each carried-out ticket that can part them (all of them with --every), and at the end of each list:
  well     an isolated node's stored face is the face of its point
  lower    the face of the middle of a segment (which does not count itself) is the stored face below it, or right of
           an upright one
  beside   a point just left of the middle of each segment of each directed edge has the stored face
  corner   the corner face of a node, just right of straight down, is the face of the node's point
  winding  the rings that bear f wind once around points of f and not around others (f = 0: not around points of 0,
           minus once around others)
  area     a ring's doubled area is positive exactly when what lies just left of it is enclosed by it
  seated   the face around a piece, at its lowest leftmost vertex, is the face of that vertex
  nested   two pieces never wind around each other
  parent   the list of contents (viii) has each piece under the face around it in the drawing
  around   just left of a departure q the parity of a ring is that at the node, plus its departures up to q
           counterclockwise from straight down
And of every ticket:
  exact    a redrawing that only 22 turns down would part them, and one that is carried out does not
  one      22 by the ring of e alone is 22 by both rings
  bridge   with e and -e on one ring 22 never holds
  drawable a curve that only 12 turns down also gets 14 or 15 (kinds 4, 11, 12)
"""

import argparse
import collections
import multiprocessing
import random
from dataclasses import replace
from fractions import Fraction as F

import check
import contents
import fuzz
import islands
import plotmap as pm
from grown import BIG

GEOMETRY = (1, 2, 4, 5, 6, 11, 12, 13, 14)


def scaled(m, k):
    """The same map with all coordinates times k: a rational point (x/k, y/k) of m is the whole point (x, y) of it."""
    return replace(m, nodes=tuple(replace(n, x=k * n.x, y=k * n.y) for n in m.nodes),
                   edges=tuple(replace(e, points=tuple((k * x, k * y) for x, y in e.points)) for e in m.edges))


def lex(a, b):
    return a < b


def signed_below(p, s):
    """1 or -1 where the segment passes below p, running to greater x or back."""
    return (1 if s[0][0] < s[1][0] else -1) if pm.passes_below(p, s) else 0


def winding(m, ds, p):
    return sum(signed_below(p, s) for d in ds for s in pm.segments(pm.course(m, d)))


def left_winding(m2, ds, d, i):
    """Of the directed edges ds around what lies just left of segment i of d; m2 is doubled."""
    c = pm.course(m2, d)
    a, b = c[i], c[i + 1]
    mid = ((a[0] + b[0]) // 2, (a[1] + b[1]) // 2)
    w = winding(m2, ds, mid)
    return w + (d in ds) - (-d in ds) if lex(a, b) else w


def turn_from_down(v):
    """Counterclockwise from just after straight down; straight down comes last."""
    k = check.turn_key(v)
    return (0, k) if v[0] > 0 and v[1] < 0 else (2, ()) if v[0] == 0 and v[1] < 0 else (1, k)


def nodes_parted(m):
    for n in m.nodes:
        face = pm.face_of_point(m, (n.x, n.y))
        if n.face != -1:
            if n.face != face:
                yield 'well'
        elif pm.borne(m, from_down(m, n.number)[-1]) != face:
            yield 'corner'


def from_down(m, n):
    """The departures of a node, counterclockwise from just after straight down."""
    return sorted(pm.departures(m, n), key=lambda d: turn_from_down(pm.way(m, d)))


def segments_parted(m, m2, a, around):
    for d in a:
        for i, (p, q) in enumerate(pm.segments(pm.course(m2, d))):
            mid = ((p[0] + q[0]) // 2, (p[1] + q[1]) // 2)
            if pm.face_of_point(m2, mid) != (pm.borne(m, -d) if lex(p, q) else pm.borne(m, d)):
                yield 'lower'
            if around and check.point_face(m, beside(m, pm.course(m, d), i)) != a[d][3]:
                yield 'beside'


def ring_parted(m, m2, r, around):
    inner = left_winding(m2, r, r[0], 0)
    if (pm.ring_area2(m, r) > 0) != (inner == 1) or inner not in (0, 1):
        yield 'area'
    if len({left_winding(m2, r, d, i) for d in r for i in range(len(pm.course(m, d)) - 1)}) != 1:
        yield 'around'
    for n in m.nodes if around else ():
        w = winding(m, r, (n.x, n.y))
        for d in from_down(m, n.number):
            w += (d in r) - (-d in r)
            if left_winding(m2, r, d, 0) != w:
                yield 'around'


def points_parted(m, a, rng):
    """Some points, on no edge, of whole coordinates or not."""
    box = [c for e in m.edges for p in e.points for c in p] or [5]
    for _ in range(12):
        k = rng.choice([1, 2, 3, 7])
        mk = scaled(m, k)
        p = (rng.randint(0, k * max(box)), rng.randint(0, k * max(box)))
        if m.edges and rng.random() < 0.5:
            v = rng.choice(rng.choice(m.edges).points)
            p = (k * v[0] + rng.randint(-2, 2), k * v[1] + rng.randint(-2, 2))
        if pm.edge_through(mk, p):
            continue
        g = pm.face_of_point(mk, p)
        for f in m.faces:
            ds = [d for d in a if a[d][3] == f]
            if winding(mk, ds, p) != (g == f) - (f == 0):
                yield 'winding'


def parted(m, rng, around=True):
    m2, a, rs = scaled(m, 2), check.arcs(m), pm.rings(m)
    out = {*nodes_parted(m), *segments_parted(m, m2, a, around)}
    for r in rs:
        out.update(ring_parted(m, m2, r, around))
    return sorted(out | pieces_parted(m, m2, a, rs) | set(points_parted(m, a, rng)))


def pieces_parted(m, m2, a, rs):
    out, comp = set(), check.component(m)
    at = {n.number: (n.x, n.y) for n in m.nodes}
    low = {}                                   # piece -> its lowest leftmost vertex, the face around it there
    for q in set(comp.values()):
        spots = [at[n] for n in comp if comp[n] == q] + [x for e in m.edges if comp[e.start] == q for x in e.points]
        v = min(spots)
        tails = [(turn_from_down((c[i + 1][0] - x[0], c[i + 1][1] - x[1])), a[d][3])
                 for d in a if comp[a[d][0]] == q for c in [pm.course(m, d)] for i, x in enumerate(c[:-1]) if x == v]
        face = max(tails)[1] if tails else pm.node(m, q).face
        low[q] = (v, face)
        if face != pm.face_of_point(m, v):
            out.add('seated')
    winds = {(comp[a[r[0]][0]], q) for r in rs for q in low if q != comp[a[r[0]][0]] and winding(m, r, low[q][0])}
    if any((y, x) in winds for x, y in winds):
        out.add('nested')
    if any(not low[x][0] < low[y][0] for x, y in winds):
        out.add('nested')
    path = []
    for depth, kind, n in contents.contents(m) or ():
        path = path[:depth] + [n]
        if kind and path[-2] != low[n][1]:
            out.add('parent')
    return out


def beside(m, c, i):
    """A point just left of the middle of segment i of the course c, so near that nothing lies between."""
    (x, y), (u, v) = c[i], c[i + 1]
    mx, my, nx, ny = F(x + u, 2), F(y + v, 2), -(v - y), u - x
    t = F(1, 2)
    for e in m.edges:
        for s in check.segs(e.points):
            hit = check.shared((mx, my), (mx + nx, my + ny), *s)
            if hit is not None:
                for z in (hit if isinstance(hit[0], tuple) else (hit,)):
                    w = F(z[0] - mx, nx) if nx else F(z[1] - my, ny)
                    if w > 0:
                        t = min(t, w / 2)
    return (mx + t * nx, my + t * ny)


def changes(m, after, e, rings, own):
    marks = ([(n.x, n.y) for n in m.nodes if n.face != -1]
             + [pm.ring_mark(m, r) for r in pm.rings(m) if pm.leaves(m, r[0]) not in own])
    return any((pm.ring_area2(m, r) > 0) != (pm.ring_area2(after, r) > 0)
               or any(pm.encloses(m, r, p) != pm.encloses(after, r, p) for p in marks) for r in rings)


def redrawing_parted(m, k, r, level, rng):
    """What is wrong with the answer r, 0 or 22, to a redrawing; none where nothing is."""
    e, c = k[1], pm.curve_kept(k, level)
    after, own = pm.with_curve(m, e, c), pm.piece(m, pm.edge(m, e).start)
    left, right = pm.ring(m, e), pm.ring(m, -e)
    if changes(m, after, e, [left], own) != (r == 22) or changes(m, after, e, [right], own) != (r == 22):
        return ['one']
    if r == 22 and -e in left:
        return ['bridge']
    bad = [x for x in parted(after, rng, False) if x in ('well', 'lower', 'corner')]
    return ['exact'] + bad if bool(bad) != (r == 22) else []


def undrawable(m, k, level):
    """A curve that only 12 turns down."""
    return not [n for n, holds in pm.reasons(m, BIG, k, level) if n in (14, 15, 23, 24) and holds()]


def counts(m):
    return collections.Counter({
        'looks': 1, 'lists': 1, 'islands': len(set(check.component(m).values())) > 1, 'edges': len(m.edges),
        'wells': sum(n.face > 0 for n in m.nodes),
        'holes': sum(1 for r in pm.rings(m) if pm.borne(m, r[0]) != 0 and pm.ring_area2(m, r) <= 0)})


def ticket_of(rng, m, mix, world, w):
    return islands.ticket(rng, m, world) if world else fuzz.make_ticket(rng, m, (0, 0, w), fuzz.MIXES[mix])


def one_list(seed, size, level, every):
    rng = random.Random(seed)
    mix = rng.choice(['islands'] * 6 + ['abuse', 'abuse', 'redraw', 'redraw', 'faces', 'even', 'stitch'])
    world = islands.World(rng) if mix == 'islands' else None
    w = rng.choice([4, 5, 6, 8, 12, 30])
    thin = rng.choice([0, 0.7, 0.9])           # so many removals are left out, for fuller maps
    m, tally, tickets = fuzz.empty_map(rng, level), collections.Counter(), []
    for _ in range(size):
        k = ticket_of(rng, m, mix, world, w)
        if not pm.shape_ok(k) or k[0] in (3, 5, 13, 14) and rng.random() < thin:
            continue
        r, bad = pm.first_reason(pm.reasons(m, BIG, k, level)), []
        if r == 12 and k[0] in (4, 11, 12):
            tally['12'] += 1
            bad = ['drawable'] if undrawable(m, k, level) else []
        if k[0] == 6 and r in (0, 22):
            tally.update({'6': 1, '22': r == 22})
            bad = redrawing_parted(m, k, r, level, rng)
        if bad:
            return bad, tickets + [k], tally, mix
        if r:
            continue
        m = pm.apply(m, k, level)[0]
        tickets.append(k)
        if every or (k[0] in GEOMETRY and rng.random() < 0.15):
            bad = parted(m, rng)
            tally['looks'] += 1
            if bad:
                return bad, tickets, tally, mix
    return parted(m, rng), tickets, tally + counts(m), mix


def work(job):
    return (job[0], *one_list(*job))


def main():
    ap = argparse.ArgumentParser()
    ap.add_argument('lists', type=int)
    ap.add_argument('--seed', type=int, default=1)
    ap.add_argument('--size', type=int, default=70)
    ap.add_argument('--level', type=int, default=1)
    ap.add_argument('--jobs', type=int, default=1)
    ap.add_argument('--every', action='store_true')
    args = ap.parse_args()
    total, faults, done = collections.Counter(), 0, 0
    with multiprocessing.Pool(args.jobs) as pool:
        for seed, bad, tickets, tally, mix in pool.imap_unordered(
                work, [(args.seed + i, args.size, args.level, args.every) for i in range(args.lists)], chunksize=2):
            total.update(tally)
            done += 1
            if done % 100 == 0:
                print(done, 'lists, faults', faults, dict(total), flush=True)
            if bad:
                faults += 1
                if faults <= 5:
                    print('PARTED', seed, mix, bad, flush=True)
                    for k in tickets:
                        print('  ', *k)
    print('faults', faults, dict(total))
    return faults > 0


if __name__ == '__main__':
    import sys
    sys.exit(main())
