"""Two sheets joined: crates/joining against join.py."""

import random
from dataclasses import replace

import grown
import join as jn
import plotmap as pm

from repository import LEVEL

from . import antt, lent
from .scratch import Case, Claim

CRATES = ('joining',)
HEADER = """use Rattle.map.specs.Ticket.{Outcome}
use Rattle.joining.specs.Join.{joined_sheet}
"""
# what kinds 1, 8 and 12 can get on places and rows that exist
REFUSALS = (0, 1, 2, 5, 6, 7, 11, 12, 14, 15, 20, 21, 23, 24)


def call(first, second):
    t, h, r, v = jn.join(*first, *second, LEVEL)
    left = f'joined_sheet ({antt.sheet(*first)}) ({antt.sheet(*second)})'
    return Case('call', lent.said(lent.tables(*first), lent.tables(*second)),
                (Claim(left, antt.outcome(antt.sheet(t, h), r, v), 'Outcome'),), (('joined', r),))


def by_hand():
    """A square and its neighbour, which has a node inside the square's side, both ways round; a line with a straight
    point more, and one that goes on from its end and comes back; one curve that turns back, which kind 8 leaves out of
    form at the turn: then another ticket gets 2; a line that lies along another one, and one that touches it; a line of
    seven points to a sheet of six."""
    square = lent.played('1 -1 0 0', '12 1 1 0 0 10 0 10 10 0 10 0 0')
    beside = lent.played('1 -1 10 0', '1 -1 10 10', '12 1 2 10 0 10 10', '12 1 2 10 0 20 0 20 10 10 10')
    line = lent.played('1 -1 0 0', '1 -1 9 0', '4 1 2 0 0 9 0')
    longer = pm.with_curve(line, 1, ((0, 0), (4, 0), (9, 0)))
    beyond = pm.with_curve(line, 1, ((0, 0), (9, 0), (12, 3), (9, 0)))
    back = pm.with_curve(lent.played('1 -1 0 0', '1 -1 3 0', '4 1 2 0 0 3 0'), 1, ((0, 0), (9, 0), (3, 0)))
    turn, more = lent.played('1 -1 9 0'), lent.played('1 -1 9 0', '1 -1 20 20')
    halves = lent.played('1 -1 0 0', '1 -1 5 0', '1 -1 9 0', '4 1 2 0 0 5 0', '12 2 3 5 0 9 0')
    twice = replace(turn, nodes=(*turn.nodes, replace(turn.nodes[0], number=2)), next_node=3)
    along, touching = (lent.played('1 -1 1 5', '1 -1 8 5', f'4 1 2 1 5 {inner} 8 5') for inner in ('3 0 6 0', '4 0'))
    seven = lent.played('1 -1 20 20', '1 -1 26 56', f'4 1 2 {" ".join(f"{20 + i} {20 + i * i}" for i in range(7))}')
    six = replace(line, points=6)
    pairs = ((square, beside), (beside, square), (line, longer), (longer, longer), (pm.EMPTY_MAP, longer),
             (line, beyond), (beyond, line), (beyond, beyond), (back, turn), (back, more), (halves, line),
             (line, halves), (square, twice), (twice, square), (line, along), (touching, line), (six, seven),
             (seven, six))
    t, h = grown.exact(square, LEVEL)
    bad = ((t, replace(h, face_count=0)), (replace(t, faces=()), h), (t, h))       # the first is looked at first
    good = [(grown.exact(a, LEVEL, more=5), grown.exact(b, LEVEL)) for a, b in pairs]
    return good + [(a, b) for a in bad for b in bad]


def moved(m, dx, dy):
    """The sheet shifted, where it stays in range."""
    to = lambda p: (p[0] + dx, p[1] + dy)
    x = replace(m, nodes=tuple(replace(n, x=n.x + dx, y=n.y + dy) for n in m.nodes),
                edges=tuple(replace(e, points=tuple(map(to, e.points))) for e in m.edges))
    return x if pm.coordinates_ok(x) else m


def some(rng):
    """Two sheets grown from one, one sheet twice, a sheet and its neighbour; some of them distorted or spoiled."""
    w = rng.choice([5, 7, 9, 14])
    grid, mix = (0, 0, w), rng.choice(['even', 'faces', 'stitch'])
    more = lambda n, m=None: grown.grow(rng, n, LEVEL, m, grid, mix)
    base = more(rng.choice([0, 6, 12, 18]))
    a = more(rng.choice([0, 4, 8]), base)
    c = rng.random()
    if c < 0.1:
        b = a
    elif c < 0.4:
        b = moved(more(rng.choice([3, 6, 12])), rng.choice([0, 1, w - 1, w]), rng.choice([0, 0, 1, w - 1]))
    else:
        b = more(rng.choice([0, 3, 6, 9]), base)
    if rng.random() < 0.3:
        b = lent.straightened(rng, b) if rng.random() < 0.3 else lent.distorted(rng, b, grid)
    if rng.random() < 0.3:
        a = lent.distorted(rng, a, grid)
    if rng.random() < 0.08:
        a = replace(a, **{f'next_{x}': rng.choice([999_999, 1_000_000]) for x in ('node', 'edge', 'face')})
    free = rng.choice([0, 1, 3, 6, 6, 6])
    first, second = grown.exact(a, LEVEL, more=free), grown.exact(b, LEVEL, more=rng.choice([0, 1]))
    if rng.random() < 0.06:
        first = lent.spoiled(rng, *first)
    if rng.random() < 0.06:
        second = lent.spoiled(rng, *second)
    return first, second


def cases(count, seed):
    rng = random.Random(seed)
    return [call(*c) for c in by_hand()] + [call(*some(rng)) for _ in range(count)]
