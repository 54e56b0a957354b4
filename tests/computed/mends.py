"""Links mended from the drawing: crates/mending against mend.py."""

import random
from dataclasses import replace

import grown
import mend as md
import plotmap as pm

from repository import LEVEL

from . import antt, lent
from .scratch import Case, Claim

CRATES = ('mending',)
HEADER = """use Rattle.mending.specs.Mend.{Mended, mend}
"""
REFUSALS = (0, 1, 2, 11, 20, 31)


def call(t, h, out):
    t2, h2, after, r, v = md.mend(t, h, out, LEVEL)
    right = antt.record(lent=antt.sheet(t2, h2), list=antt.zs(after), answer=antt.answer(r, v))
    claim = Claim(f'mend ({antt.sheet(t, h)}) ({antt.zs(out)})', right, 'Mended')
    return Case('call', lent.said(lent.tables(t, h), len(out)), (claim,), (('mended', r),))


def spoilt(rng, m):
    """Links at will: 0, unknown edges, the wrong sign, the least and greatest numbers of 64 bits."""
    numbers = [d for e in m.edges for d in (e.number, -e.number)] + [0, -7, m.next_edge, 2 ** 63 - 1, -2 ** 63]
    chance = rng.choice([0.1, 0.4, 1])
    link = lambda old: rng.choice([-old, rng.choice(numbers)]) if rng.random() < chance else old
    return replace(m, edges=tuple(replace(e, next_left=link(e.next_left), next_right=link(e.next_right))
                                  for e in m.edges))


def other_faces(rng, m):
    """Faces that exist, and now and then one that does not, on a side or about a node."""
    face = lambda old: rng.choice(m.faces + (m.next_face,) * (rng.random() < 0.3)) if rng.random() < 0.2 else old
    return replace(m, edges=tuple(replace(e, left=face(e.left), right=face(e.right)) for e in m.edges),
                   nodes=tuple(replace(n, face=face(n.face)) for n in m.nodes))


def twin(rng, m):
    """A curve that leaves as another departure of its node does."""
    pairs = [(d, q) for d in pm.directed_edges(m) for q in pm.departures(m, pm.leaves(m, d)) if q != d]
    if not pairs:
        return m
    d, q = rng.choice(pairs)
    c, v = pm.course(m, d), pm.way(m, q)
    c = (c[0], (c[0][0] + v[0], c[0][1] + v[1]), *c[1:])
    return pm.with_curve(m, abs(d), c if d > 0 else c[::-1]) if len(c) <= m.points and not pm.equal_neighbours(c) else m


def by_hand():
    """Rows that name a missing row, at the origin, where a missing node would stand; a loop whose ends leave alike."""
    m = lent.played('1 -1 0 0', '12 1 1 0 0 10 0 10 10 0 10 0 0', '1 -1 2 3', '12 1 2 0 0 2 3', '12 2 1 2 3 1 5 0 0',
                    '1 -1 8 1')
    maps = [replace(m, edges=pm.changed(m.edges, replace(e, **{side: 9})))
            for e in m.edges for side in ('start', 'end', 'left', 'right')]
    maps += [replace(m, nodes=pm.changed(m.nodes, replace(n, face=9))) for n in m.nodes]
    maps.append(pm.with_curve(m, 1, ((0, 0), (10, 0), (10, 10), (5, 0), (0, 0))))
    return [(*grown.exact(x, LEVEL), (77,) * 15) for x in (m, *maps)]


def some(rng):
    m = grown.grow(rng, rng.choice([12, 25, 40]), LEVEL)
    c = rng.random()
    if c < 0.25:
        m = grown.distort(rng, m, (0, 0, 9))
    elif c < 0.4:
        m = other_faces(rng, m)
    elif c < 0.5:
        m = twin(rng, m)
    if rng.random() < 0.75:
        m = spoilt(rng, m)
    t, h = grown.exact(m, LEVEL, more=rng.choice([0, 1]))
    if rng.random() < 0.06:
        t, h = lent.spoiled(rng, t, h)
    wanted = 5 * len(m.edges)
    try:
        wanted = len(md.changes(m))
    except (AttributeError, IndexError, ValueError):    # not in form
        pass
    return t, h, (77,) * max(0, wanted + rng.choice([0, 0, 1, 4, -1, -5]))


def cases(count, seed):
    rng = random.Random(seed)
    return [call(*c) for c in by_hand()] + [call(*some(rng)) for _ in range(count)]
