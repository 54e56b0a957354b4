"""Contents of a sheet: crates/nesting against contents.py."""

import random
from dataclasses import replace

import contents as ct
import grown
import plotmap as pm

from repository import LEVEL

from . import antt, lent
from .scratch import Case, Claim

CRATES = ('nesting',)
HEADER = """use Rattle.map.specs.Ticket.{Listed}
use Rattle.nesting.specs.Contents.{contents_of}
"""
REFUSALS = (0, 1, 2, 20, 28)


def call(t, h, out):
    after, r, v = ct.list_contents(t, h, out, LEVEL)
    claim = Claim(f'contents_of ({antt.sheet(t, h)}) ({antt.zs(out)})', antt.written(after, r, v), 'Listed')
    return Case('call', lent.said(lent.tables(t, h), len(out)), (claim,), (('contents', r),))


def by_hand():
    """A loop that bears 0 on both sides is listed once; one that bears 0 inside 1 leads to 0 again; no list at all."""
    loop = ('1 -1 0 0', '12 1 1 0 0 10 0 10 10 0 10 0 0')
    inner = lent.played(*loop, '1 -1 2 2', '12 2 2 2 2 4 2 4 4 2 2')
    flat = replace(pm.with_borne(lent.played(*loop), (1,), 0), faces=(0,))
    maps = (pm.EMPTY_MAP, flat, lent.played(*loop), inner, *(pm.with_borne(inner, (d,), 0) for d in (2, -2)))
    return [(*grown.exact(m, LEVEL), (77,) * n) for m in maps for n in (0, 20)]


def reborne(rng, m):
    """Some rings and lone nodes bear other faces, now and then a face more that nothing bears."""
    for r in pm.rings(m):
        if rng.random() < 0.2:
            m = pm.with_borne(m, r, rng.choice(m.faces))
    m = replace(m, nodes=tuple(replace(n, face=rng.choice(m.faces)) if n.face != -1 and rng.random() < 0.3 else n
                               for n in m.nodes))
    if rng.random() < 0.1:
        m = replace(m, faces=m.faces + (m.next_face,), next_face=m.next_face + 1)
    return m


def some(rng):
    m = grown.grow(rng, rng.choice([10, 30, 60]), LEVEL, mix=rng.choice(['islands'] * 3 + ['faces', 'even']))
    c = rng.random()
    if c < 0.25:
        m = reborne(rng, m)
    elif c < 0.4:
        m = grown.distort(rng, m, (0, 0, 9))
    if 0.15 < c < 0.35:
        m = lent.without_unborne(m)
    t, h = grown.exact(m, LEVEL, more=rng.choice([0, 1]))
    if rng.random() < 0.06:
        t, h = lent.spoiled(rng, t, h)
    lines = ct.contents(m) if pm.in_form(*grown.exact(m, LEVEL), LEVEL) else None
    wanted = 3 * len(lines if lines is not None else m.faces)
    return t, h, (77,) * max(0, wanted + rng.choice([0, 0, 1, 5, -1, -3]))


def cases(count, seed):
    rng = random.Random(seed)
    return [call(*c) for c in by_hand()] + [call(*some(rng)) for _ in range(count)]
