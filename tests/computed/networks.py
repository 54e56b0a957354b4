"""Networks of both editions: crates/network against networks.py."""

import random
from dataclasses import astuple, replace

import grown
import networks as nw

from repository import LEVEL

from . import antt, lent as sheets
from .lent import said
from .scratch import Case, Claim

CRATES = ('network',)
HEADER = """use Rattle.map.specs.declared.Answer.{Answer}
use Rattle.network.specs.Rows.{Lent}
use Rattle.network.specs.Operation.{Outcome, operation, created, from_map}
use Rattle.network.specs.Claims.{after}

abbrev answers : Lent → List (List ℤ) → List Answer
answers l [] = []
answers l (t ∷ ts) = let o = operation l t in o.answer ∷ answers o.lent ts
"""
REFUSALS = (0, 1, 2, 3, 4, 5, 6, 7, 8, 9, 13, 16, 18, 20, 21, 25, 26, 27)


def lent(t, h):
    names = ('nodes', 'links', 'next_node', 'next_link', 'year')
    return antt.record(nodes=antt.zs(t.nodes), links=antt.zs(t.links), head=antt.head(astuple(h), *names))


def outcome(t, h, r, v):
    return antt.outcome(lent(t, h), r, v)


# ---- lists of operations

def fresh(year, room):
    tables = nw.Tables((5,) * (4 * room.nodes), (5,) * (28 * room.links))
    return nw.make_empty(tables, nw.Head(7, -7, 7, 7, 7), year)[:2]


def listed(t, h, ops):
    """A list of operations: what it leaves, and the answers. An operation may be worked out from the network so far."""
    start, done, answers = (t, h), [], []
    for op in ops:
        done.append(op(nw.decode(t, h)) if callable(op) else op)
        t, h, *a = nw.run(t, h, done[-1])
        answers.append(a)
    args = f'({lent(*start)}) ({antt.runs(done)})'
    claims = (Claim(f'after {args}', lent(t, h), 'Lent'),
              Claim(f'answers {args}', antt.listed(antt.answer(*a) for a in answers), 'List Answer'))
    return Case('list', said(sheets.tables(*start), *done), claims,
                tuple((op[0] if op else 0, r) for op, (r, _) in zip(done, answers)))


def random_list(rng):
    """Now and then near the last number."""
    w, room = rng.choice([3, 5, 8, 12, 40, 2 ** 20]), nw.Sizes(rng.choice([3, 12, 20]), rng.choice([3, 12, 20]))
    t, h = fresh(rng.choice(nw.YEARS), room)
    if rng.random() < 0.15:
        h = replace(h, next_node=rng.randint(999_990, 999_999), next_link=rng.randint(999_985, 999_999))
    return listed(t, h, [lambda net: grown.net_op(rng, net, w)] * rng.choice([6, 15, 30]))


def by_hand():
    """What hardly happens at random: a point taken in 2004 where a curve is missing; loops added, removed and healed,
    with and without points; a curve that comes again through its start or runs back, cut there; both ends shared;
    heals to 12 and to 13 points; the joint point kept where the curve turns back."""
    zig = [c for i in range(13) for c in (i, i % 2)]
    line, bow = (4, 1, 2, 0, 0, 9, 0), (4, 1, 2, 0, 0, 4, 5, 9, 0)
    two, again = ((1, 0, 0), (1, 9, 0)), (4, 2, 3, 9, 0, 9, 5, 0, 0, 0, 9)
    lists = [
        ((1,), (1,), (1, 9, 9), (4, 1, 2), (9, 1, 9, 9), (10, 1, 9, 9), (10, 1, 3, 3)),
        ((1,), (4, 1, 1), (6, 1), (4, 1, 1, 0, 0, 5, 0), (12, 2, 1), (12, 1, 2)),
        (*two, (1, 0, 9), line, again, (12, 1, 2), (10, 1, 0, 9), (10, 1, 0, 0), (10, 1, 4, 0)),
        (*two, line, line, (12, 1, 2), (10, 1, 0, 0), (10, 1, 9, 0), (10, 1, 2, 0), (12, 1, 2), (11, 1, 3)),
        (*two, line, bow, (12, 1, 2), (11, 1, 1)), (*two, line, bow, (11, 2, 1)),
        (*two, line, (4, 2, 2, 9, 0, 12, 0, 12, 3, 9, 0), (12, 1, 2)), (*two, line, (4, 2, 2), (12, 2, 1), (3, 2)),
        (*two, (4, 2, 1, 9, 0, 0, 0), (4, 2, 2, 9, 0, 12, 0, 12, 3, 9, 0), (12, 1, 2)),
        ((1,), (1,), line, (4, 2, 2, 9, 0, 12, 3), (4, 2, 2, 12, 3, 9, 0), (12, 1, 3)),
        ((1,), (1,), line, (4, 2, 2, 9, 0, 12, 3), (4, 2, 2, 12, 3, 9, 0), (12, 1, 2), (12, 1, 3)),
        ((1,), (1,), (4, 1, 1, 0, 0, 5, 0), (4, 1, 2, 0, 0, 0, 7), (12, 1, 2)),
        ((1,), (1,), (4, 1, 1, 0, 0, 5, 0), (4, 1, 2, 5, 0, 0, 7), (11, 1, 2)),
        *(((1,), (1,), (1,), (4, 1, 2, *zig[:14]), (4, 2, 3, *zig[12:end]), (11, 1, 2), (12, 1, 2), (5, 2), (12, 1, 2))
          for end in (24, 26)),
        (*two, (1, 3, 0), line, (4, 2, 3, 9, 0, 3, 0), (12, 1, 2), (5, 1, 0, 0, 9, 0, 3, 0), (9, 1, 9, 0), (2, 1)),
    ]
    return [listed(*fresh(year, nw.Sizes(6, 6)), ops) for ops in lists for year in nw.YEARS]


# ---- whole calls on tables not grown

def drawn(rng, w):
    """In form for the most part: curves end on such nodes as have points, and go through these points again, along
    straight runs and back, in up to 12 points."""
    spot = lambda: (rng.randrange(w), rng.randrange(w))
    numbers = sorted(rng.sample(range(1, 9), rng.randint(3, 5)))
    at = {n: spot() if rng.random() < 0.7 else None for n in numbers}
    spots = [p for p in at.values() if p] + [spot() for _ in range(3)]

    def link(k):
        u, v = rng.choice(numbers), rng.choice(numbers)
        c, end = [at[u] or rng.choice(spots)], at[v] or rng.choice(spots)
        for _ in range(rng.choice([0, 1, 2, 4, 7, 10])):
            c.append(rng.choice([p for p in spots if p != c[-1]] or [end]))
        c = (*c[:-1], *c[-1:] * (c[-1] != end), end)
        return nw.Link(k, u, v, c if rng.random() < 0.85 and len(c) > 1 else ())
    links = tuple(link(k) for k in sorted(rng.sample(range(1, 9), rng.randint(1, 6))))
    return nw.Net(tuple(nw.Node(n, p) for n, p in at.items()), links, 9, 9, rng.choice(nw.YEARS))


def spoiled(rng, t, h):
    """One or two numbers of rows or head at will, now and then a length; most often the first numbers of a link."""
    nodes, links, head = list(t.nodes), list(t.links), list(astuple(h))
    for _ in range(rng.choice([1, 1, 2])):
        x = rng.choice([nodes, links, links, head])
        if x:
            i = rng.randrange(len(x))
            if x is links and rng.random() < 0.7:
                i -= i % 28 - rng.randrange(5)
            x[i] = rng.choice([-x[i], -x[i], x[i] + 1, x[i] - 1, 0, 1, 2, 13, 1_000_000, 1_000_001, 2 ** 63 - 1,
                               -2 ** 63, rng.choice(x)])
    if rng.random() < 0.1:
        rng.choice([nodes, links]).extend([0] * rng.choice([1, 3, 4, 27, 28]))
    return nw.Tables(tuple(nodes), tuple(links)), nw.Head(*head)


def of_tables(rng, bad):
    w = rng.choice([3, 5, 8, 30])
    net = drawn(rng, w) if rng.random() < 0.7 else grown.grow_net(rng, rng.randint(0, 30), rng.choice(nw.YEARS), w)
    if rng.random() < 0.1:
        net = replace(net, next_node=rng.choice([999_999, 1_000_000]), next_link=rng.randint(999_998, 1_000_000))
    more = rng.choice([0, 1, 1, 2])
    t, h = nw.encode(net, nw.Sizes(len(net.nodes) + more, len(net.links) + rng.choice([more, 1])))
    return net, w, *(spoiled(rng, t, h) if bad else (t, h))


def call(t, h, op):
    t2, h2, r, v = nw.run(t, h, op)
    claim = Claim(f'operation ({lent(t, h)}) ({antt.zs(op)})', outcome(t2, h2, r, v), 'Outcome')
    return Case('call', said(sheets.tables(t, h), op), (claim,), ((op[0] if op else 0, r),))


def called(rng):
    bad, kind = rng.random() < 0.3, rng.randint(1, 12)
    net, w, t, h = of_tables(rng, bad)
    for _ in range(60):                        # for the most part of that kind, and past 3 and 4
        op = grown.net_op(rng, net, w)
        if op[:1] == (kind,) and nw.refusal(t, h, op) not in (3, 4) or rng.random() < 0.002:
            break
    return call(t, h, op)


def at_limits():
    """A small network with each number of its first rows and head off in turn, and each operation at the last numbers
    and in tables with and without a free row."""
    net = nw.Net((nw.Node(1, (5, 6)), nw.Node(2, None), nw.Node(4, (0, 0)), nw.Node(5, (9, 0))),
                 (nw.Link(1, 4, 2, ((0, 0), (3, 4), (9, 0))), nw.Link(3, 2, 5, ((9, 0), (5, 0), (9, 0)))), 6, 4, 2005)
    t, h = nw.encode(net, nw.Sizes(5, 3))
    flat = t.nodes + t.links + astuple(h)
    off = [flat[:i] + (v,) + flat[i + 1:] for i in (*range(9), 18, *range(20, 32), 80, *range(104, 109))
           for v in (-flat[i], flat[i] + 1, 0, 1, 13, 1_048_576, 1_000_000, 1_000_001) if v != flat[i]]
    ops = ((1, 5, 5), (4, 1, 1), (7, 1), (8, 1), (9, 1, 3, 4), (10, 1, 3, 4), (11, 1, 3), (12, 1, 3))
    last = [replace(h, **{f'next_{row}': n}) for row in ('node', 'link') for n in (999_998, 999_999, 1_000_000)]
    return [call(nw.Tables(x[:20], x[20:104]), nw.Head(*x[104:]), (3, 4)) for x in off] + \
        [call(t, x, op) for x in last for op in ops] + \
        [call(*nw.encode(net, nw.Sizes(n, k)), op) for n in (4, 5) for k in (2, 3) for op in ops] + \
        [copied(t, x, *sheet, spatial) for t, x in used() for sheet in some_sheets() for spatial in (False, True)]


def heals():
    """Every way in which two links meet, loops too, with curves and without."""
    at = {1: (0, 0), 2: (9, 0), 3: (5, 5)}
    nodes = tuple(nw.Node(n, p) for n, p in at.items())
    ends = [(u, v) for u in at for v in at]
    curve = lambda u, v, mid: (at[u], mid, at[v])
    links = [(nw.Link(1, *e, curve(*e, (3, 3))), nw.Link(2, *f, curve(*f, (7, 1)) if drawn else ()))
             for e in ends[:2] for f in ends for drawn in (True, False)]
    nets = [nw.Net(nodes, two, 4, 3, 2005) for two in links]
    return [call(*nw.encode(net, nw.Sizes(3, 2)), (11 + i % 2, *two))
            for i, net in enumerate(nets) for two in ((1, 2), (2, 1))]


def used():
    """Networks without a row, of which some had one; the last two have too little room for some."""
    none = nw.Tables((0,) * 8, (0,) * 56)
    heads = [nw.Head(0, 0, n, k, 2004) for n, k in ((1, 1), (2, 1), (1, 2), (2, 2))]
    return [(none, x) for x in heads] + [(nw.Tables(none.nodes[:4 * n], none.links[:28 * k]), heads[0])
                                         for n, k in ((1, 2), (2, 1))]


def some_sheets():
    """Two nodes and two edges, and the same out of form, or not whole."""
    t, h = grown.exact(sheets.played('1 -1 0 0', '1 -1 9 0', '4 1 2 0 0 9 0', '12 1 2 0 0 5 5 9 0'), LEVEL)
    return (t, h), (t, replace(h, node_count=1)), (replace(t, faces=()), h)


def made(rng):
    """Created in any tables, under any year."""
    _, _, t, h = of_tables(rng, rng.random() < 0.5)
    year = rng.choice([2004, 2005, 2004, 2005, 2003, 2006, 0, -2004, 2 ** 63 - 1, -2 ** 63])
    t2, h2, r, v = nw.make_empty(t, h, year)
    claim = Claim(f'created ({lent(t, h)}) ({antt.z(year)})', outcome(t2, h2, r, v), 'Outcome')
    return Case('call', said('created', sheets.tables(t, h), year), (claim,), (('created', r),))


# ---- networks made from a map

def from_map(rng):
    m = grown.grow(rng, rng.choice([0, 8, 20, 30]), LEVEL)
    if rng.random() < 0.3:
        m = grown.distort(rng, m, (0, 0, 9))
    s, sh = grown.exact(m, LEVEL, more=rng.choice([0, 1]))
    if rng.random() < 0.15:
        s, sh = sheets.spoiled(rng, s, sh)
    less = rng.choice([0, 0, 0, 0, 1])
    room = nw.Sizes(max(0, len(m.nodes) + rng.choice([0, 2]) - less), max(0, len(m.edges) + rng.choice([0, 1]) - less))
    t, h = nw.encode(nw.empty_net(rng.choice(nw.YEARS)), room)
    c = rng.random()
    if c < 0.1:
        t, h = spoiled(rng, t, h)
    elif c < 0.2:                              # it had a row
        t, h = nw.run(*nw.run(t, h, (1,))[:2], (3, 1))[:2] if c < 0.15 else nw.run(t, h, (1, 3, 4))[:2]
    return copied(t, h, s, sh, rng.random() < 0.6)


def copied(t, h, s, sh, spatial):
    t2, h2, r, v = nw.make_from_map(t, h, s, sh, spatial, LEVEL)
    left = f'from_map {antt.truth(spatial)} ({antt.sheet(s, sh)}) ({lent(t, h)})'
    return Case('call', said('from map', spatial, sheets.tables(s, sh), sheets.tables(t, h)),
                (Claim(left, outcome(t2, h2, r, v), 'Outcome'),), (('from map', r),))


def cases(count, seed):
    rng, makers = random.Random(seed), (random_list, called, made, from_map)
    return by_hand() + at_limits() + heals() + [rng.choices(makers, (4, 10, 1, 3))[0](rng) for _ in range(count)]
