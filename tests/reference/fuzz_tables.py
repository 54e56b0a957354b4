#!/usr/bin/env python3
"""Any tables, any ticket: spoiled tables must never make the reference fall over, a refusal changes nothing, and
in-form tables (lawful or not) keep a permutation of links.

  fuzz_tables.py TABLES SEED
"""

import collections
import random
import sys
from dataclasses import astuple

import plotmap as pm
import rectangles
import ticket as tk
import fuzz


# records of points: the two that are right, numbers beside them and far off
RECORDS = (6, 12, 0, 5, 7, 11, 13, -6, -12, 2 ** 63 - 1, -2 ** 63)


def spoil(rng, t, h, level):
    """One to three numbers or lengths at will. Half the time rectangles are set anew: an edge's curve or side that was
    spoiled is met alone then, and else by the rectangles too."""
    t = [list(x) for x in (t.nodes, t.edges, t.faces)]
    h = list(astuple(h))
    for _ in range(rng.randint(1, 3)):
        c = rng.random()
        if c < 0.25:
            h[rng.randrange(7 if level >= 9 else 6)] = rng.choice(
                [0, 1, -1, 2, 5, 999_999, 1_000_000, 1_000_001, 2 ** 63])
        elif c < 0.35:
            x = rng.choice(t)
            x.extend([0] * rng.choice([1, 4, 32, 5, 40_000])) if rng.random() < 0.7 else x.clear()
        else:
            x = rng.choice(t)
            if x:
                used = max(1, len(x) // 8)
                i = rng.randrange(used)
                x[i] = rng.choice([x[i] + 1, x[i] - 1, -x[i], 0, 13, -1, rng.choice(x)])
    t, h = pm.Tables(*map(tuple, t)), pm.Head(*h)
    return rectangles.set_anew(t, h, level) if rng.random() < 0.5 else t, h


def off_law(rng, m):
    """Same drawing, other links in form: the departures of one node shuffled, all faces 0."""
    order = {}
    for n in m.nodes:
        ds = pm.departures(m, n.number)
        to = ds[:]
        rng.shuffle(to)                       # any permutation, not only a cyclic order
        for a, b in zip(ds, to):
            order[-a] = b                     # after -a arrives, b leaves
    out = m
    for d, to in order.items():
        out = pm.lead(out, d, to)
    out = pm.replace(out, edges=tuple(pm.replace(e, left=0, right=0) for e in out.edges))
    for r in pm.rings(out):
        out = pm.with_borne(out, r, rng.choice(out.faces))
    return out


def main(n, seed):
    rng = random.Random(seed)
    tally, bad = collections.Counter(), 0
    for k in range(n):
        level = rng.choice([0, 1, 3, 4, 5, 9, 9])
        cap = (12, 20, 8)
        t, h = tk.blank(cap, level, points=fuzz.empty_map(rng, level).points)
        for _ in range(rng.randint(3, 25)):
            ticket = fuzz.make_ticket(rng, pm.decode(t, h, level), (0, 0, 6), fuzz.MIXES['faces'])
            t, h, r, v = pm.run(t, h, ticket, level)
        m = pm.decode(t, h, level)
        odd = rng.random() < 0.5
        if odd:
            if rng.random() < 0.7:
                m = off_law(rng, m)
            if rng.random() < 0.3:
                m = pm.replace(m, **{f'next_{w}': rng.choice([999_998, 999_999, 1_000_000])
                                     for w in ('node', 'edge', 'face')})
            t, h = pm.encode(m, pm.Sizes(*cap), level)
            assert pm.in_form(t, h, level)
        else:
            t, h = spoil(rng, t, h, level)
        for _ in range(6):
            ticket = fuzz.make_ticket(rng, m, (0, 0, 6), fuzz.MIXES['even'])
            t2, h2, r, v = pm.run(t, h, ticket, level)
            tally[odd, r] += 1
            if r:
                assert (t2, h2, v) == (t, h, 0)
            elif odd and not pm.links_ok(pm.decode(t2, h2, level)):
                bad += 1
                print('links', ticket, m)
            elif odd and not pm.in_form(t2, h2, level):
                tally['out of form after', ticket[0]] += 1
    print('tables', n, 'bad', bad)
    print(sorted(tally.items(), key=str))


if __name__ == "__main__":
    main(int(sys.argv[1]), int(sys.argv[2]))
