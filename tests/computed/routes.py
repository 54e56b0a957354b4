"""Shortest runs within a number of nodes: crates/paths against route.py.

Which of equal routes is left open, so that refusal, length, bound and the nodes examined are held, and not the links.
"""

import random
from dataclasses import replace

import grown
import networks as nw
import route as rt

from . import antt, lent, networks
from .scratch import Case, Claim

CRATES = ('paths',)
HEADER = """use Rattle.std.specs.Prelude.{nat_abs}
use Rattle.map.specs.Reasons.{first_reason}
use Rattle.network.specs.Rows.{Lent, network_of}
use Rattle.paths.specs.Walks.{Hop, hops}
use Rattle.paths.specs.Nearest.{Near}
use Rattle.paths.specs.Route.{examined, route_length, route_bound, route_reasons}

abbrev refusal : Lent → ℤ → ℤ → ℤ → ℕ → ℕ
refusal l start goal k room = first_reason (route_reasons l start goal k room)

abbrev route : Lent → ℤ → ℤ → ℤ → ℕ × ℕ
route l start goal k =
    let hs = hops (network_of l) in
    let es = examined l start k in
    (route_length hs es (nat_abs goal), route_bound hs es (nat_abs goal))
"""
REFUSALS = (0, 1, 2, 4, 20, 27, 32, 33)


def call(t, h, start, goal, k, room):
    out, r, _ = rt.find_route(t, h, start, goal, k, (77,) * room)
    net, ask = f'({networks.lent(t, h)})', ' '.join(f'({antt.z(n)})' for n in (start, goal, k))
    claims = [Claim(f'refusal {net} {ask} {room}', str(r), 'ℕ')]
    if r == 0:
        claims.append(Claim(f'route {net} {ask}', f'({out[0]}, {out[1]})', 'ℕ × ℕ'))
    if r not in (1, 2, 4, 27):
        near = rt.nearest(nw.decode(t, h), start, k)
        claims.append(Claim(f'examined {net} ({antt.z(start)}) ({antt.z(k)})',
                            antt.listed(antt.record(node=w.node, far=w.length) for w in near), 'List Near'))
    return Case('call', lent.said(lent.tables(t, h), start, goal, k, room), tuple(claims), (('route', r),))


def linked(rng):
    """Nodes on a small grid, so that many are equally far, and links between them, some by a way round."""
    n, w = rng.randint(1, 7), rng.choice([2, 3, 6])
    numbers = sorted(rng.sample(range(1, 2 * n + 1), n))
    at = {i: (rng.randrange(w), rng.randrange(w)) for i in numbers}

    def link(i):
        u, v = rng.choice(numbers), rng.choice(numbers)
        far = at[u] == at[v] or rng.random() < 0.2
        curve = (at[u], *([(rng.randrange(20, 25), rng.randrange(20, 25))] if far else []), at[v])
        return nw.Link(i, u, v, curve if rng.random() < drawn else ())
    drawn = rng.choice([1, 1, 1, 1, 0.8])
    links = tuple(link(3 * i + 1) for i in range(rng.randint(rng.choice([0, n]), 2 * n)))
    return nw.Net(tuple(nw.Node(i, p) for i, p in at.items()), links, 2 * n + 1, 6 * n + 1, rng.choice(nw.YEARS))


def grown_net(rng):
    m = grown.grow_net(rng, rng.randint(5, 40), rng.choice(nw.YEARS), rng.choice([3, 8, 30]))
    return replace(m, links=tuple(k for k in m.links if k.points)) if rng.random() < 0.5 else m


def some(rng):
    """One network, one pair of nodes, and every k, from below 0 to past all nodes; three of them where the network is
    spoiled or a link has no curve."""
    m = linked(rng) if rng.random() < 0.7 else grown_net(rng)
    t, h = nw.encode(m, nw.Sizes(len(m.nodes) + 1, len(m.links) + 1))
    spoiled = rng.random() < 0.15
    if spoiled:
        t, h = networks.spoiled(rng, t, h)
    pick = lambda: rng.choice(m.nodes).number if m.nodes and rng.random() < 0.95 else rng.choice([0, -1, m.next_node])
    start, goal = pick(), pick()
    ks = (-2 ** 63, -1, *range(len(m.nodes) + 2), 2 ** 63 - 1)
    for k in rng.sample(ks, 3) if spoiled or not all(k.points for k in m.links) else ks:
        near = len(rt.nearest(m, start, k)) if nw.node(m, start) else 0
        yield t, h, start, goal, k, max(0, near + 2 + rng.choice([0, 0, 0, 1, 5, -1, -2]))


def cases(count, seed):
    rng, calls = random.Random(seed), []
    while len(calls) < count:
        calls += [call(*c) for c in some(rng)]
    return calls[:count]
