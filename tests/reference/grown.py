"""Random maps and networks for the tests of document 02."""

import fuzz
import islands
import networks as nw
import plotmap as pm
import raw_gen
import fuzz_tables as ft

BIG = pm.Sizes(80, 120, 80)


def grow(rng, size, level=5, m=None, grid=None, mix=None):
    """A map grown by random tickets, from m, or from the empty map under either record of points."""
    m = m or fuzz.empty_map(rng, level)
    mix = mix or rng.choice(list(fuzz.MIXES) + ['islands'] * 4)
    grid = grid or (0, 0, rng.choice([5, 7, 9, 14, 30, pm.MAX_COORDINATE + 1]))
    world = islands.World(rng) if mix == 'islands' else None
    for _ in range(size):
        k = islands.ticket(rng, m, world) if world else fuzz.make_ticket(rng, m, grid, fuzz.MIXES[mix])
        if pm.shape_ok(k) and pm.first_reason(pm.reasons(m, BIG, k, level)) == 0:
            m = pm.apply(m, k, level)[0]
    return m


def distort(rng, m, grid):
    """Often in form, seldom grown: other curves, places, links, faces."""
    x = m
    if rng.random() < 0.5:
        x = raw_gen.bend(rng, x, grid)
    if rng.random() < 0.4:
        x = raw_gen.move(rng, x, grid)
    if rng.random() < 0.5:
        x = ft.off_law(rng, x)
    if rng.random() < 0.4:
        x = pm.replace(x, nodes=tuple(n if n.face == -1 else pm.replace(n, face=rng.choice(x.faces)) for n in x.nodes))
    return x


def exact(m, level, more=0):
    return pm.encode(m, pm.Sizes(len(m.nodes) + more, len(m.edges) + more, len(m.faces) + more), level)


# Networks.

def some(rng, rows, following):
    return rng.choice(rows).number if rows and rng.random() < 0.97 else rng.randint(-2, following + 1)


def net_curve(rng, net, u, v, w):
    a, b = nw.node(net, u), nw.node(net, v)
    spot = lambda: (rng.randrange(w), rng.randrange(w))
    p = a.point if a and a.point and rng.random() < 0.95 else spot()
    q = b.point if b and b.point and rng.random() < 0.95 else spot()
    n = rng.choice([0, 0, 0, 1, 1, 2, 2, 3, 4, 9, 10, 11])
    mid = [spot() for _ in range(n)]
    if abs(q[0] - p[0]) > n and rng.random() < 0.7:  # x goes one way, so that long ones are simple
        mid = [(p[0] + (q[0] - p[0]) * (i + 1) // (n + 1), rng.randrange(w)) for i in range(n)]
    pts = [p] + mid + [q]
    if rng.random() < 0.15:                       # a straight run, to make surplus points
        pts = [p, (p[0] + 1, p[1]), (p[0] + 2, p[1]), q]
    if rng.random() < 0.02:
        pts = pts[:1]
    if rng.random() < 0.02:
        pts[rng.randrange(len(pts))] = rng.choice([(-1, 0), (0, pm.MAX_COORDINATE + 1), (2 ** 63 - 1, 0)])
    return [c for x in pts for c in x]


def neighbours(net, e):
    """Links that share a node with e."""
    r = nw.link(net, e)
    return [f.number for f in net.links if r and f.number != e and {f.start, f.end} & {r.start, r.end}]


def net_op(rng, net, w):
    """A random operation on a network."""
    if rng.random() < 0.02:
        return tuple(rng.randint(-1, 14) for _ in range(rng.randint(0, 6)))
    op = rng.choice([1, 1, 1, 2, 3, 4, 4, 4, 4, 5, 5, 6, 7, 8, 9, 9, 10, 10, 11, 11, 12, 12])
    if len(net.nodes) < 3:
        op = 1
    spot = lambda: [rng.randrange(w), rng.randrange(w)] if rng.random() < 0.98 else [rng.randrange(w), -1]
    lone = [n.number for n in net.nodes if nw.isolated(net, n.number)]
    a_node = lambda: rng.choice(lone) if lone and rng.random() < 0.5 else some(rng, net.nodes, net.next_node)
    a_link = lambda: some(rng, net.links, net.next_link)
    maybe = lambda x: x if rng.random() < 0.75 else []
    match op:
        case 1:
            return (1, *maybe(spot()))
        case 2:
            return (2, a_node(), *maybe(spot()))
        case 3:
            return (3, a_node())
        case 4:
            u = a_node()
            v = u if rng.random() < 0.15 else a_node()
            return (4, u, v, *maybe(net_curve(rng, net, u, v, w)))
        case 5:
            k = a_link()
            r = nw.link(net, k)
            u, v = (r.start, r.end) if r else (0, 0)
            return (5, k, *maybe(net_curve(rng, net, u, v, w)))
        case 6 | 7 | 8:
            return (op, a_link())
        case 9 | 10:
            k = a_link()
            r = nw.link(net, k)
            if r and r.points and rng.random() < 0.9:
                return (op, k, *fuzz.along(rng, r))
            return (op, k, *spot())
        case _:
            e = a_link()
            near = neighbours(net, e)
            return (op, e, rng.choice(near) if near and rng.random() < 0.9 else a_link())


def grow_net(rng, size, year, w, sizes=nw.Sizes(60, 90)):
    net = nw.empty_net(year)
    for _ in range(size):
        op = net_op(rng, net, w)
        if nw.shape_ok(op) and pm.first_reason(nw.reasons(net, sizes, op)) == 0:
            net = nw.apply(net, op)[0]
    return net
