"""Random tickets that build what plain random lists seldom reach: islands and wells inside big faces that are
then split, healed, redrawn and joined.

The sheet is n by n cells of 6 by 6; routes run on the cell borders, wells and islands lie inside cells.
Everything is then bent by one whole-number linear map, so that segments have all slopes.
"""

import meetings
import plotmap as pm
import surplus
import sweeps

CELL = 6


class World:
    def __init__(self, rng):
        self.n = rng.choice([2, 2, 3, 3, 4])
        while True:
            a, b, c, d = (rng.randint(-3, 3) for _ in range(4))
            if a * d != b * c:
                break
        size = CELL * self.n
        spots = [(u, v) for u in range(size + 1) for v in range(size + 1)]
        left = min(a * u + b * v for u, v in spots)
        low = min(c * u + d * v for u, v in spots)
        self.to = {(u, v): (a * u + b * v - left, c * u + d * v - low) for u, v in spots}
        self.back = {p: s for s, p in self.to.items()}

    def flat(self, spots):
        return [c for s in spots for c in self.to[s]]


def border(rng, w):
    return (CELL * rng.randint(0, w.n), CELL * rng.randint(0, w.n))


def inside(rng, w):
    return (CELL * rng.randrange(w.n) + rng.randint(1, CELL - 1), CELL * rng.randrange(w.n) + rng.randint(1, CELL - 1))


def on_border(s):
    return s[0] % CELL == 0 and s[1] % CELL == 0


def tidy(route):
    """Without repeated or straight inner points."""
    out = [route[0]]
    for p in route[1:]:
        if p != out[-1]:
            out.append(p)
    i = 1
    while i < len(out) - 1:
        if pm.straight_between(out[i], out[i - 1], out[i + 1]):
            del out[i]
        else:
            i += 1
    return out


def route(rng, w, p, q):
    """From border place p to q along borders."""
    if p == q:
        u, v = border(rng, w)
        r = [p, (u, p[1]), (u, v), (p[0], v), p]
        return tidy(r if rng.random() < 0.5 else r[::-1])
    u, v = border(rng, w)
    c = rng.random()
    if c < 0.35:
        r = [p, (p[0], q[1]), q] if rng.random() < 0.5 else [p, (q[0], p[1]), q]
    elif c < 0.7:
        r = [p, (u, p[1]), (u, q[1]), q] if rng.random() < 0.5 else [p, (p[0], v), (q[0], v), q]
    elif c < 0.85:
        r = [p, (u, p[1]), (u, v), (q[0], v), q]
    else:
        r = [p, q]
    return tidy(r)


def pick(rng, numbers):
    return rng.choice(numbers) if numbers else 0


def island_edge(rng, w, at, inner, new):
    """Between two nodes inside cells, of one cell if it finds such."""
    u = pick(rng, inner)
    cell = lambda s: (s[0] // CELL, s[1] // CELL)
    near = [v for v in inner if v != u and cell(at[v]) == cell(at[u])]
    v = pick(rng, near) or pick(rng, inner)
    return (rng.choice([4, 4, new]), u, v, *w.flat([at[u], at[v]]))


def island_loop(rng, w, at, inner, new):
    u = pick(rng, inner)
    x, y = (min(c // CELL, w.n - 1) * CELL for c in at[u])
    spots = [(x + rng.randint(1, CELL - 1), y + rng.randint(1, CELL - 1)) for _ in range(2)]
    return (new, u, u, *w.flat([at[u], *spots, at[u]]))


def cut(rng, m, w):
    """On a border of an edge, or anywhere along it."""
    e = rng.choice(m.edges)
    spots = [s for s in w.to if pm.on_curve(w.to[s], e.points) and (rng.random() < 0.3 or on_border(s))]
    s = rng.choice(spots or [border(rng, w)])
    return (rng.choice([7, 8]), e.number, *w.to[s])


def rerouted(rng, m, w, at):
    """An edge between two faces by another route on the borders that nothing of the base speaks against, if one is
    found: it passes over what lies in the cells between."""
    walls = [e for e in m.edges if e.left != e.right and on_border(at[e.start]) and on_border(at[e.end])]
    e = rng.choice(walls or m.edges)
    tickets = [(6, e.number, *w.flat(route(rng, w, at[e.start], at[e.end]))) for _ in range(12 if walls else 1)]
    return next((k for k in tickets if pm.curve_sent(k) != e.points and sweeps.right(m, k)), tickets[0])


def redrawn(rng, m, w, at):
    c = rng.random()
    if c < 0.3:
        return sweeps.ticket(rng, m, w.to.get, w.back.get)
    if c < 0.6:
        return rerouted(rng, m, w, at)
    e = rng.choice(m.edges)
    p, q = at[e.start], at[e.end]
    if on_border(p) and on_border(q):
        return (6, e.number, *w.flat(route(rng, w, p, q)))
    spots = [inside(rng, w) for _ in range(rng.choice([0, 1, 1, 2]))]
    return (6, e.number, *w.flat([p, *spots, q]))


def joined(rng, m, w, at, new):
    """Two nodes, or one left dangling."""
    u, v = rng.choice(m.nodes).number, rng.choice(m.nodes).number
    mid = [inside(rng, w)] if rng.random() < 0.3 else []
    return (new, u, v, *w.flat([at[u], *mid, at[v]]))


def healed(rng, m):
    e = rng.choice(m.edges)
    near = [f.number for f in m.edges if f.number != e.number and {f.start, f.end} & {e.start, e.end}]
    return (rng.choice([9, 10]), e.number, rng.choice(near or [e.number]))


def ticket(rng, m, w):
    return surplus.mixed(rng, plain_ticket(rng, m, w), m.points)


def plain_ticket(rng, m, w):
    if m.edges and rng.random() < 0.08:
        return meetings.ticket(rng, m)
    at = {n.number: w.back[(n.x, n.y)] for n in m.nodes}
    lattice = [n for n, s in at.items() if on_border(s)]
    inner = [n for n, s in at.items() if not on_border(s)]
    bare = [n.number for n in m.nodes if n.face != -1]
    c = rng.random() * (0.24 if len(m.nodes) < 4 else 1)
    new = rng.choice([11, 12])
    if c < 0.06:
        return (1, -1, *w.to[border(rng, w)])
    if c < 0.24:
        return (1, -1, *w.to[inside(rng, w)])
    if c < 0.27 and bare:
        return (2, pick(rng, bare), *w.to[inside(rng, w)])
    if c < 0.29:
        return (3, pick(rng, bare))
    if c < 0.37 and inner:
        return island_edge(rng, w, at, inner, new)
    if c < 0.43 and inner:
        return island_loop(rng, w, at, inner, new)
    if c < 0.62 and lattice:                  # a route on the borders
        u, v = pick(rng, lattice), pick(rng, lattice)
        return (new, u, v, *w.flat(route(rng, w, at[u], at[v])))
    if c < 0.72 and m.edges:
        return cut(rng, m, w)
    if c < 0.83 and m.edges:
        return redrawn(rng, m, w, at)
    if c < 0.88 and len(m.nodes) > 1:
        return joined(rng, m, w, at, new)
    if c < 0.93 and m.edges:
        return (rng.choice([13, 14]), rng.choice(m.edges).number)
    if c < 0.95 and m.edges:
        return (5, rng.choice([e.number for e in m.edges if e.left == e.right] or [1]))
    return healed(rng, m) if m.edges else (1, -1, *w.to[border(rng, w)])
