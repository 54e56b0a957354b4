"""Redrawings (kind 6) that request (i) is about: an edge led round a well or an island, or turned over. Plain random
curves seldom pass over an island, and at edges that are no loops seldom over anything."""

import plotmap as pm


def drawn(e, points=None):
    """The ticket that gives the edge these points, or its own."""
    return (6, e.number, *(c for p in points or e.points for c in p))


def right(m, ticket):
    """Nothing of the base speaks against it."""
    return pm.first_reason(pm.redraw_reasons(m, ticket, 0)) == 0


def paths(points):
    """One to three corners, in either order, of the box around the points, one wider."""
    (x, y), (z, w) = ([f(p[c] for p in points) for c in (0, 1)] for f in (min, max))
    box = [(x - 1, y - 1), (z + 1, y - 1), (z + 1, w + 1), (x - 1, w + 1)]
    return [tuple(ring[i:i + k]) for ring in (2 * box, 2 * box[::-1]) for i in range(4) for k in (1, 2, 3)]


def passes(p, old, new):
    """A curve passes over p as it becomes another."""
    below = lambda points: sum(pm.passes_below(p, s) for s in pm.segments(points))
    return (below(old) + below(new)) % 2 == 1


def led_round(rng, e, i, points, to, back):
    """Segment i of the edge led round the points, over the first of them, in some order."""
    a, b = e.points[i:i + 2]
    spots = [back(p) for p in points]
    if None in spots:       # a curve that was turned over may lie off the sheet
        return []
    ways = [(a, *map(to, path), b) for path in paths(spots)]
    ways = [w for w in ways if None not in w and passes(points[0], (a, b), w)]
    return [drawn(e, e.points[:i] + w + e.points[i + 2:]) for w in rng.sample(ways, len(ways))]


def near(rng, n, edges):
    """An edge and the place of one of its segments, of those nearest to the node."""
    far = lambda s: sum((s[0][c] + s[1][c] - 2 * v) ** 2 for c, v in ((0, n.x), (1, n.y)))
    found = [(far(s), e.number, i, e) for e in edges for i, s in enumerate(pm.segments(e.points))]
    _, _, i, e = rng.choice(sorted(found)[:3])
    return e, i


def bent(rng, m, to, back):
    """An edge near a well or an island, mostly one between two faces, led round all of that."""
    wells, ends = ([n for n in m.nodes if (n.face != -1) == lone] for lone in (True, False))
    some = [rng.choice(wells if wells and rng.random() < 0.4 else ends) for _ in range(3)]
    n, piece = min(((n, pm.piece(m, n.number)) for n in some), key=lambda x: len(x[1]))
    walls = [e for e in m.edges if e.left != e.right and e.start not in piece]
    e, i = near(rng, n, walls if walls and rng.random() < 0.8 else m.edges)
    more = [p for x in m.edges if x.start in piece for p in x.points] if e.start not in piece else []
    tickets = led_round(rng, e, i, [(n.x, n.y), *more], to, back)
    return next((k for k in tickets if right(m, k)), tickets[0] if tickets else turned_over(rng, m))


def turned_over(rng, m):
    """A loop the other way round; any other curve on the other side of the line between its ends."""
    loops = [e for e in m.edges if e.start == e.end]
    e = rng.choice(loops if loops and rng.random() < 0.4 else m.edges)
    (a, b), (c, d), back = e.points[0], e.points[-1], e.points[::-1]
    return drawn(e, back if e.start == e.end else [(a + c - x, b + d - y) for x, y in back])


def ticket(rng, m, to=lambda s: s, back=lambda p: p):
    """The map has an edge. `to` leads from a spot to its place, or to None; `back` from a place to its spot."""
    return turned_over(rng, m) if rng.random() < 0.15 else bent(rng, m, to, back)


def crossed(rng, m):
    """The map with an edge between two faces led round a node, often of its own piece, whatever it meets there, and the
    ticket that draws it as it was: it passes over that node. No tickets lead there. Else the map, and None."""
    pairs = [(e, n) for e in m.edges if e.left != e.right for n in m.nodes if n.number not in (e.start, e.end)]
    own = [(e, n) for e, n in pairs if n.number in pm.piece(m, e.start)]
    if not pairs:
        return m, None
    e, n = rng.choice(own if own and rng.random() < 0.7 else pairs)
    found = led_round(rng, e, rng.randrange(len(e.points) - 1), [(n.x, n.y)], lambda s: s, lambda p: p)
    curves = [c for c in map(pm.curve_sent, found) if len(c) <= m.points]
    return (pm.with_curve(m, e.number, curves[0]), drawn(e)) if curves else (m, None)
