"""Curves that request (iv) is about: they lie along edges, cross them or touch them, several at once. Plain random
curves cross an edge now and then, and hardly ever touch one or lie along it."""

from math import gcd

import plotmap as pm

ROOM = pm.Sizes(pm.MAX_NODES, pm.MAX_EDGES, pm.MAX_FACES)
TRIES = 24


def through(rng, p):
    """From one side of p to the other."""
    x, y = rng.choice([(i, j) for i in range(-3, 4) for j in range(-3, 4) if (i, j) != (0, 0)])
    return [(p[0] + x, p[1] + y), (p[0] - x, p[1] - y)]


def marked(s):
    """How many whole steps the segment has, and the place after so many of them."""
    (ax, ay), (bx, by) = s
    g = gcd(bx - ax, by - ay)
    return g, lambda i: (ax + (bx - ax) // g * i, ay + (by - ay) // g * i)


def along(rng, s):
    """On the segment's line: inside it, from end to end, or from one step before it to one behind."""
    g, at = marked(s)
    least = 1 if g > 2 and rng.random() < 0.6 else rng.choice((0, -1))
    return [at(i) for i in rng.sample(range(least, g + 1 - least), 2)]


def across(rng, s):
    (ax, ay), (bx, by) = s
    return through(rng, ((ax + bx) // 2, (ay + by) // 2))


def touching(rng, s):
    """A point of the curve on the segment, or an end of the segment inside the curve."""
    g, at = marked(s)
    return [at(rng.randint(0, g))] if rng.random() < 0.7 else through(rng, rng.choice(s))


def met(rng, edges, how):
    """Points that meet a segment of one of the edges, mostly a segment that ends at no node."""
    segments = pm.segments(rng.choice(edges).points)
    return how(rng, rng.choice(segments[1:-1] if len(segments) > 2 and rng.random() < 0.7 else segments))


def near(rng, some, far, most=4):
    """One of those that are least far."""
    return rng.choice(sorted(some, key=far)[:most])


def distance(p, q):
    return abs(p[0] - q[0]) + abs(p[1] - q[1])


def redrawn(rng, m, points):
    """Kind 6: a new course, or the old one with a part led off to the points."""
    e = near(rng, m.edges, lambda e: min(distance(p, points[0]) for p in e.points))
    i, j = 1, len(e.points) - 1
    if rng.random() < 0.6:
        i = j = rng.randint(1, j)
    return (6, e.number), (*e.points[:i], *points, *e.points[j:])


def drawn(rng, m, points):
    """Kinds 4, 11 and 12, from a node over the points to a node."""
    bare = [n for n in m.nodes if n.face != -1]
    iso = len(bare) > 1 and rng.random() < 0.3
    u, v = (near(rng, bare if iso else m.nodes, lambda n: distance((n.x, n.y), p)) for p in (points[0], points[-1]))
    return (4 if iso else rng.choice((11, 12)), u.number, v.number), ((u.x, u.y), *points, (v.x, v.y))


def curve(rng, m, how):
    """A ticket whose curve meets an edge so, and now and then others in other ways, before it or after."""
    parts = [met(rng, m.edges, how)]
    while rng.random() < 0.35:
        parts.insert(rng.randint(0, 1), met(rng, m.edges, rng.choice((along, across, touching))))
    points = [p for part in parts for p in part]
    first, course = (redrawn if rng.random() < 0.35 else drawn)(rng, m, points)
    return (*first, *(c for p in course for c in p))


def ticket(rng, m):
    """The map has an edge. Of some curves one that gets 23, 15 or 24, by turns, if there is such a one."""
    wanted, how = rng.choice(((23, along), (15, across), (24, touching)))
    for _ in range(TRIES):
        k = curve(rng, m, how)
        if pm.first_reason(pm.reasons(m, ROOM, k, 5)) == wanted:
            break
    return k
