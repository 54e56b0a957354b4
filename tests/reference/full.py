"""Curves of as many points as the head records (request (ix)) or one more, and edges that heal to so many. Plain random
curves of so many points are hardly ever simple."""

from dataclasses import replace

import plotmap as pm

ROOM = pm.Sizes(pm.MAX_NODES, pm.MAX_EDGES, pm.MAX_FACES)
TRIES = 40


def drawn(first, course):
    return (*first, *(c for p in course for c in p))


def right(m, first, course):
    """Nothing but the number of points speaks against it, and none of them is surplus."""
    anyhow = replace(m, points=len(course))
    return (not any(pm.surplus(course, i) for i in range(len(course)))
            and pm.first_reason(pm.reasons(anyhow, ROOM, drawn(first, course), 5)) == 0)


def beside(rng, a, b):
    """A point near the middle of a segment."""
    reach = max(1, (abs(b[0] - a[0]) + abs(b[1] - a[1])) // 4)
    return tuple((v + w) // 2 + rng.randint(-reach, reach) for v, w in zip(a, b))


def bent(rng, m, first, course, n):
    """The course with points put in until it has n; where that is not found, as many as were."""
    for _ in range(TRIES):
        if len(course) >= n:
            break
        i = rng.randrange(1, len(course))
        more = (*course[:i], beside(rng, *course[i - 1:i + 1]), *course[i:])
        course = more if right(m, first, more) else course
    return drawn(first, course)


def filled(rng, m, level):
    """Half of the edges redrawn with as many points as they may have, where that is found."""
    for e in rng.sample(m.edges, len(m.edges) // 2):
        k = bent(rng, m, (6, e.number), e.points, m.points)
        m = pm.apply(m, k, level)[0] if pm.first_reason(pm.reasons(m, ROOM, k, level)) == 0 else m
    return m


def pairs(m):
    """Edges that can be healed, and how many points they heal to."""
    numbers = [e.number for e in m.edges]
    return [(e, f, len(pm.healed_points(m, e, f))) for e in numbers for f in numbers if e != f and pm.joints(m, e, f)]


def started(rng, m):
    """A redrawing of an edge as it is, or a straight edge between two nodes."""
    if rng.random() < 0.5:
        e = rng.choice(m.edges)
        return (6, e.number), e.points
    u, v = rng.choice(m.nodes), rng.choice(m.nodes)
    kind = 4 if -1 not in (u.face, v.face) and rng.random() < 0.5 else rng.choice((11, 12))
    return (kind, u.number, v.number), ((u.x, u.y), (v.x, v.y))


def ticket(rng, m):
    """The map has an edge. Two edges healed to that number or to one more; one of two redrawn, so that they would heal
    to it; or a curve of that number, or of one more."""
    most, found = m.points + rng.choice((0, 1)), pairs(m)
    exact = [(e, f) for e, f, n in found if n == most]
    if exact and rng.random() < 0.7:
        return (rng.choice((9, 10)), *rng.choice(exact))
    if found and rng.random() < 0.7:
        e, f, n = rng.choice(found)
        course = pm.edge(m, e).points
        return bent(rng, m, (6, e), course, len(course) + most - n)
    return bent(rng, m, *started(rng, m), most)
