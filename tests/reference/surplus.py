"""Points along the straight runs of a curve, which request (v) drops, and what is nearly that: a point sent twice, or a
line that doubles back. Plain random curves hardly ever have such points."""

from math import gcd

import plotmap as pm

SHARE = 0.3     # of the tickets with a curve
CURVES = 4, 6, 11, 12


def thickened(rng, points, n):
    """Up to so many points more, each a whole place inside a segment."""
    points = list(points)
    for _ in range(n):
        steps = [gcd(b[0] - a[0], b[1] - a[1]) for a, b in zip(points, points[1:])]
        long = [i for i, g in enumerate(steps) if g > 1]
        if not long:
            break
        i = rng.choice(long)
        j, ((ax, ay), (bx, by)) = rng.randrange(1, steps[i]), points[i:i + 2]
        points.insert(i + 1, (ax + (bx - ax) // steps[i] * j, ay + (by - ay) // steps[i] * j))
    return points


def spoiled(rng, points):
    """Now and then a point twice, or two inner neighbours exchanged: on a straight run the line then doubles back."""
    c, i = rng.random(), rng.randrange(len(points))
    if c < 0.06:
        return points[:i] + points[i:i + 1] + points[i:]
    if c < 0.14 and 0 < i < len(points) - 2:
        return points[:i] + points[i:i + 2][::-1] + points[i + 2:]
    return points


def mixed(rng, ticket, most):
    """The ticket, or, some of the time where it has a curve, with surplus points: to the recorded number in all, or one
    or two over."""
    if not ticket or ticket[0] not in CURVES or not pm.shape_ok(ticket) or rng.random() > SHARE:
        return ticket
    points = pm.curve_sent(ticket)
    if len(points) < 2:
        return ticket
    n = rng.choice((1, 1, 2, 2, 3, 5, *(most + over - len(points) for over in (0, 1, 2))))
    course = spoiled(rng, thickened(rng, points, n))
    return (*ticket[:len(ticket) - 2 * len(points)], *(c for p in course for c in p))
