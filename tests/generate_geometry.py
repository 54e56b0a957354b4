#!/usr/bin/env python3
"""The stored cases of crates/test_geometry: writes its stdin and stdout, the answers worked out by the reference.

  generate_geometry.py [CASES] [--seed S]

Half of the cases lie on a small grid, where coincidences abound, a quarter at the corners of the coordinate range, the
rest anywhere. Some curves have points along their straight runs. Needs nothing that is built.
"""

import argparse
import random

from repository import ROOT     # finds the reference

import plotmap as pm
import surplus

TOP = 1048575
CELLS = 24


def coordinate(rng, field):
    if field == 'grid':
        return rng.randrange(5)
    if field == 'corner':
        return rng.choice([0, 1, 2, TOP - 2, TOP - 1, TOP])
    return rng.randint(0, TOP)


def curve(rng, field):
    points = [(coordinate(rng, field), coordinate(rng, field)) for _ in range(rng.randint(2, 6))]
    if len(points) > 3 and rng.random() < 0.3:
        points[-1] = points[0]
    return points


def case(rng):
    field = rng.choice(['grid', 'grid', 'corner', 'wide'])
    c, d = curve(rng, field), curve(rng, field)
    if rng.random() < 0.4:
        d[0] = c[-1]
    if rng.random() < 0.2:
        d[-1] = c[0]
    if rng.random() < 0.2:
        c = surplus.thickened(rng, c, 6 - len(c))
    p = rng.choice(c + d) if rng.random() < 0.5 else (coordinate(rng, field), coordinate(rng, field))
    return c, d, p


def line(c, d, p):
    pad = [(0, 0)] * 6
    numbers = [len(c), len(d), *p]
    for q in (c + pad)[:6] + (d + pad)[:6] + [(0, 0)]:
        numbers += q
    return ' '.join(f'{n:07d}' for n in numbers) + '\n'


def signed(z):
    return [1, -z - 1] if z < 0 else [0, z]


def digest(points):
    cells = [z for q in points for z in q][:CELLS]
    h = 0
    for z in cells + [0] * (CELLS - len(cells)):
        h = (h * 31 + z) % 1000003
    return [len(points), h]


def contact(s, t):
    if not pm.segments_meet(s, t):
        return 0
    return 3 if pm.segments_stretch(s, t) else 2 if pm.segments_cross(s, t) else 1


def meeting(c, d):
    """The gravest that segments do where they meet wrongly. The curves need not be simple: one that passes its own end
    inside a segment may cross the other there, and that point is an end of both."""
    ends, pairs = pm.common_ends(c, d), [(s, t) for s in pm.segments(c) for t in pm.segments(d)]
    return max((contact(s, t) for s, t in pairs if pm.segments_wrong(s, t, ends)), default=0)


def direction_class(v):
    return 8 if v == (0, 0) else pm.direction_class(v)


def higher(x, s, t):
    """s at x above t, ties to the greater slope, for ends in the order given."""
    (a, b), (c, d) = s, t
    (sx, sy), (tx, ty) = (b[0] - a[0], b[1] - a[1]), (d[0] - c[0], d[1] - c[1])
    above = (a[1] * sx + (x - a[0]) * sy) * tx - (c[1] * tx + (x - c[0]) * ty) * sx
    return above > 0 or above == 0 and pm.cross((tx, ty), (sx, sy)) > 0


def halves(c, p):
    return pm.cut(tuple(c), p) if pm.on_curve(p, c) else (c, [p])


def answers(c, d, p):
    s, t = (c[0], c[1]), (d[0], d[1])
    v, w = pm.heading(c), pm.heading(d)
    same = direction_class(v) == direction_class(w)
    turn = pm.area2(*s, t[0])
    out = signed(turn) + [pm.sign(turn) + 1, pm.segments_meet(s, t), contact(s, t), pm.on_segment(t[0], s)]
    out += [pm.straight_between(t[0], *s), pm.passes_below(p, s), direction_class(v)]
    out += [pm.cross(v, w) > 0 if same else direction_class(v) < direction_class(w)]
    out += [same and pm.cross(v, w) == 0, higher(p[0], s, t)]
    segments = pm.segments(c)
    places = [i for i, u in enumerate(segments) if pm.on_segment(p, u)]
    out += [not pm.equal_neighbours(c), pm.simple(c)]
    out += [places[0] if places else 99, meeting(c, d), *signed(sum(pm.cross(a, b) for a, b in segments))]
    out += [sum(pm.passes_below(p, u) for u in segments) % 2]
    front, back = halves(c, p)
    left = [q for i, q in enumerate(c) if not pm.surplus(c, i)]
    for points in (front, back, pm.joined_points(tuple(c), tuple(d)), left, c[::-1]):
        out += digest(points)
    return ' '.join(str(int(n)) for n in out) + ' 0 \n'


def main():
    p = argparse.ArgumentParser(description=__doc__, formatter_class=argparse.RawDescriptionHelpFormatter)
    p.add_argument('cases', type=int, nargs='?', default=3200)
    p.add_argument('--seed', type=int, default=1)
    args = p.parse_args()
    rng = random.Random(args.seed)
    cases = [case(rng) for _ in range(args.cases)]
    folder = ROOT / 'crates' / 'test_geometry'
    (folder / 'stdin').write_text(''.join(line(*c) for c in cases))
    (folder / 'stdout').write_text(''.join(answers(*c) for c in cases))


if __name__ == '__main__':
    main()
