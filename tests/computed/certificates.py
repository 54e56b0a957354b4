"""The tests that a map must pass so that tickets go on from it: crates/certified against check.py.

The reference has no call for them. Here they are read from the words of the definition, with the geometry of check.py,
which is by fractions and apart from plotmap.py's.
"""

import random
from dataclasses import replace
from itertools import combinations

import check
import fuzz
import fuzz_tables as ft
import grown
import plotmap as pm
import raw_gen

from repository import LEVEL

from . import antt, lent
from .scratch import Case, Claim

CRATES = ('certified',)
HEADER = """use Rattle.map.specs.Rows.{Lent, map_of}
use Rattle.map.specs.Links.{obeys_law}
use Rattle.certified.specs.Certified.{certifies, certified, curves_clear, places_differ, sum_holds, faces_reached}

abbrev parts : Lent → List Bool
parts l = let m = map_of l in obeys_law m ∷ curves_clear m ∷ places_differ m ∷ sum_holds m ∷ faces_reached m ∷ []
"""
PARTS = ('law', 'curves', 'places', 'sum', 'faces')
REFUSALS = (0, 'form', *PARTS)


# ---- the reading

def lawful(m):
    a = check.arcs(m)
    return all(x[2] == check.law_next(a, d) for d, x in a.items())


def sum_holds(m):
    """Nodes + faces = edges + pieces + 1."""
    return len(m.nodes) + len(m.faces) == len(m.edges) + len(set(check.component(m).values())) + 1


def faces_reached(m):
    """Every face is reached from face 0 across edges."""
    reached = {0}
    for _ in m.faces:
        reached |= {f for e in m.edges for f in (e.left, e.right) if {e.left, e.right} & reached}
    return set(m.faces) <= reached


def straight_inside(c):
    """An inner point lies straight between its neighbours."""
    return any(check.on(p, a, b) and p not in (a, b) for a, p, b in zip(c, c[1:], c[2:]))


def meet_wrongly(c, d):
    """They share a point that is not an end of both."""
    ends = {c[0], c[-1]} & {d[0], d[-1]}
    return any(x not in ends for x in check.curve_points(c, d))


def in_range(points):
    return all(0 <= c < 2 ** 20 for p in points for c in p)


def curves_clear(m):
    """Curves of 2 to 12 points in range are simple, have no straight inner point and share common ends only."""
    clear = lambda c: 2 <= len(c) <= 12 and in_range(c) and check.simple(c) and not straight_inside(c)
    return (all(clear(e.points) for e in m.edges)
            and not any(meet_wrongly(e.points, f.points) for e, f in combinations(m.edges, 2)))


def places(m):
    return [(n.x, n.y) for n in m.nodes]


def places_differ(m):
    """Nodes lie in range, and no two on one point."""
    return in_range(places(m)) and len(set(places(m))) == len(m.nodes)


def readable(t, h):
    """In form, or but for curve ends and the range of coordinates, so that each test can be read."""
    if not (pm.whole_tables(t, LEVEL) and pm.counts_fit(t, h, LEVEL) and pm.record_ok(h, LEVEL)
            and pm.edge_rows_shaped(t, h, LEVEL)):
        return False
    m = pm.decode(t, h, LEVEL)
    points = places(m) + [p for e in m.edges for p in e.points]
    return (pm.numbers_ok(m) and pm.named_rows_exist(m) and pm.named_edges_exist(m) and pm.links_ok(m)
            and not any(pm.equal_neighbours(e.points) for e in m.edges) and pm.departures_differ(m)
            and all(c >= 0 for p in points for c in p))


def call(t, h):
    sheet, formed = f'({antt.sheet(t, h)})', pm.whole_tables(t, LEVEL) and pm.in_form(t, h, LEVEL)
    tests = lawful, curves_clear, places_differ, sum_holds, faces_reached
    parts = [test(pm.decode(t, h, LEVEL)) for test in tests] if readable(t, h) else []
    good = antt.truth(formed and all(parts))
    claims = [Claim(f'certifies {sheet}', good, 'Bool')]
    if parts:
        claims.append(Claim(f'parts {sheet}', antt.listed(map(antt.truth, parts)), 'List Bool'))
    if formed:
        claims.append(Claim(f'certified (map_of {sheet})', good, 'Bool'))
    missed = [p for p, holds in zip(PARTS, parts) if not holds] + ['form'] * (not formed)
    return Case('call', lent.tables(t, h), tuple(claims), tuple(('certified', p) for p in missed or [0]))


# ---- maps that are not grown, each off in one way

def node_moved(rng, m, grid, to=None):
    """A lone node elsewhere, or a node with the ends of its edges."""
    if not m.nodes:
        return m
    n, p = rng.choice(m.nodes), to or fuzz.spot(rng, grid)
    first = lambda e: p if e.start == n.number else e.points[0]
    last = lambda e: p if e.end == n.number else e.points[-1]
    return replace(m, nodes=pm.changed(m.nodes, replace(n, x=p[0], y=p[1])),
                   edges=tuple(replace(e, points=(first(e), *e.points[1:-1], last(e))) for e in m.edges))


def beyond(rng, m):
    """A node and the ends of its edges past the last coordinate, so out of form."""
    return node_moved(rng, m, None, rng.choice([(2 ** 20, 5), (5, 2 ** 20), (2 ** 20 - 1, 2 ** 20 - 1)]))


def on_one_point(rng, m, grid):
    """A lone node more where another node is."""
    if not m.nodes:
        return m
    n = rng.choice(m.nodes)
    node = pm.Node(m.next_node, n.x, n.y, rng.choice(m.faces))
    return replace(m, nodes=m.nodes + (node,), next_node=m.next_node + 1)


def inside(rng, m, grid):
    """A lone node more inside an edge, which no list of tickets leaves; the tests take it."""
    inner = [p for e in m.edges for p in e.points[1:-1]]
    if not inner:
        return m
    node = pm.Node(m.next_node, *rng.choice(inner), rng.choice(m.faces))
    return replace(m, nodes=m.nodes + (node,), next_node=m.next_node + 1)


def redrawn(rng, m, grid):
    """One curve by way of other points: anywhere, or those of another curve."""
    if not m.edges:
        return m
    e, f = rng.choice(m.edges), rng.choice(m.edges)
    inner = f.points[1:-1] if rng.random() < 0.3 else [fuzz.spot(rng, grid) for _ in range(rng.randint(0, 3))]
    return pm.with_curve(m, e.number, (e.points[0], *inner, e.points[-1]))


def unborne(rng, m, grid):
    """A face that nothing bears, or one that a lone node alone bears."""
    f = m.next_face
    lone = [n for n in m.nodes if n.face != -1]
    if lone and rng.random() < 0.5:
        m = replace(m, nodes=pm.changed(m.nodes, replace(rng.choice(lone), face=f)))
    return replace(m, faces=m.faces + (f,), next_face=f + 1)


def reborne(rng, m, grid):
    """One ring bears another face; mostly a face that nothing bears then goes."""
    if not m.edges:
        return m
    m = pm.with_borne(m, rng.choice(pm.rings(m)), rng.choice(m.faces))
    return lent.without_unborne(m) if rng.random() < 0.7 else m


WAYS = (node_moved, on_one_point, inside, redrawn, redrawn, unborne, reborne, raw_gen.bend,
        lambda rng, m, grid: ft.off_law(rng, m), lambda rng, m, grid: lent.straightened(rng, m))


def some(rng):
    grid = (0, 0, rng.choice([5, 7, 9, 14, 30, pm.MAX_COORDINATE + 1]))
    m = grown.grow(rng, rng.choice([5, 15, 25, 40]), LEVEL, grid=grid)
    if rng.random() < 0.75:
        way = rng.choice(WAYS)
        tries = (way(rng, m, grid) for _ in range(8))
        m = next((x for x in tries if x != m and pm.in_form(*grown.exact(x, LEVEL), LEVEL)), m)
    elif rng.random() < 0.2:
        m = beyond(rng, m)
    if rng.random() < 0.1:
        m = replace(m, **{f'next_{row}': rng.choice([999_999, 1_000_000]) for row in ('node', 'edge', 'face')})
    t, h = grown.exact(m, LEVEL, more=rng.choice([0, 1]))
    return lent.spoiled(rng, t, h) if rng.random() < 0.06 else (t, h)


def cases(count, seed):
    rng = random.Random(seed)
    return [call(*some(rng)) for _ in range(count)]
