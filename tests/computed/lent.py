"""Maps in lent tables that are not grown, and how they are printed."""

from dataclasses import astuple, replace

import fuzz_tables as ft
import grown
import plotmap as pm
import rectangles
import ticket as tk

from repository import LEVEL


def said(*parts):
    """Runs of numbers and single words in one line."""
    return ' | '.join(' '.join(map(str, p)) if isinstance(p, tuple) else str(p) for p in parts)


def tables(t, h):
    return said(*astuple(t), astuple(h))


def played(*lines):
    """The map that tickets, one a line, leave."""
    *_, (_, _, t, h) = tk.answers([l.encode() for l in lines], level=LEVEL)
    return pm.decode(t, h, LEVEL)


def spoiled(rng, t, h, most=400):
    """One to three numbers or lengths at will, or another rectangle; no table above so many numbers."""
    if rng.random() < 0.2:
        t = rng.choice(rectangles.spoiled(t, h, LEVEL))
    else:
        t, h = ft.spoil(rng, t, h, LEVEL)
    if rng.random() < 0.2:
        return pm.Tables(t.nodes[:most] + (0,), t.edges[:most], t.faces[:most]), h
    return pm.Tables(*(x[:most] for x in astuple(t))), h


def distorted(rng, m, grid):
    """In form, seldom grown; the map itself where no try succeeds."""
    tries = (grown.distort(rng, m, grid) for _ in range(6))
    return next((x for x in tries if x != m and pm.in_form(*grown.exact(x, LEVEL), LEVEL)), m)


def straightened(rng, m):
    """Curves with a straight point more, where there is room and a whole point between."""
    for e in m.edges:
        (a, b), (c, d) = e.points[:2]
        p = ((a + c) // 2, (b + d) // 2)
        if len(e.points) < m.points and pm.straight_between(p, (a, b), (c, d)) and rng.random() < 0.5:
            m = pm.with_curve(m, e.number, (e.points[0], p, *e.points[1:]))
    return m


def without_unborne(m):
    """Without the faces that nothing bears."""
    borne = {pm.borne(m, d) for d in pm.directed_edges(m)} | {n.face for n in m.nodes} | {0}
    return replace(m, faces=tuple(f for f in m.faces if f in borne))
