"""Face rows with other rectangles than the edges give (request (iii)), and face tables that are not whole: for calls on
tables not grown. Below level 3 a face row has no rectangle, and there are none of them."""

from dataclasses import replace

import plotmap as pm

ZEROS = (0, 0, 0, 0)


def set_anew(t, h, level):
    """The tables with the rectangles that their edges give, so that whatever else was spoiled is met alone."""
    if level < 3 or not (pm.whole_tables(t, level) and pm.counts_fit(t, h, level)):
        return t
    m = pm.decode(t, h, level)
    used = tuple(v for f in m.faces for v in pm.encode_face(m, f, level))
    return replace(t, faces=used + t.faces[len(used):])


def around(points):
    """The box around points, if there are any."""
    return (*map(min, zip(*points)), *map(max, zip(*points))) if points else ZEROS


def slips(m, f):
    """What a wrong reading gives for a face: face 0 like any other; the ends of edges alone; left or right sides alone;
    outlines of the whole map."""
    borders = [e for e in m.edges if f in (e.left, e.right)]
    points = lambda edges: [p for e in edges for p in e.points]
    return [around(points(borders)), around([p for e in borders for p in (e.points[0], e.points[-1])]),
            around(points(e for e in m.edges if e.left == f)), around(points(e for e in m.edges if e.right == f)),
            around(points(m.edges))]


def near(r):
    """Each number off by one, both ways; least and greatest exchanged, in one coordinate and in both; x and y."""
    a, b, c, d = r
    by_one = [r[:i] + (r[i] + n,) + r[i + 1:] for i in range(4) for n in (-1, 1)]
    return by_one + [(c, b, a, d), (a, d, c, b), (c, d, a, b), (b, a, d, c)]


def others(m):
    """Other rectangles for the faces of a map, by the place of the row: a list of dictionaries."""
    right = [pm.rectangle(m, f) for f in m.faces]
    places = range(len(m.faces))
    out = [{k: r} for k in places for r in (*near(right[k]), *slips(m, m.faces[k]), ZEROS) if r != right[k]]
    return out + [{j: right[k], k: right[j]} for j in places for k in places if j < k and right[j] != right[k]]


def spoiled(t, h, level):
    """Tables in form with other rectangles, or with a face table that is not whole rows, empty, above the limit, or of
    one number a row: a list."""
    if level < 3:
        return []
    m, width = pm.decode(t, h, level), pm.face_width(level)
    rows = pm.rows(t.faces, width)
    changed = [tuple(v for k, row in enumerate(rows) for v in row[:1] + by.get(k, row[1:])) for by in others(m)]
    most = width * pm.MAX_FACES
    filled = lambda n: t.faces + (0,) * (n - len(t.faces))
    sizes = [(), t.faces[:-1], t.faces[:1], t.faces[:width - 1], *(filled(len(t.faces) + n) for n in range(1, width)),
             filled(most), filled(most + 1), filled(most + width), m.faces, tuple(row[0] for row in rows)]
    return [replace(t, faces=faces) for faces in changed + sizes]
