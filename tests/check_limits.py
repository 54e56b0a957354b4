#!/usr/bin/env python3
"""The static library held against the reference on maps at the limits, where positions are highest.

  check_limits.py [CALLS] [--seed S]

Needs crates/solgwid/out/libsolgwid.a (`rt lib` in crates/solgwid) and a C compiler. The library grows a map in tables
at the limits, for 6 and 12 points by turns: plots in a grid, drawn in random order, wells, ditches apart and tanks in
some maps, and plots divided until no face is left. A map of 1,000 nodes in one piece has 1,998 edges then, the most
that tickets can draw. Every call on it is compared whole; the reference takes some seconds for each, with an index for
its lookups. What is carried out stays, so that each call meets another map. Sides of plots are redrawn past what lies
beside them or short of it, and outer sides round the whole sheet, which turns it inside out. Boundaries lie along a
side of a plot, cross it or touch it. Some calls are on tables with one number of a rectangle off by one, or with
another record of points. Contents are held against a second way to work them out, since the reference would take
minutes: of these maps, and of 1,000 wells, 999 plots one in the other and as many side by side.
"""

import contextlib
import ctypes
import itertools
import random
import sys
from dataclasses import replace

from check_calls import WIDTHS, Lent, call_contents, cells, library, list_differs, slice_of, ticket_differs
from comparison import command, seeds

import fuzz_tables as ft
import plotmap as pm

SIDE, WIDE, HIGH = 10, 25, 40       # of a plot; nodes from left to right, from bottom to top
ROOM = pm.MAX_NODES, pm.MAX_EDGES, pm.MAX_FACES
CALLS_A_MAP = 20
NO_ROOM, CHANGES_SIDES, MEETS = 20, 22, (23, 15, 24)
# what lies in the left part of a plot, which no boundary across it reaches: a well, a ditch, a tank
WELL, DITCH, TANK = [(3, 5)], [(2, 4), (2, 6)], [(3, 5), (2, 6), (2, 4), (3, 5)]
# a boundary from the lower left corner of a plot along its upper side, across it, or with a point on it; then inward
MET, INWARD = ([(2, 10), (4, 10)], [(3, 13)], [(3, 10)]), (5, 8)
COUNTED = ('calls at the limits', 'maps', 'divisions', 'removals', 'redrawings', 'meetings', 'lists of edges',
           'contents', 'other rectangles', 'other records', 'carried out', 'turned down with 22', 'turned down with 23, 15 or 24')


@contextlib.contextmanager
def indexed():
    """The reference looks rows up by an index; its own search makes a call take a minute on such maps."""
    indexes, plain = {}, pm.find

    def find(rows, number):
        if id(rows) not in indexes:             # kept with its rows, so that no others get their id
            indexes[id(rows)] = rows, {row.number: row for row in reversed(rows)}
        return indexes[id(rows)][1].get(number)

    pm.find = find
    try:
        yield
    finally:
        pm.find = plain


def carry_out(lib, lent, ticket):
    """The refusal and the value."""
    value = ctypes.c_int64()
    numbers = slice_of(cells(ticket), len(ticket))
    return lib.solgwid_ticket(*lent.words(), *numbers, ctypes.byref(value)), value.value


class Sheet:
    """A map grown by the library: plots, what lies in some of them, and boundaries across plots."""

    def __init__(self, lib, rng, points):
        self.lib, self.rng = lib, rng
        self.lent = Lent([[0] * (n * w) for n, w in zip(ROOM, WIDTHS)], [0] * 7)
        lib.solgwid_empty_map(*self.lent.words(), ctypes.c_int64(points))
        corners = [(x, y) for x in range(WIDE) for y in range(HIGH)]
        corners = rng.sample(corners, len(corners) - rng.choice((0, 4, 40)))
        self.node = {c: self.put(1, -1, *at(c)) for c in corners}
        around = lambda x, y: ((x, y), (x + 1, y), (x + 1, y + 1), (x, y + 1))
        self.plots = [c for c in corners if all(d in self.node for d in around(*c))]
        self.sides = [(c, d) for c in corners for d in ((c[0] + 1, c[1]), (c[0], c[1] + 1)) if d in self.node]
        for side in rng.sample(self.sides, len(self.sides)):
            self.put(*self.drawn(*side))
        self.furnish()
        while carry_out(lib, self.lent, self.boundary())[0] != NO_ROOM:
            pass

    def put(self, *ticket):
        """The value of a ticket that is carried out."""
        refusal, value = carry_out(self.lib, self.lent, ticket)
        assert refusal == 0, (ticket, refusal)
        return value

    def furnish(self):
        """Wells, ditches and tanks, as many as nodes are left for."""
        self.furnished = []
        while self.lent.head[0] < pm.MAX_NODES:
            c, thing = self.rng.choice(self.plots), self.rng.choice((WELL, DITCH, TANK))
            if c in self.furnished or thing is DITCH and self.lent.head[0] + 2 > pm.MAX_NODES:
                continue
            self.furnished.append(c)
            points = [at(c, p) for p in thing]
            ends = {p: self.put(1, -1, *p) for p in dict.fromkeys((points[0], points[-1]))}
            if thing is not WELL:
                self.put(12, ends[points[0]], ends[points[-1]], *(v for p in points for v in p))

    def drawn(self, a, b):
        """The ticket that draws the edge between two corners."""
        return self.rng.choice((11, 12)), self.node[a], self.node[b], *at(a), *at(b)

    def boundary(self):
        """One that divides a plot across."""
        x, y = self.rng.choice(self.plots)
        return self.drawn(*self.rng.choice((((x, y), (x + 1, y + 1)), ((x + 1, y), (x, y + 1)))))

    def met(self):
        """A boundary that meets the upper side of a plot, from its lower left corner to its upper right one."""
        x, y = c = self.rng.choice(self.plots)
        kind, start, end, *_ = self.drawn(c, (x + 1, y + 1))
        points = [at(c, p) for p in ((0, 0), *self.rng.choice(MET), INWARD, (SIDE, SIDE))]
        return kind, start, end, *(v for p in points for v in p)

    def redrawn(self, t, h):
        """The left side of a plot past what lies in the plot or short of it, or a side at the bottom of the sheet round
        all of it; where that edge is gone, one that is missing."""
        x, y = c = self.rng.choice(self.furnished or self.plots)
        d, way = (x, y + 1), [at(c, (self.rng.choice((4, 4, 1, -4)), 5))]
        if self.rng.random() < (0.2 if self.furnished else 0.5):
            c, d = self.rng.choice([s for s in self.sides if s[0][1] == s[1][1] == 0])
            way = [(0, 0), (0, SIDE * (HIGH + 1)), (SIDE * (WIDE + 1), SIDE * (HIGH + 1)), (SIDE * (WIDE + 1), 0)]
        ends = self.node[c], self.node[d]
        e = next((r[0] for r in pm.rows(t.edges, pm.EDGE_WIDTH)[:h.edge_count] if r[1:3] == ends), h.next_edge)
        return 6, e, *(v for p in (at(c), *way, at(d)) for v in p)

    def now(self):
        tables, head = self.lent.now()
        return pm.Tables(*map(tuple, tables)), pm.Head(*head)


def at(corner, off=(0, 0)):
    """The place of a corner, or of what is so far off it."""
    return tuple(SIDE * (v + 1) + d for v, d in zip(corner, off))


def tree(t, h):
    """The lines of the contents, by pieces as sets that are joined; none where faces and pieces form no tree."""
    nodes, edges, faces = (pm.rows(x, w)[:n] for x, w, n in
                           zip((t.nodes, t.edges, t.faces), WIDTHS, (h.node_count, h.edge_count, h.face_count)))
    lead = {n[0]: n[0] for n in nodes}

    def lowest(n):
        while lead[n] != n:
            lead[n] = n = lead[lead[n]]
        return n

    for e in edges:
        a, b = sorted(map(lowest, e[1:3]))
        lead[b] = a
    pairs = {(lowest(e[1]), f) for e in edges for f in e[5:7]} | {(n[0], n[3]) for n in nodes if n[3] != -1}
    pieces = {lowest(n) for n in lead}
    under = {}
    for p, f in sorted(pairs):
        under.setdefault((1, p), []).append((0, f))
        under.setdefault((0, f), []).append((1, p))
    lines, left = [], [(0, (0, 0), None)]
    while left and len(lines) <= len(pieces) + len(faces):
        depth, one, led = left.pop()
        lines.append((depth, *one))
        left += [(depth + 1, x, one) for x in sorted(under.get(one, []), reverse=True) if x != led]
    whole = len(pairs) + 1 == len(pieces) + len(faces) == len(lines)
    return lines if whole else None


def contents_differ(lib, t, h, room):
    """Whether the contents differ from that, in a list with so many numbers more than they take, or less."""
    lines = tree(t, h)
    numbers = [v for line in lines or () for v in line]
    before = (77,) * max(0, len(numbers) + room)
    told = (28, 0) if lines is None else (20, 0) if room < 0 else (0, len(numbers))
    after = before if told[0] else (*numbers, *before[len(numbers):])
    return call_contents(lib, t, h, before) != (after, *told)


def other_rectangle(rng, t, h):
    """The tables with one number of a rectangle off by one, often in the last row."""
    at = WIDTHS[2] * rng.choice((h.face_count - 1, rng.randrange(h.face_count))) + rng.randrange(1, WIDTHS[2])
    return replace(t, faces=t.faces[:at] + (t.faces[at] + rng.choice((-1, 1)),) + t.faces[at + 1:])


def one_call(sheet):
    """What was compared and whether it differs: the edges of a face, the contents, another rectangle, another record, a
    removal, a redrawing, a boundary that meets a side or a division."""
    t, h = sheet.now()
    rng, draw = sheet.rng, sheet.rng.random()
    if draw < 0.05:
        differs, _ = ticket_differs(sheet.lib, other_rectangle(rng, t, h), h, sheet.boundary())
        return {'other rectangles': 1}, differs, 'another rectangle'
    if draw < 0.09:
        other = replace(h, points=rng.choice(ft.RECORDS))
        return {'other records': 1}, ticket_differs(sheet.lib, t, other, sheet.boundary())[0], other
    if draw < 0.17:
        face = rng.choice((0, t.faces[WIDTHS[2] * rng.randrange(h.face_count)]))
        return {'lists of edges': 1}, list_differs(sheet.lib, t, h, face, 4000)[0], ('edges of face', face)
    if draw < 0.22:
        room = rng.choice((0, 0, 3, -1, -len(t.faces)))
        return {'contents': 1}, contents_differ(sheet.lib, t, h, room), ('contents', room)
    if draw < 0.35:
        name, ticket = 'removals', (rng.choice((13, 14)), t.edges[32 * rng.randrange(h.edge_count)])
    elif draw < 0.6:
        name, ticket = 'redrawings', sheet.redrawn(t, h)
    elif draw < 0.75:
        name, ticket = 'meetings', sheet.met()
    else:
        name, ticket = 'divisions', rng.choice((sheet.boundary, lambda: sheet.drawn(*rng.choice(sheet.sides))))()
    differs, refusal = ticket_differs(sheet.lib, t, h, ticket)
    carry_out(sheet.lib, sheet.lent, ticket)
    seen = {name: 1, 'carried out': refusal == 0, 'turned down with 22': refusal == CHANGES_SIDES,
            'turned down with 23, 15 or 24': refusal in MEETS}
    return seen, differs, ticket


def plot(n, low, high):
    """The tickets that draw a square plot from its own node, the n-th."""
    return (1, -1, low, low), (12, n, n, low, low, high, low, high, high, low, high, low, low)


WELLS = [(1, -1, i, 0) for i in range(pm.MAX_NODES)]
NESTED = [k for i in range(1, pm.MAX_FACES) for k in plot(i, i, 4000 - i)] + [(1, -1, 2000, 2000)]
BESIDE = [k for i in range(1, pm.MAX_FACES) for k in plot(i, 10 * i, 10 * i + 9)] + [(1, -1, 0, 0)]


def extremes(lib):
    """Contents that are long, deep and wide, in lists that just hold them, longer and shorter; and with a face more
    that nothing bears, where there is a row for it."""
    for name, tickets in (('wells', WELLS), ('nested', NESTED), ('beside', BESIDE)):
        lent = Lent([[0] * (n * w) for n, w in zip(ROOM, WIDTHS)], [0] * 7)
        lib.solgwid_empty_map(*lent.words(), ctypes.c_int64(pm.MAX_POINTS))
        assert all(carry_out(lib, lent, k)[0] == 0 for k in tickets)
        tables, head = lent.now()
        sheets = [(pm.Tables(*map(tuple, tables)), pm.Head(*head))]
        if head[2] < pm.MAX_FACES:
            tables[2][WIDTHS[2] * head[2]] = head[5]
            head[2], head[5] = head[2] + 1, head[5] + 1
            sheets.append((pm.Tables(*map(tuple, tables)), pm.Head(*head)))
        for (t, h), room in itertools.product(sheets, (0, 1, -1)):
            yield ({'calls at the limits': 1, 'contents': 1},
                   [f'contents of {name}, {room}'] * contents_differ(lib, t, h, room))


def comparisons(lib, seed):
    yield from extremes(lib)
    for s in seeds(seed):
        sheet = Sheet(lib, random.Random(s), pm.POINT_RECORDS[s % 2])
        for i in range(CALLS_A_MAP):
            edges = sheet.lent.head[1]
            with indexed():
                compared, differs, call = one_call(sheet)
            yield ({'calls at the limits': 1, 'maps': i == 0, **compared},
                   [f'seed {s}, call {i}, {edges} edges: {call}'] * differs)


if __name__ == '__main__':
    sys.exit(command(__doc__, 'calls', 40, lambda seed: comparisons(library(), seed), COUNTED))
