"""Request (vii): networks of both years."""

import random
import unittest
from dataclasses import astuple
from fractions import Fraction as F

import check
import grown
import networks as nw
import plotmap as pm
from test_sheet import LOOP, NODE

ROOM = nw.Sizes(20, 30)


def fresh(year=2005, room=ROOM):
    t = nw.Tables((0,) * (4 * room.nodes), (0,) * (28 * room.links))
    t, h, r, _ = nw.make_empty(t, nw.Head(7, 7, 7, 7, 7), year)
    assert r == 0
    return t, h


def said(*ops, year=2005, room=ROOM, at=None):
    """Answers and the network after the last operation."""
    t, h = at or fresh(year, room)
    out = []
    for op in ops:
        t, h, r, v = nw.run(t, h, op)
        out.append((r, v))
    return out, nw.decode(t, h)


def points(*flat):
    return tuple(zip(flat[0::2], flat[1::2]))


# A checker of the form apart from networks.py: on the bare numbers.

def form_faults(t, h):
    out = set()
    counts = {'n': (h.node_count, 4, t.nodes, h.next_node), 'k': (h.link_count, 28, t.links, h.next_link)}
    table = {}
    for name, (count, width, flat, following) in counts.items():
        if len(flat) % width or not 0 <= count * width <= len(flat):
            return ['count']
        table[name] = {}
        last = 0
        for i in range(0, len(flat), width):
            row = flat[i:i + width]
            if i >= count * width:
                if any(row):
                    out.add('rest')
                continue
            if not last < row[0] < following:
                out.add('number')
            last = row[0]
            table[name][row[0]] = row
        if not 0 < following <= 1_000_000:
            out.add('next')
    if h.year != 2004 and h.year != 2005:
        out.add('year')
    spot = {}
    for number, (_, has, x, y) in table['n'].items():
        if has not in (0, 1) or (has == 0 and (x or y)) or not (0 <= x < 2 ** 20 and 0 <= y < 2 ** 20):
            out.add('point')
        if has:
            spot[number] = (x, y)
    for row in table['k'].values():
        _, start, end, count, *flat = row
        if start not in table['n'] or end not in table['n']:
            out.add('named')
        if count not in (0, *range(2, 13)):
            out.add('points')
            continue
        used, unused = flat[:2 * count], flat[2 * count:]
        if any(unused) or any(not 0 <= c < 2 ** 20 for c in used):
            out.add('range')
        pts = points(*used)
        if any(p == q for p, q in zip(pts, pts[1:])):
            out.add('neighbours')
        if count and (spot.get(start, pts[0]) != pts[0] or spot.get(end, pts[-1]) != pts[-1]):
            out.add('ends')
    return sorted(out)


# A second wording of the answers, from the sentences of the request.

def along_first(pts, p):
    """(segment, fraction) of the first place strictly inside the curve's ends, by fractions."""
    found = []
    for i, (a, b) in enumerate(zip(pts, pts[1:])):
        if check.on(p, a, b):
            t = F(p[0] - a[0], b[0] - a[0]) if a[0] != b[0] else F(p[1] - a[1], b[1] - a[1])
            if 0 < i + t < len(pts) - 1:
                found.append((i + t))
    return min(found, default=None)


def expected(net, room, op):
    """Refusal by a flat list of sentences; written apart from networks.reasons."""
    ends = {}
    for k in net.links:
        for n in (k.start, k.end):
            ends[n] = ends.get(n, 0) + 1
    nodes = {n.number: n for n in net.nodes}
    links = {k.number: k for k in net.links}
    taken = lambda p, but=None: p in [n.point for n in net.nodes if n.number != but]
    old = net.year == 2004
    kind, *a = op
    holds = set()
    room_n, room_k, left_n, left_k = 0, 0, 0, 0
    if kind in (1, 2):
        p = tuple(a[kind - 1:]) or None
        if kind == 2 and a[0] not in nodes:
            return 4
        if p and not (0 <= p[0] < 2 ** 20 and 0 <= p[1] < 2 ** 20):
            holds.add(5)
        if kind == 2 and ends.get(a[0]):
            holds.add(9)
        if old and p and taken(p, a[0] if kind == 2 else None):
            holds.add(25)
        if kind == 1:
            room_n = left_n = 1
    elif kind == 3:
        if a[0] not in nodes:
            return 4
        holds |= {9} if ends.get(a[0]) else set()
    elif kind in (4, 5):
        if kind == 4:
            if a[0] not in nodes or a[1] not in nodes:
                return 4
            u, v, pts = a[0], a[1], points(*a[2:])
            if old and (ends.get(u) or ends.get(v)):
                holds.add(26)
            room_k = left_k = 1
        else:
            if a[0] not in links:
                return 4
            u, v, pts = links[a[0]].start, links[a[0]].end, points(*a[1:])
        if pts:
            if not 2 <= len(pts) <= 12 or any(not 0 <= c < 2 ** 20 for p in pts for c in p):
                return 5
            if any(p == q for p, q in zip(pts, pts[1:])):
                return 6
            if not simple(pts):
                return 7
            if nodes[u].point and nodes[u].point != pts[0] or nodes[v].point and nodes[v].point != pts[-1]:
                holds.add(8)
    elif kind == 6:
        if a[0] not in links:
            return 4
        k = links[a[0]]
        if old and (ends[k.start], ends[k.end]) != (1, 1):
            holds.add(26)
    elif kind in (7, 8, 9, 10):
        if a[0] not in links:
            return 4
        room_n = room_k = left_n = 1
        left_k = 2 if kind % 2 else 1
        if kind > 8:
            p, pts = (a[1], a[2]), links[a[0]].points
            if not (0 <= p[0] < 2 ** 20 and 0 <= p[1] < 2 ** 20):
                holds.add(5)
            if pts and along_first(pts, p) is None:
                holds.add(13)
            if old and taken(p):
                holds.add(25)
            if not pts:
                holds.add(27)
    else:
        if a[0] not in links or a[1] not in links:
            return 4
        e, f = links[a[0]], links[a[1]]
        if e is f or not {e.start, e.end} & {f.start, f.end}:
            return 16
        c = healed(net, e, f)[2]
        if len(c) > 12:
            holds.add(18)
        left_k = kind == 11
    if room_n + len(net.nodes) > room.nodes or (room_k and room_k + len(net.links) > room.links):
        holds.add(20)
    if left_n and net.next_node > 999_999 or left_k and net.next_link + left_k > 1_000_000:
        holds.add(21)
    order = [5, 6, 7, 8, 9, 13, 16, 18, 25, 26, 27, 20, 21]
    return next((n for n in order if n in holds), 0)


def simple(pts):
    """By fractions; surplus points do not matter."""
    s = list(zip(pts, pts[1:]))
    for j in range(len(s)):
        for i in range(j):
            x = check.shared(*s[i], *s[j])
            if x is None:
                continue
            if j == i + 1 and x == s[i][1]:
                continue
            if i == 0 and j == len(s) - 1 and pts[0] == pts[-1] and x == pts[0]:
                continue
            return False
    return True


def healed(net, e, f):
    """start, end, curve of the healed link."""
    if e.end in (f.start, f.end):
        turn = f.start != e.end
        other, tail = (f.start if turn else f.end), (f.points[::-1] if turn else f.points)
        start, end, one, two = e.start, other, e.points, tail
    else:
        turn = f.end != e.start
        other, front = (f.end if turn else f.start), (f.points[::-1] if turn else f.points)
        start, end, one, two = other, e.end, front, e.points
    if not one or not two or one[-1] != two[0]:
        return start, end, ()
    (ax, ay), (jx, jy), (bx, by) = one[-2], one[-1], two[1]
    straight = (jx - ax) * (by - jy) == (jy - ay) * (bx - jx) and (jx - ax) * (bx - jx) + (jy - ay) * (by - jy) > 0
    return start, end, one[:-1] + (() if straight else (one[-1],)) + two[1:]


class Networks(unittest.TestCase):
    def test_creation(self):
        t = nw.Tables((0,) * 8, (0,) * 56)
        for year, want in ((2004, 0), (2005, 0), (2003, 2), (0, 2), (-1, 2)):
            self.assertEqual(nw.make_empty(t, nw.Head(0, 0, 0, 0, 0), year)[2], want)
        self.assertEqual(nw.make_empty(nw.Tables((0,) * 7, ()), nw.Head(0, 0, 0, 0, 0), 1999)[2], 1)
        self.assertEqual(nw.make_empty(nw.Tables((0,) * 4004, ()), nw.Head(0, 0, 0, 0, 0), 2004)[2], 1)
        t, h, r, v = nw.make_empty(nw.Tables((), ()), nw.Head(9, 9, 9, 9, 9), 2004)
        self.assertEqual((t, astuple(h), r, v), (nw.Tables((), ()), (0, 0, 1, 1, 2004), 0, 0))

    def test_rows(self):
        t, h = fresh()
        for op in ((1,), (1, 3, 4), (4, 1, 2, 0, 4, 3, 4), (4, 2, 2)):
            t, h, r, v = nw.run(t, h, op)
            self.assertEqual(r, 0)
        self.assertEqual(t.nodes[:12], (1, 0, 0, 0, 2, 1, 3, 4, 0, 0, 0, 0))
        self.assertEqual(t.links[:28], (1, 1, 2, 2, 0, 4, 3, 4) + (0,) * 20)
        self.assertEqual(t.links[28:56], (2, 2, 2) + (0,) * 25)
        self.assertEqual(astuple(h), (2, 2, 3, 3, 2005))

    def test_nodes(self):
        self.assertEqual(said((1, 5, 5), (1, 5, 5), (2, 1, 5, 5), (2, 2), (2, 2, 9, 9), (3, 1), (3, 1), (1, -1, 0),
                              (1, 1))[0],
                         [(0, 1), (0, 2), (0, 0), (0, 0), (0, 0), (0, 0), (4, 0), (5, 0), (3, 0)])
        self.assertEqual(said((1, 5, 5), (1, 5, 5), (1,), (1,), (2, 3, 5, 5), (2, 1, 5, 5), (2, 2, 5, 5), year=2004)[0],
                         [(0, 1), (25, 0), (0, 2), (0, 3), (25, 0), (0, 0), (25, 0)])
        self.assertEqual(said((1,), (1,), (4, 1, 2), (2, 1, 0, 0), (3, 2), (2, 1, 0, -1), (6, 1), (3, 2))[0][3:],
                         [(9, 0), (9, 0), (5, 0), (0, 0), (0, 0)])

    def test_links(self):
        base = ((1, 0, 0), (1,), (1, 9, 0))
        self.assertEqual(said(*base, (4, 1, 2, 0, 0, 5, 5), (4, 1, 2, 0, 1, 5, 5), (4, 2, 3, 7, 7, 9, 0),
                              (4, 3, 2, 7, 7, 9, 0), (4, 1, 4), (4, 1, 2, 0), (4, 1, 2, 0, 0), (4, 1, 2, 0, 0, 0, 0),
                              (4, 1, 2, 0, 0, 5, 0, 3, 0))[0][3:],
                         [(0, 1), (8, 0), (0, 2), (8, 0), (4, 0), (3, 0), (5, 0), (6, 0), (7, 0)])
        s, net = said(*base, (4, 1, 3, 0, 0, 3, 0, 6, 0, 9, 0), (5, 1, 0, 0, 4, 4, 9, 0), (5, 1, 9, 0, 0, 0), (5, 1),
                      (5, 1, 0, 0, 4, 4, 9, 1))
        self.assertEqual(s[3:], [(0, 1), (0, 0), (8, 0), (0, 0), (8, 0)])
        self.assertEqual(net.links, (nw.Link(1, 1, 3, ()),))
        self.assertEqual(said(*base, (4, 1, 3, 0, 0, 3, 0, 6, 0, 9, 0))[1].links[0].points, ((0, 0), (9, 0)))

    def test_2004_links(self):
        s, _ = said((1,), (1,), (1,), (4, 1, 2), (4, 2, 3), (4, 3, 3), (6, 2), (7, 1), (6, 3), (6, 4), (12, 3, 4),
                    (6, 3), year=2004)
        self.assertEqual(s[3:], [(0, 1), (26, 0), (0, 2), (26, 0), (0, 4), (26, 0), (26, 0), (0, 0), (0, 0)])
        s, _ = said((1,), (1,), (1,), (4, 1, 2), (4, 2, 3), (4, 3, 3), (6, 2), (6, 3))
        self.assertEqual(s[3:], [(0, 1), (0, 2), (0, 3), (0, 0), (0, 0)])

    def test_splits(self):
        base = ((1, 0, 0), (1, 9, 0), (4, 1, 2, 0, 0, 9, 0))
        s, net = said(*base, (9, 1, 4, 0))
        self.assertEqual(s[-1], (0, 3))
        self.assertEqual(net.links, (nw.Link(2, 1, 3, ((0, 0), (4, 0))), nw.Link(3, 3, 2, ((4, 0), (9, 0)))))
        self.assertEqual(net.nodes[-1], nw.Node(3, (4, 0)))
        s, net = said(*base, (10, 1, 4, 0))
        self.assertEqual([k.number for k in net.links], [1, 2])
        s, net = said(*base, (7, 1), (8, 2))
        links = (nw.Link(2, 1, 4, ()), nw.Link(3, 3, 2, ()), nw.Link(4, 4, 3, ()))
        self.assertEqual((s[-2:], net.links), ([(0, 3), (0, 4)], links))
        self.assertEqual(net.nodes[2:], (nw.Node(3, None), nw.Node(4, None)))
        self.assertEqual(said(*base, (10, 1, 0, 0), (10, 1, 9, 0), (10, 1, 4, 1), (10, 1, -1, 0), (8, 1),
                              (10, 1, 0, 0), (10, 1, 4, 4))[0][3:],
                         [(13, 0), (13, 0), (13, 0), (5, 0), (0, 3), (27, 0), (27, 0)])
        self.assertEqual(said(*base, (10, 1, 0, 0), (1, 4, 0), (10, 1, 4, 0), (8, 1), (10, 1, 0, 0), (10, 1, 3, 0),
                              year=2004)[0][3:],
                         [(13, 0), (0, 3), (25, 0), (0, 4), (25, 0), (27, 0)])

    def test_cut_inside_the_ends(self):
        """A healed curve that comes through its own start again is cut there."""
        base = ((1, 0, 0), (1, 9, 0), (1, 0, 9), (4, 1, 2, 0, 0, 9, 0), (4, 2, 3, 9, 0, 9, 5, 0, 0, 0, 9))
        s, net = said(*base, (12, 1, 2), (10, 1, 0, 0))
        self.assertEqual(s[-2:], [(0, 0), (0, 4)])
        self.assertEqual([k.points for k in net.links], [points(0, 0, 9, 0, 9, 5, 0, 0), points(0, 0, 0, 9)])
        self.assertEqual([(k.start, k.end) for k in net.links], [(1, 4), (4, 3)])

    def test_heals(self):
        base = ((1, 0, 0), (1, 5, 0), (1, 9, 0), (4, 1, 2, 0, 0, 5, 0), (4, 3, 2, 9, 0, 5, 0))
        s, net = said(*base, (11, 1, 2))
        self.assertEqual((s[-1], net.links), ((0, 3), (nw.Link(3, 1, 3, points(0, 0, 9, 0)),)))
        self.assertEqual([n.number for n in net.nodes], [1, 3])
        s, net = said(*base, (12, 2, 1))
        self.assertEqual((s[-1], net.links), ((0, 0), (nw.Link(2, 3, 1, points(9, 0, 0, 0)),)))
        s, net = said(*base, (4, 2, 2), (12, 1, 2))       # the joint stays: a third link ends there
        links = (nw.Link(1, 1, 3, points(0, 0, 9, 0)), nw.Link(3, 2, 2, ()))
        self.assertEqual(([n.number for n in net.nodes], net.links), ([1, 2, 3], links))
        self.assertEqual(said(*base, (11, 1, 1), (11, 1, 3), (1,), (4, 4, 4), (11, 1, 3))[0][5:],
                         [(16, 0), (4, 0), (0, 4), (0, 3), (16, 0)])

    def test_heals_both_ends_shared(self):
        base = ((1, 0, 0), (1, 5, 0), (4, 1, 2, 0, 0, 5, 0), (4, 1, 2, 0, 0, 3, 3, 5, 0))
        s, net = said(*base, (12, 1, 2))
        self.assertEqual(net.links, (nw.Link(1, 1, 1, points(0, 0, 5, 0, 3, 3, 0, 0)),))
        self.assertEqual([n.number for n in net.nodes], [1])
        s, net = said(*base, (11, 2, 1))
        self.assertEqual(net.links, (nw.Link(3, 1, 1, points(0, 0, 3, 3, 5, 0, 0, 0)),))
        base = ((1, 0, 0), (1, 5, 0), (4, 1, 2, 0, 0, 5, 0), (4, 1, 2, 0, 0, 5, 0), (12, 1, 2), (10, 1, 5, 0),
                (10, 1, 0, 0), (10, 1, 2, 0))
        s, net = said(*base)
        self.assertEqual(s[4:], [(0, 0), (0, 3), (13, 0), (0, 4)])

    def test_heals_with_loops(self):
        base = ((1, 0, 0), (1, 9, 0), (4, 1, 2, 0, 0, 9, 0), (4, 2, 2, 9, 0, 12, 0, 12, 3, 9, 0))
        s, net = said(*base, (12, 1, 2))                  # second a loop at the first's end
        self.assertEqual(net.links, (nw.Link(1, 1, 2, points(0, 0, 12, 0, 12, 3, 9, 0)),))
        self.assertEqual([n.number for n in net.nodes], [1, 2])
        s, net = said(*base, (12, 2, 1))                  # first a loop
        self.assertEqual(net.links, (nw.Link(2, 2, 1, points(9, 0, 12, 0, 12, 3, 9, 0, 0, 0)),))
        base = ((1, 0, 0), (1, 9, 0), (4, 2, 1, 9, 0, 0, 0), (4, 2, 2, 9, 0, 12, 0, 12, 3, 9, 0))
        s, net = said(*base, (12, 1, 2))                  # second a loop at the first's start
        self.assertEqual(net.links, (nw.Link(1, 2, 1, points(9, 0, 12, 0, 12, 3, 9, 0, 0, 0)),))
        base = ((1,), (1,), (4, 1, 2, 0, 0, 9, 0), (4, 2, 2, 9, 0, 12, 3), (4, 2, 2, 12, 3, 9, 0))
        s, net = said(*base, (12, 1, 3))                  # (12,3) is not (9,0): no curve, direction kept
        self.assertEqual(net.links[0], nw.Link(1, 1, 2, ()))
        s, net = said(*base, (12, 1, 2))
        self.assertEqual(net.links[0], nw.Link(1, 1, 2, points(0, 0, 9, 0, 12, 3)))
        s, net = said(*base, (12, 2, 3))                  # two loops at one node, which stays
        self.assertEqual(net.links[1], nw.Link(2, 2, 2, points(9, 0, 12, 3, 9, 0)))

    def test_eighteen(self):
        zig = [(i, i % 2) for i in range(13)]
        flat = lambda c: [v for p in c for v in p]
        s, _ = said((1,), (1,), (1,), (4, 1, 2, *flat(zig[:7])), (4, 2, 3, *flat(zig[6:13])), (11, 1, 2), (12, 1, 2),
                    (5, 2), (12, 1, 2))
        self.assertEqual(s[5:], [(18, 0), (18, 0), (0, 0), (0, 0)])
        s, net = said((1,), (1,), (1,), (4, 1, 2, *flat(zig[:7])), (4, 2, 3, *flat(zig[6:12])), (12, 1, 2))
        self.assertEqual((s[-1], len(net.links[0].points)), ((0, 0), 12))

    def test_room_and_numbers(self):
        base = ((1,), (1,), (4, 1, 2))
        self.assertEqual(said(*base, (1,), (4, 1, 1), (7, 1), (8, 1), room=nw.Sizes(2, 1))[0][3:], [(20, 0)] * 4)
        t, h = fresh()
        for op in base:
            t, h, *_ = nw.run(t, h, op)
        at = lambda n, k: (t, nw.replace(h, next_node=n, next_link=k))
        for n, k, op, want in ((1_000_000, 9, (1,), 21), (999_999, 9, (1,), 0), (9, 1_000_000, (4, 1, 1), 21),
                               (9, 999_999, (7, 1), 21),
                               (9, 999_999, (8, 1), 0), (1_000_000, 9, (8, 1), 21), (9, 999_998, (7, 1), 0)):
            self.assertEqual(said(op, at=at(n, k))[0][0][0], want)

    def test_from_a_map(self):
        from ticket import blank, answers
        lines = [NODE, LOOP, '1 -1 5 5', '8 1 10 10', '3 2']
        t, h = blank((9, 9, 9), 7)
        for _, _, t, h in answers([x.encode() for x in lines], (9, 9, 9), 7):
            pass
        net_t, net_h = fresh(2004)
        after_t, after_h, r, v = nw.make_from_map(net_t, net_h, t, h, True)
        net = nw.decode(after_t, after_h)
        self.assertEqual((r, v), (0, 0))
        self.assertEqual(net, nw.Net((nw.Node(1, (0, 0)), nw.Node(3, (10, 10))),
                                     (nw.Link(1, 1, 3, points(0, 0, 10, 0, 10, 10)),
                                      nw.Link(2, 3, 1, points(10, 10, 0, 10, 0, 0))), 4, 3, 2004))
        self.assertTrue(nw.in_form(after_t, after_h))
        after_t, after_h, r, v = nw.make_from_map(net_t, net_h, t, h, False)
        self.assertEqual(nw.decode(after_t, after_h), nw.Net((nw.Node(1, None), nw.Node(3, None)),
                                                             (nw.Link(1, 1, 3, ()), nw.Link(2, 3, 1, ())), 4, 3, 2004))
        self.assertEqual(nw.make_from_map(after_t, after_h, t, h, False)[2], 2)
        bad_map, bad_head = pm.Tables(t.nodes[1:], t.edges, t.faces), pm.replace(h, edge_count=-1)
        bad_net = nw.Tables(net_t.nodes[1:], net_t.links)
        self.assertEqual(nw.make_from_map(bad_net, net_h, bad_map, h, True)[2], 1)
        self.assertEqual(nw.make_from_map(bad_net, net_h, t, bad_head, True)[2], 2)       # the map first
        self.assertEqual(nw.make_from_map(bad_net, net_h, t, h, True)[2], 1)
        self.assertEqual(nw.make_from_map(net_t, nw.replace(net_h, year=2006), t, h, True)[2], 2)
        self.assertEqual(nw.make_from_map(net_t, nw.replace(net_h, next_link=2), t, h, True)[2], 2)
        self.assertEqual(nw.make_from_map(*fresh(2005, nw.Sizes(1, 9)), t, h, True)[2], 20)
        self.assertEqual(nw.make_from_map(*fresh(2005, nw.Sizes(2, 1)), t, h, True)[2], 20)
        self.assertEqual(nw.make_from_map(*fresh(2005, nw.Sizes(2, 2)), t, h, True)[2], 0)
        t0, h0 = blank((1, 1, 1), 7)
        again = nw.make_from_map(*fresh(), t0, h0, True)
        self.assertEqual(again[2], 0)
        self.assertEqual(nw.make_from_map(*again[:2], t0, h0, False)[2], 0)               # still never had a row

    def test_maps_made(self):
        for seed in range(60):
            rng = random.Random(seed)
            m = grown.grow(rng, 50)
            t, h = grown.exact(m, 7)
            for spatial in (True, False):
                at, ah, r, _ = nw.make_from_map(*fresh(rng.choice([2004, 2005]), nw.Sizes(80, 120)), t, h, spatial)
                self.assertEqual((r, form_faults(at, ah)), (0, []))
                self.assertEqual([n.number for n in nw.decode(at, ah).nodes], [n.number for n in m.nodes])

    def test_random_lists(self):
        seen = {}
        for seed in range(500):
            rng = random.Random(seed)
            year, w = rng.choice([2004, 2005]), rng.choice([3, 5, 8, 12, 40, 2 ** 20])
            room = nw.Sizes(rng.choice([6, 60]), rng.choice([6, 90]))
            t, h = fresh(year, room)
            if rng.random() < 0.1:
                h = nw.replace(h, next_node=rng.randint(999_985, 999_999), next_link=rng.randint(999_985, 999_999))
            for _ in range(90):
                net = nw.decode(t, h)
                op = grown.net_op(rng, net, w)
                t2, h2, r, v = nw.run(t, h, op)
                seen[op[0] if op else None, r, year] = seen.get((op[0] if op else None, r, year), 0) + 1
                if r == 3:
                    self.assertFalse(nw.shape_ok(op))
                    continue
                self.assertEqual(r, expected(net, room, op), (seed, op, net))
                if r:
                    self.assertEqual((t2, h2, v), (t, h, 0))
                    continue
                self.assertEqual(form_faults(t2, h2), [], (seed, op, net))
                self.after(net, nw.decode(t2, h2), op, v)
                t, h = t2, h2
        for year, numbers in ((2004, {25, 26, 27}), (2005, {27})):
            for n in {0, 4, 5, 7, 8, 9, 13, 16, 20, 21} | numbers:
                self.assertTrue(any(r == n and y == year for _, r, y in seen), (year, n))
        self.assertFalse(any(r in (25, 26) and y == 2005 for _, r, y in seen))
        self.assertFalse(any(r in (2, 10, 12, 14, 15, 17) for _, r, _ in seen))
        self.assertTrue(any(k == 11 and r == 18 for k, r, _ in seen))

    def after(self, old, new, op, value):
        """What an operation leaves, from the sentences."""
        kind, *a = op
        self.assertEqual(new.year, old.year)
        o, n = {k.number: k for k in old.links}, {k.number: k for k in new.links}
        on, nn = {x.number: x.point for x in old.nodes}, {x.number: x.point for x in new.nodes}
        if kind in (1, 2, 3):
            self.assertEqual(n, o)
            want = dict(on)
            if kind == 3:
                del want[a[0]]
            else:
                want[old.next_node if kind == 1 else a[0]] = tuple(a[kind - 1:]) or None
            self.assertEqual(nn, want)
            self.assertEqual(value, old.next_node if kind == 1 else 0)
        elif kind in (4, 5, 6):
            self.assertEqual(nn, on)
            gone = [x for k, x in n.items() if o.get(k) != x]
            self.assertTrue(len(gone) <= 1)
            self.assertEqual(value, old.next_link if kind == 4 else 0)
        elif kind in (7, 8, 9, 10):
            self.assertEqual(value, old.next_node)
            p = (a[1], a[2]) if kind > 8 else None
            self.assertEqual(nn, {**on, value: p})
            halves = (old.next_link, old.next_link + 1) if kind % 2 else (a[0], old.next_link)
            one, two, was = n[halves[0]], n[halves[1]], o[a[0]]
            self.assertEqual((one.start, one.end, two.start, two.end), (was.start, value, value, was.end))
            if kind < 9:
                self.assertEqual((one.points, two.points), ((), ()))
            else:
                at = along_first(was.points, p)
                i = int(at)
                self.assertEqual(one.points, was.points[:i + 1] + ((p,) if at > i else ()))
                self.assertEqual(two.points, ((p,) if at > i else ()) + was.points[i + 1 if at > i else i:])
            rest = {k: x for k, x in o.items() if k != a[0]}
            self.assertEqual({k: x for k, x in n.items() if k not in halves}, rest)
            self.assertEqual(new.next_link - old.next_link, 2 if kind % 2 else 1)
        else:
            h = old.next_link if kind == 11 else a[0]
            self.assertEqual(value, h if kind == 11 else 0)
            start, end, c = healed(old, o[a[0]], o[a[1]])
            self.assertEqual(n[h], nw.Link(h, start, end, c))
            rest = {k: x for k, x in o.items() if k not in a}
            self.assertEqual({k: x for k, x in n.items() if k != h}, rest)
            joint = o[a[0]].end if o[a[0]].end in (o[a[1]].start, o[a[1]].end) else o[a[0]].start
            used = any(joint in (x.start, x.end) for x in n.values())
            self.assertEqual(nn, {k: x for k, x in on.items() if k != joint or used})

    def test_any_tables(self):
        tally = set()
        for seed in range(1500):
            rng = random.Random(seed)
            net = grown.grow_net(rng, rng.randint(0, 40), rng.choice([2004, 2005]), 8)
            t, h = nw.encode(net, nw.Sizes(len(net.nodes) + 1, len(net.links) + 1))
            flat = [list(t.nodes), list(t.links), list(astuple(h))]
            for _ in range(rng.randint(1, 2)):
                x = rng.choice(flat)
                if x:
                    i = rng.randrange(len(x))
                    x[i] = rng.choice([x[i] + 1, x[i] - 1, -x[i], 0, 1, 13, 2 ** 63, 1_000_000, rng.choice(x)])
            if rng.random() < 0.05:
                flat[rng.randrange(2)].append(0)
            t, h = nw.Tables(tuple(flat[0]), tuple(flat[1])), nw.Head(*flat[2])
            whole = len(t.nodes) % 4 == 0 and len(t.links) % 28 == 0
            for _ in range(3):
                op = grown.net_op(rng, net, 8)
                t2, h2, r, v = nw.run(t, h, op)
                tally.add(r)
                self.assertEqual(r == 1, not whole)
                if whole:
                    self.assertEqual(r == 2, form_faults(t, h) != [], (form_faults(t, h), h))
        self.assertTrue({0, 1, 2} <= tally)


if __name__ == '__main__':
    unittest.main()
