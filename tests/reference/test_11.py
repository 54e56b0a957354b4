"""Request (xi): two sheets joined."""

import random
import unittest

import check
import grown
import join as jn
import plotmap as pm
from test_sheet import play

ROOM = pm.Sizes(200, 300, 200)


def sheet(*lines):
    return play(*lines, level=11)[1]


def joined(a, b, room=ROOM):
    t, h = pm.encode(a, room, 11)
    t2, h2, r, v = jn.join(t, h, *grown.exact(b, 11), 11)
    assert v == 0
    if r:
        assert (t2, h2) == (t, h)
        return r
    return pm.decode(t2, h2, 11)


def by_tickets(a, b, room=ROOM):
    """The tickets, worked out apart from join.py, one after another."""
    t, h = pm.encode(a, room, 11)
    tickets, node = [], {}
    for n in b.nodes:
        m = pm.decode(t, h, 11)
        same = [x.number for x in m.nodes if x.x == n.x and x.y == n.y]
        if same:
            node[n.number] = sorted(same)[0]
            continue
        on = [e.number for e in m.edges if any(check.on((n.x, n.y), *s) for s in check.segs(e.points))]
        k = (8, sorted(on)[0], n.x, n.y) if on else (1, -1, n.x, n.y)
        t, h, r, node[n.number] = pm.run(t, h, k, 11)
        tickets.append(k)
        if r:
            return r, tickets
    for e in b.edges:
        m = pm.decode(t, h, 11)
        u, v = node[e.start], node[e.end]
        if any((x.start, x.end, x.points) == (u, v, e.points)
               or (x.end, x.start, x.points[::-1]) == (u, v, e.points) for x in m.edges):
            continue
        k = (12, u, v, *[c for p in e.points for c in p])
        t, h, r, _ = pm.run(t, h, k, 11)
        tickets.append(k)
        if r:
            return r, tickets
    return pm.decode(t, h, 11), tickets


SQUARE = ('1 -1 0 0', '12 1 1 0 0 10 0 10 10 0 10 0 0')


class Join(unittest.TestCase):
    def test_neighbours(self):
        """Two squares with a common side; the second names its corners otherwise."""
        a = sheet('1 -1 0 0', '1 -1 10 0', '1 -1 10 10', '12 1 2 0 0 10 0', '12 2 3 10 0 10 10',
                  '12 3 1 10 10 0 10 0 0')
        b = sheet('1 -1 10 10', '1 -1 10 0', '12 1 2 10 10 10 0', '12 1 2 10 10 20 10 20 0 10 0')
        m = joined(a, b)
        self.assertEqual(len(m.nodes), 3)                       # both nodes served
        # the side was skipped
        self.assertEqual([e.points for e in m.edges[3:]], [((10, 10), (20, 10), (20, 0), (10, 0))])
        self.assertEqual(m.faces, (0, 1, 2))
        self.assertEqual(check.faults(m, True), [])

    def test_node_on_an_edge(self):
        m = joined(sheet(*SQUARE), sheet('1 -1 10 5', '1 -1 20 5', '4 1 2 10 5 20 5'))
        self.assertEqual([(n.number, n.x, n.y) for n in m.nodes], [(1, 0, 0), (2, 10, 5), (3, 20, 5)])
        self.assertEqual([(e.number, e.start, e.end) for e in m.edges], [(1, 1, 2), (2, 2, 1), (3, 2, 3)])

    def test_crossing_edges(self):
        """In form, never grown: a place on two edges is cut into the lower alone; then the other is in the way."""
        a = sheet('1 -1 0 0', '1 -1 8 8', '1 -1 0 8', '1 -1 8 0', '4 1 2 0 0 8 8', '1 -1 0 20', '1 -1 8 20',
                  '4 5 6 0 20 8 20')
        row = pm.Edge(2, 5, 6, -2, 2, 0, 0, ((0, 20), (2, 4), (8, 4), (8, 20)))
        a = pm.replace(a, edges=(a.edges[0], row))
        self.assertTrue(pm.in_form(*grown.exact(a, 11), 11))
        m = joined(a, sheet('1 -1 4 4'))
        self.assertEqual([(e.number, len(e.points)) for e in m.edges], [(1, 2), (2, 4), (3, 2)])

    def test_same_place_twice(self):
        """Two nodes of the second on one place: one node serves both."""
        b = pm.replace(sheet('1 -1 3 3'), nodes=(pm.Node(1, 3, 3, 0), pm.Node(2, 3, 3, 0)), next_node=3)
        self.assertEqual(len(joined(sheet('1 -1 0 0'), b).nodes), 2)

    def test_surplus_points(self):
        """Stored straight points (in form, never grown) are compared as they are, and then dropped by kind 12."""
        a = sheet('1 -1 0 0', '1 -1 9 0', '4 1 2 0 0 9 0')
        b = pm.replace(a, edges=(pm.replace(a.edges[0], points=((0, 0), (4, 0), (9, 0))),))
        self.assertEqual(joined(a, b), 11)
        self.assertEqual(joined(pm.EMPTY_MAP, b).edges[0].points, ((0, 0), (9, 0)))

    def test_turned_down(self):
        self.assertEqual(joined(sheet(*SQUARE), sheet('1 -1 15 5', '1 -1 5 15', '4 1 2 15 5 5 5 5 15')), 15)
        self.assertEqual(joined(sheet(*SQUARE), sheet('1 -1 5 5', '1 -1 15 6', '4 1 2 5 5 15 6')), 12)
        run = sheet('1 -1 0 0', '1 -1 5 0', '1 -1 10 0', '4 1 2 0 0 5 0', '12 2 3 5 0 10 0')
        whole = sheet('1 -1 10 0', '1 -1 0 0', '4 1 2 10 0 0 0')
        self.assertEqual(joined(run, whole), 11)                 # along two edges: no skip
        self.assertEqual(len(joined(whole, run).edges), 2)       # the other way round: cut by 8, both skipped
        self.assertEqual(joined(sheet(*SQUARE), sheet('1 -1 5 5'), pm.Sizes(1, 1, 2)), 20)
        a = pm.replace(sheet(*SQUARE), next_node=1_000_000)
        self.assertEqual(joined(a, sheet('1 -1 5 5')), 21)
        self.assertEqual(joined(a, sheet('1 -1 0 0')), a)
        six = pm.replace(pm.EMPTY_MAP, points=6)
        long = [v for i in range(7) for v in (i, i * i)]
        b = sheet('1 -1 0 0', '1 -1 6 36', '4 1 2 ' + ' '.join(map(str, long)))
        self.assertEqual(joined(six, b), 5)
        self.assertEqual(joined(b, six), b)

    def test_looked_at(self):
        t, h = grown.exact(sheet(*SQUARE), 11)
        spoilt, short = pm.replace(h, face_count=0), pm.Tables(t.nodes[1:], t.edges, t.faces)
        self.assertEqual(jn.join(t, spoilt, short, h)[2], 2)
        self.assertEqual(jn.join(short, spoilt, t, h)[2], 1)
        self.assertEqual(jn.join(t, h, short, spoilt)[2], 1)
        self.assertEqual(jn.join(t, h, t, spoilt)[2], 2)
        self.assertEqual(jn.join(t, h, t, h)[0], t)

    def test_random(self):
        tally = {}
        for seed in range(400):
            rng = random.Random(seed)
            grid = (0, 0, rng.choice([5, 7, 9, 14]))
            mix = rng.choice(['even', 'faces', 'stitch'])
            base = grown.grow(rng, rng.choice([0, 10, 25]), 11, grid=grid, mix=mix)
            a = grown.grow(rng, rng.choice([0, 6, 12]), 11, base, grid, mix)
            b = grown.grow(rng, rng.choice([0, 3, 6]), 11, base, grid, mix)
            room = rng.choice([ROOM, ROOM, ROOM, pm.Sizes(len(a.nodes) + 1, len(a.edges) + 2, len(a.faces) + 1)])
            if rng.random() < 0.3:                               # in form, not grown
                x = grown.distort(rng, b, grid)
                b = x if pm.in_form(*grown.exact(x, 11), 11) else b
            if rng.random() < 0.2:
                x = grown.distort(rng, a, grid)
                a = x if pm.in_form(*grown.exact(x, 11), 11) else a
                ours = joined(a, b, room)
                self.assertEqual(ours, by_tickets(a, b, room)[0])
                continue
            ours, (want, tickets) = joined(a, b, room), by_tickets(a, b, room)
            self.assertEqual(ours, want, seed)
            if isinstance(ours, int):
                tally[ours] = tally.get(ours, 0) + 1
                continue
            tally['done'] = tally.get('done', 0) + 1
            tally['by 8'] = tally.get('by 8', 0) + any(k[0] == 8 for k in tickets)
            tally['by 12'] = tally.get('by 12', 0) + any(k[0] == 12 for k in tickets)
            self.assertEqual(check.faults(ours, True), [])
            self.assertTrue({(n.x, n.y) for n in b.nodes} <= {(n.x, n.y) for n in ours.nodes})
            drawn = {e.points for e in ours.edges} | {e.points[::-1] for e in ours.edges}
            for e in b.edges:                                     # surplus points are dropped by kind 12
                kept = tuple(p for i, p in enumerate(e.points) if not pm.surplus(e.points, i))
                self.assertTrue(e.points in drawn or kept in drawn)
            self.assertEqual(joined(ours, ours), ours)
        self.assertTrue(tally['done'] > 100 and tally['by 8'] > 5 and tally['by 12'] > 30 and len(tally) > 6, tally)


if __name__ == '__main__':
    unittest.main()
