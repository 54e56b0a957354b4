"""Request (xii): links mended from the drawing."""

import random
import unittest

import check
import grown
import mend as md
import plotmap as pm
from test_sheet import LOOP, NODE, play


def spoilt(rng, m):
    """Links at will, also ones that name no edge."""
    numbers = [d for e in m.edges for d in (e.number, -e.number)] + [0, -7, m.next_edge, 2 ** 62]
    link = lambda old: rng.choice(numbers) if rng.random() < 0.4 else old
    return pm.replace(m, edges=tuple(pm.replace(e, next_left=link(e.next_left), next_right=link(e.next_right))
                                     for e in m.edges))


class Mend(unittest.TestCase):
    def test_by_hand(self):
        _, m = play(NODE, LOOP, '8 1 10 4', level=12)           # links 2, -2 on edge 1 and 1, -1 on edge 2
        x = pm.replace(m, edges=(pm.replace(m.edges[0], next_left=0), m.edges[1]))
        t, h, out, r, v = md.mend(*grown.exact(x, 12), (7,) * 6)
        self.assertEqual((out, r, v), ((1, 0, -2, 2, -2, 7), 0, 5))
        self.assertEqual(pm.decode(t, h, 12), m)
        self.assertEqual(md.mend(*grown.exact(x, 12), (7,) * 4)[2:], ((7,) * 4, 20, 0))
        self.assertEqual(md.mend(*grown.exact(m, 12), ())[2:], ((), 0, 0))

    def test_refusals(self):
        _, m = play(NODE, LOOP, '8 1 10 10', '12 1 2 0 0 10 10', level=12)
        x = pm.replace(m, edges=(pm.replace(m.edges[0], left=0), *m.edges[1:]))
        t, h = grown.exact(x, 12)
        self.assertEqual(md.mend(t, h, ())[3:], (31, 0))        # a mended ring bears 1 and 0
        same = pm.replace(x, edges=(*x.edges[:2], pm.replace(x.edges[2], points=((0, 0), (5, 0), (10, 10)))))
        self.assertEqual(md.mend(*grown.exact(same, 12), ())[3:], (11, 0))
        gone = pm.replace(same, edges=(pm.replace(same.edges[0], left=9), *same.edges[1:]))
        self.assertEqual(md.mend(*grown.exact(gone, 12), ())[3:], (2, 0))
        t, h = grown.exact(m, 12)
        flat = pm.Tables(t.nodes, t.edges, t.faces[:-1] + (t.faces[-1] + 1,))
        self.assertEqual(md.mend(flat, h, ())[3:], (2, 0))      # a rectangle is out of form
        self.assertEqual(md.mend(pm.Tables(t.nodes[:-1], t.edges, t.faces), h, ())[3:], (1, 0))

    def test_grown(self):
        changed = 0
        for seed in range(200):
            rng = random.Random(seed)
            m = grown.grow(rng, rng.choice([20, 60, 100]), 12, pm.replace(pm.EMPTY_MAP, points=rng.choice([6, 12])))
            t, h = grown.exact(m, 12, more=1)
            self.assertEqual(md.mend(t, h, (7, 7)), (t, h, (7, 7), 0, 0))
            x = spoilt(rng, m)
            t2, h2, out, r, v = md.mend(*grown.exact(x, 12, more=1), (7,) * 999)
            self.assertEqual((t2, h2, r), (t, h, 0))
            want = [n for a, b in zip(x.edges, m.edges) if a != b
                    for n in (a.number, a.next_left, a.next_right, b.next_left, b.next_right)]
            self.assertEqual((out[:v], out[v:]), (tuple(want), (7,) * (999 - v)))
            changed += v > 0
            self.assertEqual(md.mend(t2, h2, ())[2:], ((), 0, 0))
        self.assertTrue(changed > 100)

    def test_any(self):
        """Distorted drawings: 2, 11, 31 or lawful links, faces and curves untouched."""
        seen = {}
        for seed in range(500):
            rng = random.Random(seed)
            m = grown.grow(rng, 40, 12)
            for _ in range(4):
                if rng.random() < 0.8:
                    x = grown.distort(rng, spoilt(rng, m) if rng.random() < 0.2 else m, (0, 0, 9))
                else:
                    x = spoilt(rng, m)
                t, h = grown.exact(x, 12)
                t2, h2, out, r, v = md.mend(t, h, (0,) * 999)
                seen[r] = seen.get(r, 0) + 1
                a = check.arcs(x)
                twins = any(check.turn_key(p) == check.turn_key(q) and a[i][0] == a[j][0]
                            for i in a for j in a if i < j
                            for p, q in [[(c[1][0] - c[0][0], c[1][1] - c[0][1]) for c in (a[i][4], a[j][4])]]
                            if p != (0, 0) and q != (0, 0))
                if r != 2:
                    self.assertEqual(r == 11, twins)
                if r == 0:
                    y = pm.decode(t2, h2, 12)
                    self.assertTrue(pm.in_form(t2, h2, 12))
                    b = check.arcs(y)
                    self.assertTrue(all(b[d][2] == check.law_next(b, d) for d in b))
                    strip = lambda z: pm.replace(z, edges=tuple(pm.replace(e, next_left=0, next_right=0)
                                                                for e in z.edges))
                    self.assertEqual(strip(y), strip(x))
                    self.assertEqual(md.mend(t2, h2, ())[2:], ((), 0, 0))
                else:
                    self.assertEqual((t2, h2, v), (t, h, 0))
                if pm.in_form(t, h, 12):
                    self.assertNotIn(r, (2, 11))
                    if pm.lawful(x):
                        self.assertEqual((r, v), (0, 0))
        self.assertTrue({0, 2, 11, 31} <= set(seen), seen)


if __name__ == '__main__':
    unittest.main()
