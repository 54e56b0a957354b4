"""Request (iii): a rectangle for each plot."""

import random
import unittest

import fuzz
import fuzz_tables as ft
import grown
import plotmap as pm
import raw_gen
import rectangles
import ticket as tk
from test_sheet import LOOP, NODE

LEVEL = 3
ACROSS = NODE, LOOP, '8 1 10 10', '12 1 2 0 0 10 10'


def face_rows(*lines):
    """The face rows in use after tickets."""
    *_, (_, _, t, h) = tk.answers([x.encode() for x in lines], level=LEVEL)
    return pm.rows(t.faces, pm.face_width(LEVEL))[:h.face_count]


def affected(m, k, after):
    """The faces whose rectangles a carried-out ticket may change."""
    sides = lambda e: {e.left, e.right}
    match k[0]:
        case 1 | 2 | 3:
            return set()
        case 4 | 11 | 12:
            return sides(after.edges[-1])
        case 5 | 6 | 7 | 8:
            return sides(pm.edge(m, k[1]))
        case 9 | 10:
            return sides(pm.edge(m, k[1])) | sides(pm.edge(m, k[2]))
        case 13 | 14:
            return {pm.remaining_face(m, k[1], k[0] == 13)}


class Rectangles(unittest.TestCase):
    def test_square(self):
        zeros = (0, 0, 0, 0, 0)
        self.assertEqual(face_rows(*ACROSS), (zeros, (1, 0, 0, 10, 10), (2, 0, 0, 10, 10)))
        self.assertEqual(face_rows(*ACROSS, '9 1 2', '13 3'), (zeros, (3, 0, 0, 10, 10)))
        self.assertEqual(face_rows(*ACROSS, '14 3', '13 1'), (zeros,))

    def test_inner_points(self):
        bent = '1 -1 12 1', '1 -1 14 10', '12 1 2 12 1 17 4 9 7 14 10', '12 1 2 12 1 2 2 0 8 4 11 14 10'
        self.assertEqual(face_rows(*bent, '12 1 2 12 1 22 0 26 8 14 10')[1:], ((1, 0, 1, 17, 11), (2, 9, 0, 26, 10)))
        self.assertEqual(face_rows(*bent, '6 1 12 1 14 10')[1:], ((1, 0, 1, 14, 11),))

    def test_no_edge(self):
        *_, (_, _, t, h) = tk.answers([NODE.encode(), LOOP.encode()], level=LEVEL)
        m = pm.replace(pm.decode(t, h, LEVEL), faces=(0, 1, 5), next_face=6)
        self.assertEqual(pm.encode(m, pm.Sizes(1, 1, 3), LEVEL)[0].faces[5:], (1, 0, 0, 10, 10, 5, 0, 0, 0, 0))

    def test_others_are_out_of_form(self):
        seen = 0
        for seed in range(60):
            rng = random.Random(seed)
            t, h = grown.exact(grown.grow(rng, 40, LEVEL), LEVEL, more=rng.choice([0, 1]))
            for x in rectangles.spoiled(t, h, LEVEL):
                if len(x.faces) != 5 * pm.MAX_FACES:
                    self.assertEqual(pm.run(x, h, (), LEVEL)[2], 2 if pm.whole_tables(x, LEVEL) else 1)
                    self.assertEqual(rectangles.set_anew(x, h, LEVEL), t if len(x.faces) == len(t.faces) else x)
                    seen += 1
        self.assertGreater(seen, 1000)

    def test_affected(self):
        """Of all maps in form: grown, and distorted."""
        moved = set()
        for seed in range(300):
            rng = random.Random(seed)
            grid = (0, 0, rng.choice([5, 9, 30]))
            m = grown.grow(rng, rng.choice([10, 30, 60]), LEVEL, grid=grid)
            if seed % 2:
                x = ft.off_law(rng, raw_gen.bend(rng, m, grid))
                m = x if pm.in_form(*grown.exact(x, LEVEL), LEVEL) else m
            for _ in range(40):
                k = fuzz.make_ticket(rng, m, grid, fuzz.MIXES['even'])
                if not pm.shape_ok(k) or pm.first_reason(pm.reasons(m, grown.BIG, k, LEVEL)):
                    continue
                after = pm.apply(m, k, LEVEL)[0]
                changed = {f for f in after.faces if pm.rectangle(m, f) != pm.rectangle(after, f)}
                self.assertLessEqual(changed, affected(m, k, after), (k, m))
                moved |= {k[0]} if changed else set()
                m = after if seed % 2 == 0 else m
        self.assertLessEqual({6, 11, 12, 13, 14}, moved)


if __name__ == '__main__':
    unittest.main()
