"""Request (x): the transport file."""

import random
import unittest

import grown
import plotmap as pm
import transport as tr
from test_sheet import LOOP, NODE, play

ROOM = pm.Sizes(90, 130, 90)


def lent(s=ROOM, filler=5):
    """Tables and head with anything in them."""
    return (pm.Tables((filler,) * (4 * s.nodes), (filler,) * (32 * s.edges), (filler,) * (5 * s.faces)),
            pm.Head(9, 9, 9, 9, 9, 9, 9))


def read(file, s=ROOM):
    t, h = lent(s)
    t2, h2, r, v = tr.read_file(t, h, file)
    if r:
        assert (t2, h2, v) == (t, h, 0)
        return r
    assert v == 0
    assert pm.in_form(t2, h2, 10)
    return pm.decode(t2, h2, 10)


def by_text(m):
    """The file by strings of 0 and 1, written apart from transport.py."""
    w = {k: (len(f'{v - 1:b}') if v > 1 else 0)
         for k, v in (('n', m.next_node), ('e', m.next_edge), ('f', m.next_face))}
    put = lambda v, n: f'{v:0{n}b}' if n else ''
    s = '1' if m.points == 12 else '0'
    s += ''.join(put(len(x), 11) for x in (m.nodes, m.edges, m.faces))
    s += ''.join(put(x, 20) for x in (m.next_node, m.next_edge, m.next_face))
    for n in m.nodes:
        s += put(n.number, w['n']) + put(n.x, 20) + put(n.y, 20) + ('0' if n.face < 0 else '1' + put(n.face, w['f']))
    for e in m.edges:
        s += put(e.number, w['e']) + put(e.start, w['n']) + put(e.end, w['n'])
        for d in (e.next_left, e.next_right):
            s += '01'[d < 0] + put(abs(d), w['e'])
        s += put(e.left, w['f']) + put(e.right, w['f']) + put(len(e.points), 4)
        s += ''.join(put(c, 20) for p in e.points for c in p)
    s += ''.join(put(f, w['f']) for f in m.faces)
    s += '0' * (-len(s) % 8)
    return int('1' + s, 2).to_bytes(len(s) // 8 + 1, 'big')[1:]


def bits_needed(file):
    """By text: how many bits the fields take, or None where it ends early."""
    s = ''.join(f'{b:08b}' for b in file)
    at = 0

    def take(n):
        nonlocal at
        at += n
        return int(s[at - n:at] or '0', 2) if at <= len(s) else 0
    take(1)
    count = [take(11) for _ in range(3)]
    width = [max(0, take(20) - 1).bit_length() for _ in range(3)]
    for _ in range(count[0]):
        take(width[0] + 40)
        if at <= len(s) and take(1):
            take(width[2])
    for _ in range(count[1]):
        take(3 * width[1] + 2 * width[0] + 2 * width[2] + 2)
        take(40 * take(4))
    take(count[2] * width[2])
    return at if at <= len(s) else None


class Transport(unittest.TestCase):
    def test_empty_map_by_hand(self):
        """1, 0, 0, 1 in 11 bits, 1, 1, 1 in 20 bits, a face of no bits, two filling bits."""
        self.assertEqual(tr.file_of(pm.EMPTY_MAP).hex(), '800000004000040000400004')
        self.assertEqual(tr.file_of(pm.replace(pm.EMPTY_MAP, points=6)).hex(), '000000004000040000400004')
        self.assertEqual(read(bytes.fromhex('800000004000040000400004')), pm.EMPTY_MAP)
        for text, want in (('', 29), ('80', 29), ('8000000040000400004000', 29), ('80000000400004000040000400', 29),
                           ('800000004000040000400005', 30), ('800000004000040000400006', 30),
                           ('800000004000040000400000', 2), ('800000000000040000400004', 2)):
            self.assertEqual(read(bytes.fromhex(text)), want, text)

    def test_node_by_hand(self):
        """One lone node 1 at (3, 0) in face 0: number 1 bit, 20, 20, bit 1, a face of no bits: 136 bits."""
        _, m = play('1 -1 3 0', level=10)
        file = tr.file_of(m)
        want = ('1' + f'{1:011b}' + '0' * 11 + f'{1:011b}' + f'{2:020b}' + f'{1:020b}' * 2
                + '1' + f'{3:020b}' + '0' * 20 + '1')
        self.assertEqual(len(want), 136)
        self.assertEqual(file, bytes(int(want[i:i + 8], 2) for i in range(0, 136, 8)))
        self.assertEqual(len(file), 17)

    def test_width(self):
        self.assertEqual([tr.number_width(n) for n in (0, 1, 2, 3, 4, 5, 8, 9, 1_000_000)],
                         [0, 0, 1, 2, 2, 3, 3, 4, 20])

    def test_calls(self):
        _, m = play(NODE, LOOP, '1 -1 5 5', level=10)
        t, h = grown.exact(m, 10)
        file = tr.file_of(m)
        n = len(file)
        self.assertEqual(tr.write_file(t, h, b'\7' * (n + 2)), (file + b'\7\7', 0, n))
        self.assertEqual(tr.write_file(t, h, b'\7' * (n - 1)), (b'\7' * (n - 1), 20, 0))
        self.assertEqual(tr.write_file(t, pm.replace(h, points=7), b'')[1:], (2, 0))
        self.assertEqual(tr.write_file(pm.Tables(t.nodes + (0,), t.edges, t.faces), h, b'')[1:], (1, 0))
        self.assertEqual(read(file, pm.Sizes(1, 1, 2)), 20)
        self.assertEqual(read(file, pm.Sizes(2, 0, 2)), 20)
        self.assertEqual(read(file, pm.Sizes(2, 1, 1)), 20)
        self.assertEqual(read(file, pm.Sizes(2, 1, 2)), m)
        self.assertEqual(read(b'', pm.Sizes(2, 1, 0)), 1)
        self.assertEqual(read(b'', pm.Sizes(1001, 1, 1)), 1)

    def test_counts_over_the_limits(self):
        """1,001 nodes without numbers: a file of right length is 2, a shorter one 29, a set filling bit 30."""
        s = '1' + f'{1001:011b}' + '0' * 11 + f'{1:011b}' + f'{1:020b}' * 3 + ('0' * 41) * 1001
        fill = -len(s) % 8
        file = int('1' + s + '0' * fill, 2).to_bytes((len(s) + fill) // 8 + 1, 'big')[1:]
        self.assertEqual(read(file), 2)
        self.assertEqual(read(file[:-1]), 29)
        self.assertTrue(fill)
        self.assertEqual(read(file[:-1] + bytes([file[-1] | 1])), 30)

    def test_just_the_limit(self):
        m = pm.replace(pm.EMPTY_MAP, nodes=tuple(pm.Node(n, n, 2 * n, 0) for n in range(1, 1001)), next_node=1_000_000)
        file = tr.file_of(m)
        self.assertEqual(len(file), (94 + 1000 * 61 + 7) // 8)
        self.assertEqual(read(file, pm.Sizes(1000, 0, 1)), m)
        self.assertEqual(read(file, pm.Sizes(999, 0, 1)), 20)

    def test_points_over_the_record(self):
        """Seven points under a record of 6, or 13 to 15 under 12: right length, then 2."""
        c = ' '.join(f'{i} {i * i}' for i in range(7))
        _, m = play('1 -1 0 0', '1 -1 6 36', f'4 1 2 {c}', level=10)
        self.assertEqual(read(tr.file_of(m)), m)
        self.assertEqual(read(tr.file_of(pm.replace(m, points=6))), 2)
        for n in (13, 14, 15):
            x = pm.replace(m, edges=(pm.replace(m.edges[0], points=tuple((i, i * i) for i in range(n))),),
                           nodes=(m.nodes[0], pm.replace(m.nodes[1], x=n - 1, y=(n - 1) ** 2)))
            self.assertEqual(read(tr.file_of(x)), 2)
            self.assertEqual(read(tr.file_of(x)[:-1]), 29)

    def test_minus_nothing(self):
        """A link with the sign bit set and number 0 names no edge."""
        _, m = play('1 -1 0 0', '1 -1 6 36', '4 1 2 0 0 6 36', level=10)
        x = pm.replace(m, edges=(pm.replace(m.edges[0], next_left=0),))
        file = tr.file_of(x)
        at = 94 + 2 * (2 + 41) + 1 + 2 + 2                     # the head, two nodes, number, start and end
        self.assertEqual(read(file), 2)
        turned = bytearray(file)
        turned[at // 8] ^= 128 >> at % 8
        self.assertEqual(tr.take_map(bytes(turned))[0], x)
        self.assertEqual(read(bytes(turned)), 2)

    def test_round_trip(self):
        for seed in range(250):
            rng = random.Random(seed)
            start = pm.replace(pm.EMPTY_MAP, points=rng.choice([6, 12]))
            m = grown.grow(rng, rng.choice([0, 5, 30, 90]), 10, start)
            if rng.random() < 0.4:
                m = pm.replace(m, **{f'next_{x}': rng.choice([a, 1023, 1024, 1025, 999_999, 1_000_000])
                                     for x, a in (('node', m.next_node), ('edge', m.next_edge), ('face', m.next_face))})
            for x in [m] + [grown.distort(rng, m, (0, 0, 12)) for _ in range(3)]:
                t, h = grown.exact(x, 10, more=1)
                out, r, v = tr.write_file(t, h, b'\7' * 9000)
                if pm.in_form(t, h, 10):
                    self.assertEqual((r, out[:v]), (0, by_text(x)))
                    self.assertEqual(read(out[:v]), x)
                else:
                    self.assertEqual(r, 2)

    def test_flips(self):
        seen = {}
        for seed in range(300):
            rng = random.Random(seed)
            m = grown.grow(rng, rng.choice([0, 3, 6, 12, 30]), 10, pm.replace(pm.EMPTY_MAP, points=rng.choice([6, 12])))
            file = tr.file_of(m)
            for _ in range(60):
                x = bytearray(file)
                for _ in range(rng.choice([1, 1, 1, 2, 3])):
                    x[rng.randrange(len(x))] ^= 1 << rng.randrange(8)
                if rng.random() < 0.1:
                    x = x[:rng.randrange(len(x) + 1)]
                if rng.random() < 0.05:
                    x += bytes([rng.choice([0, 1, 255])])
                found = read(bytes(x))
                used = bits_needed(bytes(x))
                self.assertEqual(found == 29, used is None or len(x) != (used + 7) // 8)
                if found != 29:
                    tail = ''.join(f'{b:08b}' for b in x)[used:]
                    self.assertEqual(found == 30, '1' in tail)
                if isinstance(found, pm.Map):
                    self.assertEqual(tr.file_of(found), bytes(x))
                    seen['map'] = seen.get('map', 0) + (bytes(x) != file)
                else:
                    self.assertIn(found, (2, 29, 30, 20))
                    seen[found] = seen.get(found, 0) + 1
        self.assertTrue(all(seen.get(k, 0) > 50 for k in ('map', 2, 29, 30)), seen)

    def test_any_bytes(self):
        for seed in range(400):
            rng = random.Random(seed)
            file = bytes(rng.choice([0, 0, 0, 1, 64, 128, 255]) for _ in range(rng.randrange(60)))
            found = read(file)
            if isinstance(found, pm.Map):
                self.assertEqual(tr.file_of(found), file)


if __name__ == '__main__':
    unittest.main()
