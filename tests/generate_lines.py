#!/usr/bin/env python3
"""The stored lines of crates/ticket, crates/sheet and crates/outline: writes their stdin and stdout, the answers by the
reference.

  generate_lines.py [--seed S]

For `sheet` the tickets of docs/MANUAL.md come first, as they stand there, from the empty map. Then, for both, the
square sheet's P cases, lists by hand and random ones, each from a map that the removals before it made bare; wrong
lines among them. For `ticket` each table is filled and asked for one row more; for `sheet` every edge of a sheet with
islands is split and healed at once, and edges and faces are filled. For `outline` random islands come first, then plots
one in the other with a well in each, so that its contents go wide and deep. The last line is one byte without a line
end.

Needs nothing that is built. Fails where the manual's answers and rows are not the reference's, a kind is not carried
out, a reason of a kind never answers (20 and 21 left aside), or 3 or 20 is missing.
"""

import argparse
import random
import sys
from collections import Counter

import manual
from repository import LEVEL, ROOT     # finds the reference

import check
import contents
import fuzz
import islands
import plotmap as pm
import telling
import ticket as tk

ROOM = pm.Sizes(200, 200, 200)
SQUARE = ['1 -1 0 0', '12 1 1 0 0 10 0 10 10 0 10 0 0']
BACK = ['1 -1 0 0', '12 1 1 0 0 0 10 10 10 10 0 0 0']
# P2, P5, P6 and P8 to P10; P4 and P7; P3; a ditch out of the square
CASES = [SQUARE + ['8 1 0 0', '8 1 5 5', '8 1 10 10', '12 1 2 0 0 10 10', '10 1 2', '13 3'],
         SQUARE + ['8 1 10 4', '10 1 2'], BACK, SQUARE + ['1 1 5 5', '1 0 15 5', '4 2 3 5 5 15 5']]
# three edges at a node, two bare nodes, and reasons that random tickets seldom meet; the last two redraws would change
# the order at the node
RARE = ['1 -1 10 10', '1 -1 20 10', '1 -1 10 20', '1 -1 0 10', '12 1 2 10 10 20 10', '12 1 3 10 10 10 20',
        '11 4 1 0 10 10 10', '1 -1 30 30', '1 -1 40 40', '2 5 0 1048576', '2 1 5 5', '3 1', '4 5 6 30 30 41 40',
        '7 1 -1 0', '8 1 1048576 0', '11 5 6 31 30 40 40', '12 5 6 30 30 41 40', '6 1 10 10 21 10',
        '6 1 10 10 5 30 15 30 20 10', '6 3 0 10 5 30 15 30 10 10']
# a plot with a boundary across it, a walled tank and a ditch apart from all others in it, a well, and a stub
SLUICES = ['1 -1 0 0', '12 1 1 0 0 100 0 100 60 0 60 0 0', '8 1 100 60', '12 1 2 0 0 50 20 100 60',
           '1 -1 70 20', '12 3 3 70 20 80 20 80 30 70 30 70 20', '1 -1 20 40', '1 -1 40 50', '4 4 5 20 40 30 48 40 50',
           '1 -1 10 30', '1 -1 90 5', '12 2 7 100 60 90 5']
# what a number of a ticket names, by kind: a face, nodes, edges
NAMES = {1: 'f', 2: 'n', 3: 'n', 4: 'nn', 5: 'e', 6: 'e', 7: 'e', 8: 'e', 9: 'ee', 10: 'ee', 11: 'nn', 12: 'nn',
         13: 'e', 14: 'e'}
# how many coordinates follow in a ticket of each kind, to read its reasons off
COORDINATES = {**dict.fromkeys((1, 2, 7, 8), 2), **dict.fromkeys((4, 6, 11, 12), 4)}
SHAPES = {k: (k, *[1] * len(names), *(0, 0, 1, 1)[:COORDINATES.get(k, 0)]) for k, names in NAMES.items()}


class Sheet:
    """Lines one after the other, and the map after them."""

    def __init__(self, rng):
        self.rng, self.map, self.lines = rng, pm.EMPTY_MAP, []

    def put(self, ticket, line=None):
        self.lines.append(line or spelled(self.rng, ticket))
        if pm.shape_ok(ticket) and pm.first_reason(pm.reasons(self.map, ROOM, ticket, LEVEL)) == 0:
            self.map = pm.apply(self.map, ticket, LEVEL)[0]

    def clear(self):
        for e in self.rng.sample(self.map.edges, len(self.map.edges)):
            self.put((self.rng.choice([13, 14]), e.number))
        for n in self.map.nodes:
            self.put((3, n.number))

    def chapter(self, lines):
        """A list whose numbers count from 1 on, from a bare map."""
        self.clear()
        first = {'n': self.map.next_node, 'e': self.map.next_edge, 'f': self.map.next_face}
        for line in lines:
            kind, *rest = map(int, line.split())
            named = [v + first[n] - 1 if v > 0 else v for n, v in zip(NAMES[kind], rest)]
            self.put((kind, *named, *rest[len(named):]))

    def grow(self, mix, tickets):
        """Random tickets, from a bare map, and wrong lines among them."""
        self.clear()
        world = islands.World(self.rng) if mix == 'islands' else None
        grid = (0, 0, self.rng.choice([4, 6, 8, 12, 20, pm.MAX_COORDINATE + 1]))
        for _ in range(tickets):
            if self.rng.random() < 0.05:
                self.lines.append(self.rng.choice(WRONG))
            self.put(islands.ticket(self.rng, self.map, world) if world
                     else fuzz.make_ticket(self.rng, self.map, grid, WEIGHTS[mix]))

    def cancel(self):
        """Each edge split inside a segment and at a point, by 8 and healed by 10, by 7 and healed by 9 (request (vi)).
        """
        for mod in (True, False):
            for e in self.map.edges:
                between = [q for _ in range(40) if (q := fuzz.along(self.rng, e)) not in e.points][:1]
                number = e.number
                for at in between + list(e.points[1:2] if len(e.points) > 2 else []):
                    assert check.sluice_faults(self.map, ROOM, number, at, LEVEL) == []
                    new = self.map.next_edge
                    self.put((8 if mod else 7, number, *at))
                    self.put((10, number, new) if mod else (9, new, new + 1))
                    number = number if mod else new + 2

    def nest(self, count, x):
        """So many plots one in the other from x on, with a well in each."""
        for i in range(count):
            low, high = x + 10 * i, x + 20 * count - 10 * i
            self.put((1, -1, low, low))
            n = self.map.nodes[-1].number
            self.put((12, n, n, low, low, high, low, high, high, low, high, low, low))
            self.put((1, -1, low + 3, low + 5))

    def fill(self):
        """Nodes until no row is free, an edge that is split in vain, and a row freed and taken again."""
        self.clear()
        while len(self.map.nodes) < ROOM.nodes:
            i = len(self.map.nodes)
            self.put((1, -1, 20 * (i % 15), 20 * (i // 15)))
        at = lambda n: (n.x, n.y)
        u, v = self.map.nodes[:2]
        self.put((4, u.number, v.number, *at(u), *at(v)))
        e = self.map.edges[0].number
        for k in ((1, -1, 5, 5), (7, e, 10, 0), (8, e, 10, 0), (11, v.number, u.number, *at(v), 10, 10, *at(u)),
                  (3, self.map.nodes[-1].number), (8, e, 10, 0), (1, 0, 5, 5)):
            self.put(k)

    def fill_edges(self):
        """Loops about one node until no face row is free, then edges to a second node until no edge row is."""
        self.clear()
        self.put((1, -1, 0, 0))
        hub = self.map.nodes[0].number
        loop = lambda kind, k: (kind, hub, hub, 0, 0, 999, 4 * k, 999, 4 * k + 2, 0, 0)
        while len(self.map.faces) < ROOM.faces:
            k = len(self.map.edges)
            self.put(loop(11 + k % 2, k))
        k = len(self.map.edges)
        for t in (loop(11, k), loop(12, k), (14, self.map.edges[-1].number),
                  (1, -1, 0, 9), (1, -1, 9, 20), (1, -1, 9, 21)):
            self.put(t)
        a, b, c = (n.number for n in self.map.nodes[1:])
        self.put((12, hub, a, 0, 0, 0, 9))
        self.put((11, a, hub, 0, 9, -1, 9, 0, 0))
        self.put((11, a, hub, 0, 9, 2, 8, 0, 0))
        assert (len(self.map.edges), len(self.map.faces)) == (ROOM.edges, ROOM.faces)
        e = self.map.edges[-1].number
        for t in ((12, hub, b, 0, 0, 9, 20), (4, b, c, 9, 20, 9, 21), (7, e, 2, 8), (8, e, 2, 8), (9, e - 1, e),
                  (13, e), (4, b, c, 9, 20, 9, 21), (12, hub, b, 0, 0, 9, 20)):
            self.put(t)


def spelled(rng, ticket):
    """The ticket as a line, some with signs, zeros and blanks that change nothing."""
    words = [str(v) for v in ticket]
    if rng.random() < 0.9:
        return ' '.join(words).encode()
    words = [rng.choice([w, w, '+' + w, '000' + w] if w[0] != '-' else [w, '-0' + w[1:]]) for w in words]
    before, blank = rng.choice([b'', b' ', b'\t']), rng.choice([b' ', b'  ', b'\t', b' \f ', b'\r'])
    return before + blank.join(w.encode() for w in words) + rng.choice([b'', b' ', b'\r'])


def long_line(size, y):
    """A ticket of kind 1 in that many bytes."""
    head, tail = b'1 -1 0', b'%d' % y
    return head + b' ' * (size - len(head) - len(tail)) + tail


WRONG = [b'', b' ', b'\t\r\f ', b'x', b'hello', b'1 -1 0 0.5', b'1 -1 0 1e3', b'1 -1 0x10 0', b'1,-1,0,0',
         b'1 -1 0 0 ;', b'+', b'-', b'--1', b'1 -1 3- 4', b'1_000', b'\x00', b'1 -1 0\x0b0', '١ -1 0 0'.encode(),
         b'\xff\xfe', b'0', b'15 1', b'-1', b'3', b'12 1', b'12 1 1 5', b'1 -1 0', b'1 -1 0 0 0', b'10 1',
         b'1 -1 0 99999999999999999999', b'9223372036854775808', b'-9223372036854775809',
         b'1 -1 0 18446744073709551616', b'3 9223372036854775808', b'3 9223372036854775807', b'3 -9223372036854775808',
         b'1 -1 9223372036854775807 0', b'1 -1 -9223372036854775808 0', b'2 18446744073709551617 1 1']
LONG = [b'1 ' * 500, b'1 ' * 499 + b'1', b'9' * 1000, long_line(1001, 0), long_line(1002, 0), long_line(5000, 0),
        b'1 -1 0 0' + b' ' * 993, b'x' * 20000]
# lines that are right and look wrong
RIGHT = [b'1 -1 ' + b'0' * 990 + b'1 77', long_line(1000, 78), b'1 -1 0 79' + b'\t' * 991, b'\r\f\t1 -1 +0 +80\r',
         b'1 -1 0 00000000000000000000000000000081']
MIXES = [*fuzz.MIXES, 'islands', 'islands', 'islands']
# without curves of the most points, which the lists by hand have: what was stored before them stays
WEIGHTS = {mix: {k: n for k, n in weights.items() if k != fuzz.FULL} for mix, weights in fuzz.MIXES.items()}


def by_hand(s):
    for lines in [*CASES, RARE, *(lines for lines, *_ in telling.hand_lists())]:
        s.chapter(lines)
    s.clear()


def ticket_lines(rng):
    s = Sheet(rng)
    by_hand(s)
    s.lines += WRONG + LONG + RIGHT
    s.map = after(s.lines)
    for mix in MIXES * 4:
        s.grow(mix, 60)
    s.fill_edges()
    s.fill()
    return s.lines + [b'1']


def sheet_lines(rng):
    s = Sheet(rng)
    for e in manual.examples():
        line = e.ticket.encode()
        s.put(tk.read_ticket(line) or (), line)
    by_hand(s)
    for mix in MIXES:
        s.grow(mix, 50)
    s.chapter(SLUICES)
    s.cancel()
    s.fill_edges()
    return s.lines + [b'0']


def outline_lines(rng):
    s = Sheet(rng)
    s.grow('islands', 150)
    s.nest(80, 500_000)
    return s.lines + [b'1']


def outline(lines):
    """The contents after the lines, as `outline` prints them."""
    words = 'face', 'piece'
    return [f'{"  " * depth}{words[kind]} {number}' for depth, kind, number in contents.contents(after(lines))]


def after(lines):
    for r, v, t, h in tk.answers(lines, level=LEVEL):
        pass
    return pm.decode(t, h, LEVEL)


def store(name, lines, rows=False, end=()):
    """Writes stdin, with no line end after the last line, and stdout, which has some lines more at its end; the answers
    by kind."""
    folder, out, said = ROOT / 'crates' / name, [], []
    for line, (r, v, t, h) in zip(lines, tk.answers(lines, level=LEVEL)):
        out += [f'{r} {v}'] + (tk.dump_lines(t, h, LEVEL) if rows else [])
        numbers = tk.read_ticket(line)
        said.append((numbers[0] if numbers and numbers[0] in NAMES else 0, r))
    (folder / 'stdin').write_bytes(b'\n'.join(lines))
    (folder / 'stdout').write_text('\n'.join([*out, *end]) + '\n')
    return said


def told(name, said):
    """Prints the counts; what is missing."""
    by_kind, by_refusal = Counter(said), Counter(r for _, r in said)
    print(f'{name}: {len(said)} lines, {by_refusal[0]} carried out, {len(said) - by_refusal[0]} refused')
    missing = []
    for kind, shape in SHAPES.items():
        refused = {r: by_kind[kind, r] for r in sorted({r for _, r in by_kind}) if r and by_kind[kind, r]}
        print(f'  kind {kind}: {by_kind[kind, 0]} carried out, {sum(refused.values())} refused', refused)
        wanted = 0, *(r for r, _ in pm.reasons(pm.EMPTY_MAP, ROOM, shape, LEVEL) if r not in (20, 21))
        missing += [f'kind {kind} answered {r}' for r in wanted if not by_kind[kind, r]]
    print('  by refusal:', dict(sorted(by_refusal.items())))
    return missing + [f'refusal {r}' for r in (3, 20) if not by_refusal[r]]


def hold_manual():
    """Ends where an answer or a row of the manual is not the reference's."""
    examples = manual.examples()
    for e, (r, v, t, h) in zip(examples, tk.answers([e.ticket.encode() for e in examples], level=LEVEL)):
        for fault in manual.faults(e, f'{r} {v}', tk.dump_lines(t, h, LEVEL)):
            sys.exit(fault)


def main():
    p = argparse.ArgumentParser(description=__doc__, formatter_class=argparse.RawDescriptionHelpFormatter)
    p.add_argument('--seed', type=int, default=1)
    rng = random.Random(p.parse_args().seed)
    hold_manual()
    missing = told('ticket', store('ticket', ticket_lines(rng)))
    told('sheet', store('sheet', sheet_lines(rng), rows=True))
    lines = outline_lines(rng)
    told('outline', store('outline', lines, end=outline(lines)))
    if missing:
        sys.exit('missing: ' + ', '.join(missing))


if __name__ == '__main__':
    main()
