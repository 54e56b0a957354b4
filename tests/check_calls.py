#!/usr/bin/env python3
"""The static library held against the reference: whole calls on tables that no list of tickets grows, whole lists in
one call, other rectangles, maps created, and contents of sheets.

  check_calls.py [CALLS] [LISTS] [MAPS] [CREATED] [SHEETS] [--seed S]

Needs crates/solgwid/out/libsolgwid.a (`rt lib` in crates/solgwid) and a C compiler. The tables are grown maps, for 6
points or 12, that are distorted (links off the law, faces at will, crossing curves, nodes on one point), spoiled, or
have another record of points. Each list in one call is run a second time with tables not whole, another record or too
little room for the answers. Of each of the MAPS, all in form, every face table is tried that
tests/reference/rectangles.py spoils. The maps are created in tables that hold anything, whole or not, under right
records and others. The contents are those of grown sheets, of sheets whose rings and lone nodes bear other faces, and
of the tables of the whole calls, in lists too short, just long enough and longer. Tables, head, list, refusal and value
after the call must be the reference's, in refusals too.
"""

import argparse
import ctypes
import itertools
import random
import subprocess
import sys
from collections import Counter
from dataclasses import astuple

from comparison import counted, seeds, tally
from repository import LEVEL, ROOT, static_library     # finds the reference

import compare
import contents
import fuzz_tables as ft
import plotmap as pm
import raw
import raw_gen
import rectangles
import telling
from computed.contents import by_hand, some

LEAST, MOST = -2 ** 63, 2 ** 63 - 1
GUARDS = (-5, 55, -555)
FUNCTIONS = ('empty_map', 'ticket', 'edges_of_face', 'contents', 'run')
WIDTHS = pm.NODE_WIDTH, pm.EDGE_WIDTH, pm.face_width(LEVEL)
LIMITS = pm.MAX_NODES, pm.MAX_EDGES, pm.MAX_FACES


def library():
    """The static library, linked into a shared one that Python can load."""
    archive, shared = static_library(), ROOT / 'target/solgwid.so'
    shared.parent.mkdir(exist_ok=True)
    whole = ['-Wl,--whole-archive', archive, '-Wl,--no-whole-archive']
    subprocess.run(['cc', '-shared', '-o', shared, *whole], check=True)
    lib = ctypes.CDLL(str(shared))
    for name in FUNCTIONS:
        getattr(lib, f'solgwid_{name}').restype = ctypes.c_uint64
    return lib


def cells(numbers, kind=ctypes.c_int64):
    return (kind * max(1, len(numbers)))(*numbers)


def slice_of(buffer, length):
    return buffer, ctypes.c_size_t(length)


class Lent:
    """Tables and head in memory of their own."""

    def __init__(self, tables, head):
        self.sizes = [len(t) for t in tables]
        self.tables = [cells(t) for t in tables]
        self.head = cells(head)

    def words(self):
        return [w for t, n in zip(self.tables, self.sizes) for w in slice_of(t, n)] + [self.head]

    def now(self):
        return [list(t)[:n] for t, n in zip(self.tables, self.sizes)], list(self.head)


def listed(t, h):
    """Tables and head as lists."""
    return [list(x) for x in astuple(t)], list(pm.head_numbers(h, LEVEL))


def ticket_differs(lib, t, h, ticket):
    """Whether the call differs, and the reference's refusal."""
    lent, value = Lent(*listed(t, h)), ctypes.c_int64(99)
    refusal = lib.solgwid_ticket(*lent.words(), *slice_of(cells(ticket), len(ticket)), ctypes.byref(value))
    *after, r, v = pm.run(t, h, ticket, LEVEL)
    return (*lent.now(), refusal, value.value) != (*listed(*after), r, v), r


def list_differs(lib, t, h, face, length):
    """The same for the edges of a face; the list holds 77 before."""
    lent, value, before = Lent(*listed(t, h)), ctypes.c_int64(99), (77,) * length
    space = cells(before)
    refusal = lib.solgwid_edges_of_face(*lent.words(), ctypes.c_int64(face), *slice_of(space, length),
                                        ctypes.byref(value))
    after, r, v = pm.list_edges_of_face(t, h, face, before, LEVEL)
    return (*lent.now(), tuple(space)[:length], refusal, value.value) != (*listed(t, h), after, r, v), r


def call_contents(lib, t, h, before):
    """List, refusal and value after a call for the contents; the list before it is given, and has guards behind it. The
    list is none where the call changed a guard, a table or the head."""
    lent, value, space = Lent(*listed(t, h)), ctypes.c_int64(99), cells((*before, *GUARDS))
    refusal = lib.solgwid_contents(*lent.words(), *slice_of(space, len(before)), ctypes.byref(value))
    same = (lent.now(), tuple(space)[len(before):]) == (listed(t, h), GUARDS)
    return tuple(space)[:len(before)] if same else None, refusal, value.value


def contents_differ(lib, t, h, before):
    """Whether such a call differs, and the reference's refusal."""
    expected = contents.list_contents(t, h, before, LEVEL)
    return call_contents(lib, t, h, before) != expected, expected[1]


def creation_differs(lib, t, h, points):
    """The same for the empty map created."""
    lent = Lent(*listed(t, h))
    refusal = lib.solgwid_empty_map(*lent.words(), ctypes.c_int64(points))
    *after, r, _ = pm.make_empty(t, h, LEVEL, points)
    return (*lent.now(), refusal) != (*listed(*after), r), r


def differs(lib, t, h, letter, numbers):
    """The same for a call of tests/reference/raw.py."""
    if letter == 'T':
        return ticket_differs(lib, t, h, numbers)
    return (list_differs if letter == 'L' else creation_differs)(lib, t, h, *numbers)


def fits(t, h, numbers):
    return all(LEAST <= n <= MOST for row in (*astuple(t), astuple(h), numbers) for n in row)


def calls(lib, seed):
    """Whole calls, also by what they answer: T a ticket, L a list of a face's edges, C a map created. Those by hand
    come first."""
    by_chance = itertools.chain.from_iterable(raw_gen.calls(1, s, LEVEL) for s in seeds(seed))
    for text in itertools.chain(telling.hand(), by_chance):
        t, h, letter, numbers = raw.parse(text)
        if fits(t, h, numbers):
            wrong, r = differs(lib, t, h, letter, numbers)
            yield {'whole calls': 1, (letter, r): 1}, [text[:2000]] * wrong


def run_expected(t, h, points, tickets, refusals, values):
    """Tables, head, answers and the call's refusal after a list of tickets in one call, by the reference."""
    *empty, r, _ = pm.make_empty(t, h, LEVEL, points)
    r = r or (20 if min(len(refusals), len(values)) < len(tickets) else 0)
    if r:
        return *listed(t, h), refusals, values, r
    t, h = empty
    for i, k in enumerate(tickets):
        t, h, refusals[i], values[i] = pm.run(t, h, k, LEVEL)
    return *listed(t, h), refusals, values, 0


def run_differs(lib, t, h, points, tickets, rooms):
    """Whether a list of tickets in one call differs, with room for so many refusals and values, and its refusal."""
    lent, answers = Lent(*listed(t, h)), [[88] * rooms[0], [-88] * rooms[1]]
    numbers, lengths = [n for k in tickets for n in k], [len(k) for k in tickets]
    refusals, values = cells(answers[0], ctypes.c_uint64), cells(answers[1])
    refusal = lib.solgwid_run(*lent.words(), ctypes.c_int64(points), *slice_of(cells(numbers), len(numbers)),
                              *slice_of(cells(lengths, ctypes.c_size_t), len(lengths)),
                              *slice_of(refusals, rooms[0]), *slice_of(values, rooms[1]))
    said = list(refusals)[:rooms[0]], list(values)[:rooms[1]]
    *expected, r = run_expected(t, h, points, tickets, *answers)
    return (*lent.now(), *said, refusal) != (*expected, r), r


def used(rng, lengths):
    """Tables of so many numbers, and a head, that hold anything."""
    some = lambda n: tuple(rng.choices((0, 0, 1, 2, 6, 12, -1, -9, LEAST, MOST), k=n))
    return pm.Tables(*map(some, lengths)), pm.Head(*some(7))


def whole(rng):
    """The lengths of tables of some rows."""
    return [rng.choice((1, 3, 8, 40, 200)) * w for w in WIDTHS]


def not_whole(rng):
    """One of them is off by a number, none, or at the limit or a row above it: most are not whole, or above."""
    lengths, i = whole(rng), rng.randrange(3)
    lengths[i] = rng.choice((0, lengths[i] - 1, lengths[i] + 1, WIDTHS[i] * LIMITS[i], WIDTHS[i] * (LIMITS[i] + 1)))
    return lengths


def lists(lib, seed):
    """Each list as it is, and turned down for one of 1, 2 and 20 or for several of them: R by what it answers."""
    for s in seeds(seed):
        rng = random.Random(s)
        points = rng.choice(pm.POINT_RECORDS)
        lines = compare.make(s, rng.randint(0, 60), level=LEVEL, points=points)
        tickets = [tuple(map(int, x.split())) for x in lines]
        n = len(tickets)
        wrong, _ = run_differs(lib, *used(rng, whole(rng)), points, tickets,
                               [n + rng.randint(0, 2) for _ in range(2)])
        faults = rng.choice(((1,), (2,), (20,), (1, 2), (1, 20), (2, 20), (1, 2, 20)))
        short = [n, max(0, n - rng.choice((1, 2, n)))] if 20 in faults else [n, n]
        bad, r = run_differs(lib, *used(rng, (not_whole if 1 in faults else whole)(rng)),
                             rng.choice(ft.RECORDS[2:]) if 2 in faults else points, tickets, rng.sample(short, 2))
        yield ({'lists in one call': 1, 'lists turned down': r != 0, ('R', r): 1},
               [f'{points} points, in one call: {"; ".join(lines)}'] * wrong + [f'seed {s}, turned down'] * bad)


def creations(lib, seed):
    """The empty map in tables that hold anything, under any record, also by what is answered."""
    for s in seeds(seed):
        rng = random.Random(s)
        lengths = (not_whole if rng.random() < 0.3 else whole)(rng)
        points = rng.choice(ft.RECORDS + 3 * pm.POINT_RECORDS)
        wrong, r = creation_differs(lib, *used(rng, lengths), points)
        yield {'maps created': 1, ('C', r): 1}, [f'seed {s}, created for {points} points in {lengths}'] * wrong


def sheets(lib, seed):
    """Contents by hand, then of sheets grown and reborne and of the tables of a whole call, also by what is answered:
    O."""
    of_calls = (raw.parse(text)[:2] for s in seeds(seed) for text in raw_gen.calls(1, s, LEVEL))
    by_chance = itertools.chain.from_iterable(
        (some(random.Random(s)), (*next(of_calls), (77,) * (s % 40))) for s in seeds(seed))
    for t, h, before in itertools.chain(by_hand(), by_chance):
        if fits(t, h, ()):
            wrong, r = contents_differ(lib, t, h, before)
            yield {'contents': 1, ('O', r): 1}, [f'{t} {h} {len(before)}'[:2000]] * wrong


def map_in_form(rng):
    """Tables of a map, mostly distorted, that are in form, and a ticket for it."""
    while True:
        grid = (0, 0, rng.choice([4, 6, 9, pm.MAX_COORDINATE + 1]))
        m = raw_gen.distorted(rng, raw_gen.grown(rng, grid, LEVEL), grid, LEVEL)
        s = pm.Sizes(*(len(r) + rng.randint(0, 2) for r in (m.nodes, m.edges, m.faces)))
        t, h = pm.encode(m, s, LEVEL)
        if pm.in_form(t, h, LEVEL):
            return t, h, raw_gen.ticket(rng, m, s, grid, LEVEL)


def face_tables(lib, seed):
    """Every spoiled face table of a map, with a ticket and with a list of the edges of face 0."""
    for s in seeds(seed):
        t, h, ticket = map_in_form(random.Random(s))
        tables = rectangles.spoiled(t, h, LEVEL) if fits(t, h, ticket) else []
        differing = [x.faces[:200] for x in tables
                     if ticket_differs(lib, x, h, ticket)[0] or list_differs(lib, x, h, 0, 9)[0]]
        yield {'spoiled face tables': len(tables)}, [f'seed {s}, ticket {ticket}: {faces}' for faces in differing]


def main():
    p = argparse.ArgumentParser(description=__doc__, formatter_class=argparse.RawDescriptionHelpFormatter)
    p.add_argument('calls', nargs='?', type=int, default=2000)
    p.add_argument('lists', nargs='?', type=int, default=300)
    p.add_argument('maps', nargs='?', type=int, default=100)
    p.add_argument('created', nargs='?', type=int, default=1000)
    p.add_argument('sheets', nargs='?', type=int, default=1000)
    p.add_argument('--seed', type=int, default=1)
    a = p.parse_args()
    lib, answers, said, differences = library(), Counter(), [], 0
    for part, count, *names in ((calls, a.calls, 'whole calls'),
                                (lists, a.lists, 'lists in one call', 'lists turned down'),
                                (face_tables, a.maps, 'spoiled face tables'), (creations, a.created, 'maps created'),
                                (sheets, a.sheets, 'contents')):
        counts, wrong = tally(itertools.islice(part(lib, a.seed), count))
        answers.update({k: n for k, n in counts.items() if isinstance(k, tuple)})
        said.append(f'{counted(counts, *names)}, {wrong} differences')
        differences += wrong
    print('; '.join(said))
    print('answers:', ', '.join(f'{letter}{r}: {n}' for (letter, r), n in sorted(answers.items())))
    return 1 if differences else 0


if __name__ == '__main__':
    sys.exit(main())
