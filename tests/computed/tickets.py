"""Lists of tickets from the empty map, under either record of points, and whole calls on tables not grown: crates/map
against plotmap.py.

The pieces and the link law are held against it too, and the empty map on the tables of calls, under any record.
"""

import random

import compare
import fuzz_tables as ft
import plotmap as pm
import raw as calls
import raw_gen
import telling
import ticket as tk

from repository import LEVEL

from . import antt
from .scratch import Case, Claim

CRATES = ('map',)
HEADER = """use Rattle.map.specs.Limits.{SixPoints, TwelvePoints}
use Rattle.map.specs.Rows.{Lent, map_of}
use Rattle.map.specs.Darts.{piece_count}
use Rattle.map.specs.Links.{obeys_law}
use Rattle.map.specs.Ticket.{Outcome, Listed, ticket, emptied, edges_of_face}
use Rattle.map.specs.Grow.{Grown, grow}

abbrev told : Lent → ℕ × Bool
told l = (piece_count (map_of l), obeys_law (map_of l))
"""
REFUSALS = ()


def told(t, h):
    """The pieces of the map in these tables, and whether its links obey the law."""
    m = pm.decode(t, h, LEVEL)
    return Claim(f'told ({antt.sheet(t, h)})', f'({pm.piece_count(m)}, {antt.truth(pm.lawful(m))})', 'ℕ × Bool')


def grown(lines, room, points):
    cap = (room,) * 3
    t, h = tk.blank(cap, LEVEL, points=points)
    said = []
    for r, v, t, h in tk.answers([l.encode() for l in lines], cap, LEVEL, points=points):
        said.append((r, v))
    tickets = [tuple(map(int, l.split())) for l in lines]
    left = f'grow ({antt.sizes(room, points)}) ({antt.runs(tickets)})'
    right = antt.record(lent=antt.sheet(t, h), answers=antt.listed(antt.answer(*a) for a in said))
    return Case('list', f'{points} points\n  ' + '\n  '.join(lines), (Claim(left, right, 'Grown'), told(t, h)),
                tuple((k[0] if k else 0, r) for k, (r, _) in zip(tickets, said)))


def outcome(t, h, r, v):
    return antt.outcome(antt.sheet(t, h), r, v)


def created(t, h, points):
    left = f'emptied ({antt.sheet(t, h)}) ({antt.z(points)})'
    return Claim(left, outcome(*pm.make_empty(t, h, LEVEL, points)), 'Outcome')


def call(text):
    t, h, letter, rest = calls.parse(text)
    lent = antt.sheet(t, h)
    if letter == 'C':
        return Case('call', text, (created(t, h, *rest),), (('created', pm.make_empty(t, h, LEVEL, *rest)[2]),))
    if letter == 'L':
        out = (77,) * rest[1]
        after, r, v = pm.list_edges_of_face(t, h, rest[0], out, LEVEL)
        left = f'edges_of_face ({lent}) ({antt.z(rest[0])}) ({antt.zs(out)})'
        claim = Claim(left, antt.written(after, r, v), 'Listed')
        return Case('call', text, (claim,), (('edges of a face', r),))
    t2, h2, r, v = pm.run(t, h, rest, LEVEL)
    claims = (Claim(f'ticket ({lent}) ({antt.zs(rest)})', outcome(t2, h2, r, v), 'Outcome'),
              created(t, h, random.Random(text).choice(ft.RECORDS)))
    return Case('call', text, claims + (() if r in (1, 2) else (told(t, h),)), ((rest[0] if rest else 0, r),))


def cases(count, seed, size=20, mix='all', room=0):
    """Ticket lists, in tables of four sizes or of one, under the two records by turns."""
    def made(i):
        points = pm.POINT_RECORDS[i // 4 % 2]
        return grown(compare.make(seed + i, size, mix, LEVEL, points), room or (3, 5, 9, 20)[i % 4], points)
    return [made(i) for i in range(count)]


def raw(count, seed):
    """Calls on tables not grown."""
    return [call(text) for text in [*raw_gen.calls(count // 5 + 1, seed, LEVEL)][:count]]


def tell(seconds, seed):
    """Lists and calls that tell slips (telling.py)."""
    lists, calls, never, seldom = telling.pick(seed, seconds)
    print(f'{len(telling.SLIPS)} slips; told by nothing found: {never}; by one: {seldom}', flush=True)
    return [grown(*l) for l in lists] + [call(c) for c in calls]
