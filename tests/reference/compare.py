"""Random lists of tickets, and what a program says of them held against the reference.

The program reads one ticket a line from standard input, has 200 rows a table, and prints refusal and value a line.
With `rows` it also prints, after each answer, the head and the rows in use as `ticket.py --dump` does: compare so
wherever you can, since a wrong link shows in no answer.
"""

import random
import subprocess

import fuzz
import islands
import plotmap as pm
import ticket as tk

CAP = (200, 200, 200)


def make(seed, size, mix='all', level=0, points=pm.MAX_POINTS):
    """A list of so many tickets for a map under a record of points; mixes are those of fuzz.py, `islands`, or `all`."""
    rng = random.Random(seed)
    grid = (0, 0, rng.choice([4, 6, 8, 12, 20, 60, 1000, pm.MAX_COORDINATE + 1]))
    mix = rng.choice([*fuzz.MIXES, 'islands', 'islands']) if mix == 'all' else mix
    t, h = tk.blank(CAP, level, points=points)
    m, s, out = pm.decode(t, h, level), pm.Sizes(*CAP), []
    world = islands.World(rng) if mix == 'islands' else None
    for _ in range(size):
        k = islands.ticket(rng, m, world) if world else fuzz.make_ticket(rng, m, grid, fuzz.MIXES[mix])
        out.append(k)
        if pm.shape_ok(k) and pm.first_reason(pm.reasons(m, s, k, level)) == 0:
            m = pm.apply(m, k, level)[0]
    return [' '.join(map(str, k)) for k in out]


def expected(lines, level, rows):
    return [[f'{r} {v}'] + (tk.dump_lines(t, h, level) if rows else [])
            for r, v, t, h in tk.answers([x.encode() for x in lines], CAP, level)]


def said(program, lines):
    r = subprocess.run([program], input=''.join(x + '\n' for x in lines), capture_output=True, text=True)
    out = []
    for line in r.stdout.splitlines():
        if line[:1] not in ('H', 'N', 'E', 'F') or not out:
            out.append([])
        out[-1].append(line)
    return out + ([[f'exit status {r.returncode}']] if r.returncode else [])


def difference(program, lines, level, rows):
    a, b = expected(lines, level, rows), said(program, lines)
    for i in range(max(len(a), len(b))):
        x, y = (v[i] if i < len(v) else ['nothing'] for v in (a, b))
        if x != y:
            return i, x, y
    return None


def shortest(program, lines, level, rows):
    i = 0
    while i < len(lines):
        less = lines[:i] + lines[i + 1:]
        d = difference(program, less, level, rows)
        if d:
            lines = less[:d[0] + 1]
        else:
            i += 1
    return lines
