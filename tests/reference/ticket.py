#!/usr/bin/env python3
"""The ticket program: one ticket a line from standard input; prints refusal and value.

  ticket.py [--cap N E F] [--level N] [--dump] [--check] [--start-next N]

--dump prints, after each answer, the head and the rows in use, whole:
  H counts, next numbers and, from level 9 on, the record of points / N node row / E edge row / F face row
--start-next starts with all three next numbers at N (1 in an empty map).
--check runs the checker of check.py after each carried-out ticket and stops at a fault.
"""

import re
import sys
from dataclasses import replace

import plotmap as pm

LONGEST_LINE = 1_000
NUMBER = re.compile(rb'[+-]?[0-9]+')


def read_ticket(line: bytes):
    """The numbers of a line (without its line end), or None for a line that is wrong."""
    if len(line) > LONGEST_LINE:
        return None
    words = [w for w in re.split(rb'[ \t\r\f]+', line) if w]
    if not all(NUMBER.fullmatch(w) for w in words):
        return None
    numbers = tuple(int(w) for w in words)
    return numbers if all(-2 ** 63 <= n < 2 ** 63 for n in numbers) else None


def dump_lines(t: pm.Tables, h: pm.Head, level: int) -> list:
    def lines(tag, table, width, count):
        return [tag + ''.join(f' {v}' for v in r) for r in pm.rows(table[:count * width], width)]
    return (lines('H', pm.head_numbers(h, level), 7, 1)
            + lines('N', t.nodes, pm.NODE_WIDTH, h.node_count)
            + lines('E', t.edges, pm.EDGE_WIDTH, h.edge_count)
            + lines('F', t.faces, pm.face_width(level), h.face_count))


def blank(cap: tuple, level: int, start_next: int = 1, points: int = pm.MAX_POINTS) -> tuple:
    t = pm.Tables((0,) * (cap[0] * pm.NODE_WIDTH), (0,) * (cap[1] * pm.EDGE_WIDTH),
                  (0,) * (cap[2] * pm.face_width(level)))
    t, h, _, _ = pm.make_empty(t, pm.Head(0, 0, 0, 0, 0, 0), level, points)
    return t, replace(h, next_node=start_next, next_edge=start_next, next_face=start_next)


def answers(lines, cap=(200, 200, 200), level=0, start_next=1, points=pm.MAX_POINTS):
    """For each line: refusal, value, and tables and head after it."""
    t, h = blank(cap, level, start_next, points)
    for line in lines:
        ticket = read_ticket(line)
        if ticket is None:
            yield 3, 0, t, h
        else:
            t, h, r, v = pm.run(t, h, ticket, level)
            yield r, v, t, h


def main(args: list) -> int:
    cap, level, start_next, dump, check = (200, 200, 200), 0, 1, False, False
    while args:
        word = args.pop(0)
        if word == '--cap':
            cap = tuple(int(args.pop(0)) for _ in range(3))
        elif word == '--level':
            level = int(args.pop(0))
        elif word == '--start-next':
            start_next = int(args.pop(0))
        elif word == '--dump':
            dump = True
        elif word == '--check':
            check = True
        else:
            print(__doc__, file=sys.stderr)
            return 2
    lines = (line[:-1] if line.endswith(b'\n') else line for line in sys.stdin.buffer)
    for r, v, t, h in answers(lines, cap, level, start_next):
        print(r, v)
        if dump:
            print('\n'.join(dump_lines(t, h, level)))
        if check and r == 0:
            import check as ck
            faults = ck.faults(pm.decode(t, h, level))
            if faults:
                print('FAULT', *faults)
                return 1
    return 0


if __name__ == '__main__':
    sys.exit(main(sys.argv[1:]))
