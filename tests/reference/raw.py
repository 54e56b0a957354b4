#!/usr/bin/env python3
"""Whole calls as text, for tables that no list of tickets grows: one call a line from standard input,

  length and numbers of the node, edge and face table, three counts, three next numbers, from level 9 on the record of
  points, then
  T and the ticket's numbers; L, a face and the length of a list (filled with 77); or C and the record of points under
  which the empty map is created

  raw.py [LEVEL]

Prints `refusal value`, and where carried out ` | ` and tables and head (T, C) or the list (L).
"""

import sys

import plotmap as pm


def parse(text: str) -> tuple:
    """Tables, head, T, L or C, and the numbers behind it."""
    words = text.split()
    cut = next(i for i, w in enumerate(words) if w in 'TLC')
    numbers, letter, rest = list(map(int, words[:cut])), words[cut], tuple(map(int, words[cut + 1:]))
    tables = []
    for _ in range(3):
        n = numbers[0]
        tables.append(tuple(numbers[1:n + 1]))
        numbers = numbers[n + 1:]
    return pm.Tables(*tables), pm.Head(*numbers), letter, rest


def call(text: str, level: int = 0) -> str:
    t, h, letter, rest = parse(text)
    if letter == 'L':
        after, r, v = pm.list_edges_of_face(t, h, rest[0], (77,) * rest[1], level)
    else:
        t, h, r, v = pm.run(t, h, rest, level) if letter == 'T' else pm.make_empty(t, h, level, *rest)
        after = [x for table in (t.nodes, t.edges, t.faces) for x in (len(table), *table)]
        after += pm.head_numbers(h, level)
    return f'{r} {v}' + ('' if r else ' | ' + ' '.join(map(str, after)))


if __name__ == '__main__':
    for line in sys.stdin:
        print(call(line, *map(int, sys.argv[1:2])))
