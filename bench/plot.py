#!/usr/bin/env python3
"""Draws the time of a ticket by the size of the map from CSV files of bench.rs and others.py.

  plot.py CSV [CSV ...] -o FILE.svg

A point is the mean over the fourteen kinds; an engine that did not carry out or turn down all of them is left out.
Lines that start with # say which versions were timed, a line an engine.
"""

import argparse
import csv
import html
import math
import pathlib

KINDS = [str(kind) for kind in range(1, 15)]
WIDTH, HEIGHT = 860, 500
LEFT, RIGHT, TOP, BOTTOM = 70, 640, 76, 440
SIZES, TIMES = (90, 2200), (0.3, 2000)      # ends of the axes
COLOURS = {'Solgwid': '#1f4e79', 'PostGIS': '#b5472a', 'SpatiaLite': '#2e7d32'}
PASS_COLOUR, PASS = '#6b6b6b', 'one bare pass over the rows'
LABEL_STEP = 16


def read(paths):
    """The rows of all files, and the lines about versions."""
    rows, notes = [], []
    for path in paths:
        lines = pathlib.Path(path).read_text().splitlines()
        notes += [line[1:].strip() for line in lines if line.startswith('#')]
        rows += csv.DictReader(line for line in lines if not line.startswith('#'))
    return rows, notes


def means(rows, engine, setting, column):
    """(edges, mean over the kinds) by size, where every kind has a time."""
    found = {}
    for row in rows:
        if (row['engine'], row['setting']) == (engine, setting) and row['kind'] in KINDS and row[column]:
            found.setdefault(int(row['edges']), []).append(float(row[column]))
    return [(edges, sum(times) / len(times)) for edges, times in sorted(found.items()) if len(times) == len(KINDS)]


def series(rows):
    """The lines to draw: label, colour, whether dashed, points."""
    out = []
    for engine, setting in dict.fromkeys((r['engine'], r['setting']) for r in rows):
        if setting not in ('gaps', 'at the limits'):
            colour = COLOURS[engine.split()[0]]
            for column, dashed in (('carried out', False), ('turned down', True)):
                out.append((f'{engine}, {column}', colour, dashed, means(rows, engine, setting, column)))
    passes = [(int(r['edges']), float(r['carried out'])) for r in rows
              if r['kind'] == 'bare pass' and r['setting'] == 'no gaps']
    out.append((PASS, PASS_COLOUR, False, sorted(passes)))
    return [line for line in out if line[3]]


def along(value, ends, first, last):
    """Where a value stands on a logarithmic axis."""
    low, high = (math.log(end) for end in ends)
    return first + (math.log(value) - low) / (high - low) * (last - first)


def place(point):
    return along(point[0], SIZES, LEFT, RIGHT), along(point[1], TIMES, BOTTOM, TOP)


def text(x, y, words, more=''):
    return f'<text x="{x:.0f}" y="{y:.0f}"{more}>{html.escape(words, quote=False)}</text>'


def axes():
    """Lines and numbers at 1, 2 and 5 times the powers of ten."""
    out = []
    steps = [digit * 10.0 ** power for power in range(-1, 4) for digit in (1, 2, 5)]
    for value in steps:
        strong = '#ccc' if math.log10(value).is_integer() else '#eee'
        if SIZES[0] <= value <= SIZES[1]:
            x, _ = place((value, 1))
            out.append(f'<path d="M{x:.1f} {TOP}V{BOTTOM}" stroke="{strong}"/>')
            out.append(text(x, BOTTOM + 18, f'{value:,.0f}', ' text-anchor="middle"'))
        if TIMES[0] <= value <= TIMES[1]:
            _, y = place((100, value))
            out.append(f'<path d="M{LEFT} {y:.1f}H{RIGHT}" stroke="{strong}"/>')
            out.append(text(LEFT - 8, y + 4, f'{value:,g}', ' text-anchor="end"'))
    out.append(text((LEFT + RIGHT) / 2, BOTTOM + 42, 'edges in the map', ' text-anchor="middle"'))
    middle = (TOP + BOTTOM) / 2
    out.append(text(18, middle, 'microseconds a ticket, mean over fourteen kinds',
                    f' text-anchor="middle"\n transform="rotate(-90 18 {middle:.0f})"'))
    return out


def drawn(line):
    """A line with its points marked: full ones for carried out, open ones for turned down."""
    _, colour, dashed, points = line
    places = [place(p) for p in points]
    data = 'M' + 'L'.join(f'{x:.1f} {y:.1f}' for x, y in places)
    dash = ' stroke-dasharray="6 4"' if dashed else ''
    out = [f'<path d="{data}" fill="none"\n stroke="{colour}" stroke-width="2"{dash}/>']
    fill = '#fff' if dashed else colour
    return out + [f'<circle cx="{x:.1f}" cy="{y:.1f}" r="3.5" fill="{fill}" stroke="{colour}" stroke-width="1.5"/>'
                  for x, y in places]


def apart(heights):
    """The heights, rising, moved as little as keeps labels apart."""
    out = list(heights)
    for _ in range(200):
        for i in range(len(out) - 1):
            short = LABEL_STEP - (out[i + 1] - out[i])
            if short > 0:
                out[i], out[i + 1] = out[i] - short / 2, out[i + 1] + short / 2
    return out


def labels(lines):
    """The name of each line beside its last point."""
    ends = sorted((place(points[-1])[::-1], name, colour) for name, colour, _, points in lines)
    out = []
    for ((y, x), name, colour), at in zip(ends, apart([y for (y, _), _, _ in ends])):
        out.append(f'<path d="M{x + 6:.1f} {y:.1f}L{RIGHT + 12} {at:.1f}" stroke="{colour}" stroke-width="0.7"/>')
        out.append(text(RIGHT + 16, at + 4, name, f' fill="{colour}"'))
    return out


def plot(rows, notes):
    lines = series(rows)
    versions = '; '.join(note.split(',')[0] for note in notes)
    out = [f'<svg xmlns="http://www.w3.org/2000/svg" viewBox="0 0 {WIDTH} {HEIGHT}" width="{WIDTH}" '
           f'height="{HEIGHT}"\n font-family="sans-serif" font-size="12">',
           f'<rect width="{WIDTH}" height="{HEIGHT}" fill="#fff"/>',
           text(LEFT, 30, 'Time of a ticket by size of the map', ' font-size="18"'),
           text(LEFT, 52, versions, ' fill="#555"'), *axes()]
    for line in lines:
        out += drawn(line)
    return '\n'.join([*out, *labels(lines), '</svg>', ''])


def main():
    parser = argparse.ArgumentParser(description=__doc__, formatter_class=argparse.RawDescriptionHelpFormatter)
    parser.add_argument('csv', nargs='+', metavar='CSV')
    parser.add_argument('-o', dest='out', required=True, metavar='FILE')
    asked = parser.parse_args()
    pathlib.Path(asked.out).write_text(plot(*read(asked.csv)))


if __name__ == '__main__':
    main()
