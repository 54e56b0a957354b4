#!/usr/bin/env python3
"""Writes the pictures under docs/ from lists of tickets; what they show is worked out by the reference.

  generate_pictures.py [NAME ...]    of directions, edge, links, meadow, meetings, rectangles, rings, sides, square,
                                     surplus; all if none is named
"""

import cmath
import html
import math
import sys
import textwrap

from repository import LEVEL, ROOT     # finds the reference

import check
import plotmap as pm
import ticket as tk

SQUARE = [
    ('1 -1 0 0', 'node 1 at (0,0), in face 0'),
    ('12 1 1 0 0 10 0 10 10 0 10 0 0', 'edge 1, a loop:', 'the plot inside is face 1'),
    ('8 1 10 10', 'the loop is split at (10,10):', 'node 2, and edge 2 from there on'),
    ('12 1 2 0 0 10 10', 'edge 3, a boundary across the plot:', 'face 2 on its left, face 1 on its right'),
    ('9 1 2', 'turned down: each node they share', 'has three edge ends; nothing changed'),
    ('13 3', 'the boundary goes: faces 1 and 2', 'become the new face 3'),
]

MEADOW = (ROOT / 'examples/meadow.txt').read_text().splitlines()


# --- the page: its points are complex numbers, x to the right and y down ---------------------------------------------

OUTSIDE_FILL, OUTSIDE_COLOUR = '#f6f4ee', '#6b6b6b'      # of face 0
FACE_FILLS = ('#fdf0c4', '#dcebf7', '#e3f2d9', '#f9e0d6', '#ece2f4', '#dff3ef', '#f0ecd8', '#fbe4ee')
RING_COLOURS = ('#b26a00', '#0b6fb8', '#2e7d32', '#b0452b', '#7a3fa0', '#00796b', '#8a6d3b', '#c2185b')

STYLE = """
text { font-family: sans-serif; fill: #222; text-anchor: middle }
.start { text-anchor: start }
.end { text-anchor: end }
.edge { fill: none; stroke: #1f4e79; stroke-width: 2; stroke-linejoin: round }
.directed { fill: none; stroke: #1f4e79; stroke-width: 1.5 }
.edge-tip { fill: #1f4e79 }
.edge-number { font-size: 13px; fill: #1f4e79; font-weight: bold }
.link { fill: none; stroke: #b5472a; stroke-width: 1.8 }
.link-tip { fill: #b5472a }
.link-note { font-size: 13px; fill: #b5472a }
.node { fill: #111; stroke: #111; stroke-width: 1.5 }
.isolated { fill: #fff; stroke: #111; stroke-width: 1.5 }
.node-number { font-size: 13px; font-weight: bold; fill: #111 }
.face-number { font-size: 17px; font-style: italic; fill: #2e7d32 }
.tight { font-size: 14px }
.class-number { font-size: 17px; font-weight: bold; fill: #1f4e79 }
.piece { font-size: 13px; font-weight: bold; fill: #7a3fa0 }
.ticket { font-family: monospace; font-size: 12px }
.note { font-size: 13px }
.small { font-size: 11px; fill: #555 }
.grid { stroke: #e4e4e4; stroke-width: 0.6 }
.tens { stroke: #bdbdbd; stroke-width: 0.8 }
.mark { fill: #f6c9c2 }
.ring { fill: none; stroke-width: 1.8; stroke-dasharray: 5 3 }
.turn { fill: none; stroke: #555; stroke-width: 1.5; stroke-dasharray: 3 2 }
.turn-tip { fill: #555 }
.answer { font-weight: bold }
.refused { fill: #a32020 }
"""


def unit(v):
    return v / abs(v)


def left_of(way):
    return way * -1j


def trimmed(number):
    return f'{number:.1f}'.removesuffix('.0')


def spot(p):
    return f'{trimmed(p.real)} {trimmed(p.imag)}'


class Page:
    """Parts of an SVG file."""

    def __init__(self, width, height):
        self.size, self.parts = (width, height), []

    def put(self, part):
        self.parts.append(part)

    def box(self, at, width, height):
        """A part of face 0."""
        self.put(f'<rect x="{trimmed(at.real)}" y="{trimmed(at.imag)}" width="{width}" height="{height}" rx="6" '
                 f'fill="{OUTSIDE_FILL}"/>')

    def text(self, at, words, style):
        self.put(f'<text x="{trimmed(at.real)}" y="{trimmed(at.imag)}" class="{style}">'
                 f'{html.escape(str(words), quote=False)}</text>')

    def label(self, at, words, style):
        """Text with its middle at the point."""
        self.text(at + 4.6j, words, style)

    def path(self, data, style, more=''):
        self.put(textwrap.fill(f'<path d="{data}" class="{style}"{more}/>', 120, break_on_hyphens=False))

    def line(self, points, style):
        self.path('M' + 'L'.join(map(spot, points)), style)

    def area(self, points, fill):
        self.put(f'<path d="M{"L".join(map(spot, points))}Z" fill="{fill}"/>')

    def disc(self, at, radius, style):
        self.put(f'<circle cx="{trimmed(at.real)}" cy="{trimmed(at.imag)}" r="{trimmed(radius)}" class="{style}"/>')

    def tip(self, at, way, size, style, more=''):
        """The head of an arrow that ends at the point."""
        back, wide = at - way * size, left_of(way) * size * 0.45
        self.path(f'M{spot(at)}L{spot(back + wide)}L{spot(back - wide)}Z', style, more)

    def save(self, name, style=''):
        width, height = self.size
        head = (f'<svg xmlns="http://www.w3.org/2000/svg" viewBox="0 0 {width} {height}" width="{width}" '
                f'height="{height}">\n<style>{STYLE}{style}</style>\n'
                f'<rect width="{width}" height="{height}" fill="#fff"/>\n')
        (ROOT / 'docs' / f'{name}.svg').write_text(head + '\n'.join(self.parts) + '\n</svg>\n')


def turn(a, b):
    """The angle from one way to another, clockwise; a whole turn where they are the same."""
    angle = cmath.phase(b / a) % (2 * math.pi)
    return angle if 1e-9 < angle < 2 * math.pi - 1e-9 else 2 * math.pi


def corner(at, into, out, gap, rounding):
    """The part of a path on the left of a line that comes to the point by one way and leaves it by the other."""
    angle = turn(-into, out)
    if angle >= math.pi:
        first, last = at + left_of(into) * gap, at + left_of(out) * gap
        return f'L{spot(first)}A{gap} {gap} 0 0 1 {spot(last)}'
    inner = at - into * cmath.rect(gap / math.sin(angle / 2), angle / 2)
    return f'L{spot(inner - into * rounding)}Q{spot(inner)} {spot(inner + out * rounding)}'


def beside(points, gap, rounding):
    """A path on the left of the line through the points."""
    ways = [unit(b - a) for a, b in zip(points, points[1:])]
    corners = [corner(p, into, out, gap, rounding) for p, into, out in zip(points[1:], ways, ways[1:])]
    first, last = points[0] + left_of(ways[0]) * gap, points[-1] + left_of(ways[-1]) * gap
    return f"M{spot(first)}{''.join(corners)}L{spot(last)}"


def distance(p, a, b):
    """From a point to a segment."""
    along = ((p - a) * (b - a).conjugate()).real / abs(b - a) ** 2 if a != b else 0
    return abs(p - a - (b - a) * min(max(along, 0), 1))


def room(p, segments):
    """From a point to the nearest of the segments."""
    return min((distance(p, *s) for s in segments), default=math.inf)


# --- the map on the page ---------------------------------------------------------------------------------------------

def grown(tickets):
    """The map after the tickets, and the answer to the last."""
    *_, (refusal, value, tables, head) = tk.answers((t.encode() for t in tickets), level=LEVEL)
    return pm.decode(tables, head, LEVEL), (refusal, value)


class View:
    """Where the sheet lies on the page and how large, and how far off numbers stand."""

    def __init__(self, m, origin, scale, node_gap=15, edge_gap=13, segments=None):
        self.m, self.origin, self.scale = m, origin, scale
        self.node_gap, self.edge_gap, self.segments = node_gap, edge_gap, segments or {}

    def at(self, x, y):
        return self.origin + complex(x, -y) * self.scale

    def line(self, points):
        return [self.at(*p) for p in points]

    def course(self, d):
        return self.line(pm.course(self.m, d))

    def node(self, n):
        return self.at(*pm.place(self.m, n))

    def ways(self, n):
        """The ways of the departures from a node, clockwise."""
        courses = [self.course(d) for d in pm.departures(self.m, n)]
        return sorted((unit(c[1] - c[0]) for c in courses), key=cmath.phase)

    def segment(self, e):
        """The segment that bears the edge's number: the one named, else the longest."""
        points = self.course(e)
        pairs = list(zip(points, points[1:]))
        if e in self.segments:
            return pairs[self.segments[e]]
        return max(pairs, key=lambda s: round(abs(s[1] - s[0]), 3))

    def edge_label(self, e):
        """The first place with room: right of the edge, left of it, or further off; else the one with most."""
        a, b = self.segment(e)
        other = [s for s in self.drawn_segments() if s != (a, b)]
        places = [(a + b) / 2 + left_of(unit(b - a)) * gap * self.edge_gap for gap in (-1, 1, -2, 2)]
        roomy = (p for p in places if room(p, other) > 0.95 * self.edge_gap)
        return next(roomy, max(places, key=lambda p: room(p, other)))

    def drawn_segments(self):
        courses = (self.course(e.number) for e in self.m.edges)
        return [s for c in courses for s in zip(c, c[1:])]

    def node_label(self, n):
        return self.node(n) + widest_gap(self.ways(n)) * self.node_gap

    def walk(self, ring):
        """The points of a ring, from the middle of its first segment round to there again."""
        points = [p for d in ring for p in self.course(d)[:-1]]
        middle = (points[0] + points[1]) / 2
        return [middle, *points[1:], points[0], middle]


def widest_gap(ways):
    """The way between two neighbouring departures that are furthest apart; to the upper right where there is none."""
    if not ways:
        return unit(1 - 1j)
    turns = [turn(a, b) for a, b in zip(ways, ways[1:] + ways[:1])]
    i = max(range(len(ways)), key=lambda i: round(turns[i], 6))
    return ways[i] * cmath.rect(1, turns[i] / 2)


def draw_faces(page, view):
    """Every face but face 0 filled: the larger first, so that an island lies on the face around it."""
    rings = [(pm.ring_area2(view.m, r), r) for r in pm.rings(view.m)]
    for _, ring in sorted((r for r in rings if r[0] > 0), reverse=True):
        face = pm.borne(view.m, ring[0])
        page.area([p for d in ring for p in view.course(d)[:-1]], FACE_FILLS[(face - 1) % len(FACE_FILLS)])


def draw_edge(page, view, e, numbers=True, tip=10, style='edge'):
    page.line(view.course(e), style)
    a, b = view.segment(e)
    page.tip((a + b) / 2 + unit(b - a) * tip / 2, unit(b - a), tip, 'edge-tip')
    if numbers:
        page.label(view.edge_label(e), e, 'edge-number')


def draw_edges(page, view, numbers=True, tip=10):
    for e in view.m.edges:
        draw_edge(page, view, e.number, numbers, tip)


def draw_nodes(page, view, radius=4.5):
    for n in view.m.nodes:
        page.disc(view.node(n.number), radius, 'node' if n.face < 0 else 'isolated')
        page.label(view.node_label(n.number), n.number, 'node-number')


def draw_link(page, view, d, gap=9, reach=26):
    """From the end of the directed edge to the start of the one that follows, on the left of both."""
    into, out = view.course(d), view.course(pm.follower(view.m, d))
    node, way_in, way_out = into[-1], unit(into[-1] - into[-2]), unit(out[1] - out[0])
    angle = turn(-way_in, way_out)
    reach += gap / math.tan(angle / 2) if angle < math.pi else gap
    first = node - way_in * min(reach, 0.45 * abs(into[-1] - into[-2]))
    last = node + way_out * min(reach, 0.45 * abs(out[1] - out[0]))
    page.disc(first + left_of(way_in) * gap, 2.2, 'link-tip')
    page.path(beside([first, node, last - way_out * 6], gap, 14), 'link')
    page.tip(last + left_of(way_out) * gap, way_out, 9, 'link-tip')


def draw_links(page, view):
    for d in pm.directed_edges(view.m):
        draw_link(page, view, d)


def face_label(view, face, corners, taken):
    """The place in the face furthest from edges, from places taken and from the border of the part shown."""
    (left, low), (right, high) = corners
    segments = view.drawn_segments() + [(p, p) for p in taken]
    best, steps = (0, None), 4
    for i in range(left * steps + 1, right * steps):
        for j in range(low * steps + 1, high * steps):
            x, y = i / steps, j / steps
            if pm.face_of_point(view.m, (x, y)) == face:
                border = min(x - left, right - x, y - low, high - y) * view.scale
                free = round(min(border, room(view.at(x, y), segments)), 1)
                best = max(best, (free, view.at(x, y)), key=lambda b: b[0])
    return best[1]


def draw_face_numbers(page, view, corners, fixed, taken=(), style='face-number'):
    """Numbers of the faces, at the places given or where there is room."""
    m = view.m
    taken = [*taken, *(view.edge_label(e.number) for e in m.edges)]
    taken += [p for n in m.nodes for p in (view.node(n.number), view.node_label(n.number))]
    for face in m.faces:
        at = view.at(*fixed[face]) if face in fixed else face_label(view, face, corners, taken)
        page.label(at, face, style)


# --- docs/square.svg -------------------------------------------------------------------------------------------------

PANEL_WIDTH, PANEL_HEIGHT = 296, 330


def ticket_line(page, at, ticket, answer):
    words = f'{ticket} → '
    refused = ' refused' if answer[0] else ''
    page.put(f'<text x="{trimmed(at.real)}" y="{trimmed(at.imag)}" class="ticket">'
             f'{words}<tspan class="answer{refused}">{answer[0]} {answer[1]}</tspan></text>')


def mark_edge_ends(page, view):
    """The nodes that cannot be healed away: more than two edges end there."""
    for n in view.m.nodes:
        ends = pm.edge_ends(view.m, n.number)
        if ends > 2:
            at, side = view.node(n.number), widest_gap(view.ways(n.number))
            page.disc(at, 30, 'mark')
            page.label(at + side.real * 20 + math.copysign(40, side.imag) * 1j, f'{ends} edge ends', 'small refused')


def corner_notes(page, view):
    """The points of the square sheet, in brackets."""
    for x, y in ((10, 0), (10, 10), (0, 10)) if view.m.edges else ((0, 0),):
        page.label(view.at(x, y) + complex(x - 5, 5 - y) * 3.4, f'({x},{y})', 'small')


def square_panel(page, at, count):
    tickets = [entry[0] for entry in SQUARE[:count]]
    m, answer = grown(tickets)
    view = View(m, at + complex(68, 240), 16, node_gap=23 if m.edges else 15)
    page.box(at + 4 + 30j, PANEL_WIDTH - 8, 256)
    ticket_line(page, at + complex(PANEL_WIDTH / 2, 20), tickets[-1], answer)
    draw_faces(page, view)
    if answer[0]:
        mark_edge_ends(page, view)
    draw_edges(page, view)
    draw_links(page, view)
    draw_nodes(page, view)
    draw_face_numbers(page, view, ((0, 0), (10, 10)), {0: (-2.6, 11.6)})
    if count < 3:
        corner_notes(page, view)
    for i, words in enumerate(SQUARE[count - 1][1:]):
        page.text(at + complex(PANEL_WIDTH / 2, 303 + 17 * i), words, 'note')


def legend(page, at):
    """What the signs of the square sheet are."""
    page.disc(at + 6, 4.5, 'isolated')
    page.text(at + 16 + 4.5j, 'isolated node', 'note start')
    page.disc(at + 126, 4.5, 'node')
    page.text(at + 136 + 4.5j, 'node', 'note start')
    page.line([at + 186, at + 226], 'edge')
    page.tip(at + 211, 1, 10, 'edge-tip')
    page.text(at + 234 + 4.5j, 'edge', 'note start')
    page.label(at + 290, '1', 'face-number')
    page.text(at + 301 + 4.5j, 'face', 'note start')
    page.disc(at + 351, 2.2, 'link-tip')
    page.line([at + 351, at + 380], 'link')
    page.tip(at + 386, 1, 9, 'link-tip')
    page.text(at + 396 + 4.5j, 'link: from a directed edge to its next, round one face', 'note start')


def square():
    page = Page(3 * PANEL_WIDTH, 2 * PANEL_HEIGHT + 34)
    for i in range(len(SQUARE)):
        square_panel(page, complex(i % 3 * PANEL_WIDTH, i // 3 * PANEL_HEIGHT), i + 1)
    legend(page, complex(12, 2 * PANEL_HEIGHT + 14))
    page.save('square')


# --- docs/edge.svg ---------------------------------------------------------------------------------------------------

EDGE = ['1 -1 0 8', '1 -1 32 8', '12 1 2 0 8 32 8', '12 2 1 32 8 32 16 0 16 0 8', '12 2 1 32 8 32 0 0 0 0 8']
COLUMNS = ('number', 'start', 'end', 'next left', 'next right', 'left face', 'right face', 'count', 'points')


def draw_directed(page, view, d, words):
    """A straight directed edge as an arrow on its left side."""
    first, last = view.course(d)
    way = unit(last - first)
    aside = left_of(way) * 9
    first, last = first + way * 48 + aside, last - way * 48 + aside
    page.line([first, last - way * 6], 'directed')
    page.tip(last, way, 10, 'edge-tip')
    page.label((first + last) / 2 + left_of(way) * 13, words, 'note')


def row_of_edge(page, at, e):
    """The row as a small table."""
    points = ' '.join(f'({x},{y})' for x, y in e.points)
    values = (e.number, e.start, e.end, e.next_left, e.next_right, e.left, e.right, len(e.points), points)
    for i, (column, value) in enumerate(zip(COLUMNS, values)):
        page.text(at + 77 * i, column, 'small')
        page.text(at + 77 * i + 19j, value, 'ticket')


def edge():
    m, _ = grown(EDGE)
    page, view = Page(760, 386), View(m, 108 + 302j, 17)
    page.box(4 + 4j, 752, 328)
    draw_faces(page, view)
    for e in m.edges:
        page.line(view.course(e.number), 'edge')
    for e in m.edges[1:]:
        a, b = view.segment(e.number)
        page.tip((a + b) / 2, unit(b - a), 10, 'edge-tip')
        page.label(view.edge_label(e.number), e.number, 'edge-number')
    draw_directed(page, view, 1, 'e = 1, from start to end')
    draw_directed(page, view, -1, '-e = -1, from end to start')
    for d in (1, -1):
        draw_link(page, view, d)
    for n, words, anchor, aside in ((1, 'start: node 1', 'end', -10), (2, 'end: node 2', 'start', 10)):
        page.disc(view.node(n), 4.5, 'node')
        page.text(view.node(n) + aside + 5j, words, f'note {anchor}')
    page.text(view.node(2) - 24 - 40j, 'next left follows e', 'link-note end')
    page.text(view.node(1) + 24 + 48j, 'next right follows -e', 'link-note start')
    page.label(view.at(16, 12.4), f'left face: {m.edges[0].left}', 'face-number')
    page.label(view.at(16, 3.6), f'right face: {m.edges[0].right}', 'face-number')
    row_of_edge(page, 62 + 352j, m.edges[0])
    page.save('edge')


# --- docs/links.svg, docs/directions.svg -----------------------------------------------------------------------------

CROSSING = ['1 -1 16 13', '1 -1 0 9', '12 2 1 0 9 16 13', '1 -1 9 26', '12 1 3 16 13 9 26',
            '1 -1 31 19', '12 1 4 16 13 31 19', '1 -1 21 0', '12 1 5 16 13 21 0']
SIGNS = {1: '+', 0: '0', -1: '-'}


def draw_turn(page, at, first, last, radius):
    """The turn from one way to another, clockwise, as an arc with an arrow."""
    start, end = at + first * radius, at + last * radius
    large = int(turn(first, last) > math.pi)
    page.path(f'M{spot(start)}A{radius} {radius} 0 {large} 1 {spot(end)}', 'turn')
    page.tip(end, last * 1j * cmath.rect(1, -5 / radius), 10, 'turn-tip')


def link_law(page, at):
    """A node with four departures, and which of them follows the directed edge that arrives."""
    m, _ = grown(CROSSING)
    view, d = View(m, at, 10), 1
    centre, following = view.node(1), pm.lawful_next(m, d)
    ways = {p: unit(view.course(p)[1] - view.course(p)[0]) for p in pm.departures(m, 1)}
    draw_edges(page, view, numbers=False)
    for n in m.nodes:
        page.disc(view.node(n.number), 4.5, 'node')
    draw_turn(page, centre, ways[-d], ways[following], 104)
    draw_link(page, view, d, reach=36)
    others = sorted((p for p in ways if p not in (-d, following)), key=lambda p: turn(ways[-d], ways[p]))
    middle = ways[-d] * cmath.rect(112, turn(ways[-d], ways[following]) / 2)
    page.text(centre + middle, 'turn clockwise', 'small end')
    page.text(centre + ways[-d] * 84 + 28j, 'd arrives', 'note')
    page.text(centre + ways[-d] * 84 + 45j, '-d, its reverse, leaves', 'small')
    page.text(centre + ways[following] * 96 + 14, 'first met: the next of d', 'link-note start')
    for p, words in zip(others, ('second', 'third')):
        page.text(centre + ways[p] * 96 + 16 + 14j, words, 'note start')


def compass(page, at, radius):
    """The eight classes: four ways along the axes, and between them four quarters."""
    for i, (dx, dy) in enumerate(((1, 0), (1, 1), (0, 1), (-1, 1), (-1, 0), (-1, -1), (0, -1), (1, -1))):
        way, words = unit(complex(dx, -dy)), f'({SIGNS[dx]},{SIGNS[dy]})'
        if i % 2:
            first, last = at + dx * radius, at - dy * radius * 1j
            page.put(f'<path d="M{spot(at)}L{spot(first)}A{radius} {radius} 0 0 {int(dx == -dy)} {spot(last)}Z" '
                     f'fill="{FACE_FILLS[i // 2]}"/>')
        place = at + way * (radius * 0.62 if i % 2 else radius + 22)
        page.label(place - 8j, pm.direction_class((dx, dy)), 'class-number')
        page.label(place + 10j, words, 'small')
    for way in (1, 1j, -1, -1j):
        page.line([at, at + way * (radius - 6)], 'edge')
        page.tip(at + way * radius, way, 10, 'edge-tip')
    page.disc(at, 4.5, 'node')


def links():
    page = Page(440, 340)
    page.box(4 + 4j, 432, 332)
    page.text(18 + 26j, 'link law: turn clockwise from the reverse of d', 'note start')
    link_law(page, 56 + 306j)
    page.save('links')


def directions():
    page = Page(340, 320)
    page.box(4 + 4j, 332, 312)
    compass(page, 170 + 160j, 104)
    page.save('directions')


# --- docs/meadow.svg -------------------------------------------------------------------------------------------------

def draw_grid(page, view, width, height):
    """Lines at every second coordinate, with numbers at the tens."""
    for x in range(0, width + 1, 2):
        page.line([view.at(x, 0), view.at(x, height)], 'grid' if x % 10 else 'tens')
    for y in range(0, height + 1, 2):
        page.line([view.at(0, y), view.at(width, y)], 'grid' if y % 10 else 'tens')
    for x in range(0, width + 1, 10):
        page.text(view.at(x, 0) + 36j, x, 'small')
    for y in range(0, height + 1, 10):
        page.text(view.at(0, y) - 20 + 4j, y, 'small end')


def meadow():
    m, _ = grown(MEADOW)
    page, view = Page(930, 300), View(m, 44 + 248j, 13.6, node_gap=14, edge_gap=12, segments={18: 5})
    page.box(4 + 4j, 922, 292)
    draw_faces(page, view)
    draw_grid(page, view, 62, 16)
    draw_edges(page, view, tip=8)
    draw_nodes(page, view, 3.6)
    draw_face_numbers(page, view, ((0, 0), (62, 16)), {0: (46, 12)}, style='face-number tight')
    page.save('meadow')


# --- docs/rings.svg --------------------------------------------------------------------------------------------------

# by the lowest node of a piece: where its letter stands, and what it is
PIECES = {1: ((2.2, 11.9), 'two plots and two ditches'), 3: ((2.1, 5), 'a well'), 5: ((23, 11.5), 'a plot'),
          9: ((26.2, 8), 'a tank, an island'), 10: ((37.6, 5), 'a lone ditch')}


def ring_colour(face):
    return RING_COLOURS[(face - 1) % len(RING_COLOURS)] if face else OUTSIDE_COLOUR


def draw_ring(page, view, ring):
    """The walk round a ring, dashed, inside the face that it bears."""
    points, colour = view.walk(ring), ring_colour(pm.borne(view.m, ring[0]))
    page.path(beside(points, 7, 4), 'ring', f' stroke="{colour}"')
    way = unit(points[1] - points[0])
    page.tip((points[0] + points[1]) / 2 + left_of(way) * 7 + way * 4.5, way, 9, '', f' fill="{colour}"')


def list_faces(page, at, m):
    """The rings of each face, as the list of its edges has them."""
    for i, face in enumerate(m.faces):
        found = [f"({' '.join(map(str, r))})" for r in pm.rings(m) if pm.borne(m, r[0]) == face]
        row = at + 19j * i
        page.path(f'M{spot(row - 4j)}h28', 'ring', f' stroke="{ring_colour(face)}"')
        page.text(row + 38, f"face {face}: ring{'s' * (len(found) > 1)} {' '.join(found)}", 'note start')


def face_around(m, nodes):
    """The face around a piece: that of its isolated node, or the one that its outer ring bears."""
    row = pm.node(m, nodes[0])
    if row.face >= 0:
        return row.face
    outer = (r for r in pm.rings(m) if pm.leaves(m, r[0]) in nodes and pm.ring_area2(m, r) <= 0)
    return pm.borne(m, next(outer)[0])


def list_pieces(page, at, m, lowest):
    for i, n in enumerate(lowest):
        nodes = sorted(pm.piece(m, n))
        listed = f"node{'s' * (len(nodes) > 1)} {' '.join(map(str, nodes))}"
        words = f'piece {chr(65 + i)}: {listed}; {PIECES[n][1]} in face {face_around(m, nodes)}'
        page.text(at + 19j * i, words, 'note start')


def rings():
    m, _ = grown(MEADOW[:35])
    page, view = Page(900, 436), View(m, 44 + 298j, 19, node_gap=18, edge_gap=19)
    lowest = [n.number for n in m.nodes if min(pm.piece(m, n.number)) == n.number]
    letters = [view.at(*PIECES[n][0]) for n in lowest]
    page.box(4 + 4j, 892, 326)
    draw_faces(page, view)
    draw_edges(page, view)
    for ring in pm.rings(m):
        draw_ring(page, view, ring)
    draw_nodes(page, view)
    draw_face_numbers(page, view, ((0, 0), (42, 14)), {0: (35, 12)}, letters, 'face-number tight')
    for i, at in enumerate(letters):
        page.label(at, f'piece {chr(65 + i)}', 'piece')
    list_faces(page, 24 + 353j, m)
    list_pieces(page, 480 + 353j, m, lowest)
    page.save('rings')


# --- docs/sides.svg --------------------------------------------------------------------------------------------------

PLOT = ['1 -1 0 4', '1 -1 9 4', '12 1 2 0 4 2 2 7 2 9 4', '12 1 2 0 4 0 9 9 9 9 4']      # edge 2 is redrawn
WELL_AND_TANK = ['1 -1 2 6', '1 -1 6 6', '12 4 4 6 6 8 6 8 8 6 8 6 6']
SIDES = [
    (PLOT + WELL_AND_TANK, '6 2 0 4 1 7 4 9 9 9 9 4', 'short of the well'),
    (PLOT + WELL_AND_TANK, '6 2 0 4 4 4 4 9 9 9 9 4', 'past the well'),
    (PLOT + WELL_AND_TANK, '6 2 0 4 0 9 4 9 4 4 9 4', 'past the tank, an island'),
    (PLOT, '6 2 0 4 0 0 9 0 9 4', 'past edge 1: the plot inside out'),
]
SIDES_NAMES = {3: ((2, 5.1), 'well'), 4: ((7, 7), 'tank')}
SIDES_WIDTH = 232
SIDES_STYLE = """.old { fill: none; stroke: #8a8a8a; stroke-width: 1.2 }
.redrawn { fill: none; stroke: #1f4e79; stroke-width: 4; stroke-linejoin: round }
"""


def mark_changes(page, view, e, drawn):
    """The nodes that the ring of e would take in or leave out by the curve as it is drawn."""
    ring = pm.ring(view.m, e)
    own = pm.piece(view.m, pm.leaves(view.m, e))
    for n in view.m.nodes:
        place = pm.place(view.m, n.number)
        if n.number not in own and pm.encloses(view.m, ring, place) != pm.encloses(drawn, ring, place):
            page.disc(view.node(n.number), 15, 'mark')


def sides_panel(page, at, tickets, ticket, words):
    """Filled are the plots after the ticket; the bold line is the curve that it gives, whatever the answer."""
    before, _ = grown(tickets)
    after, answer = grown([*tickets, ticket])
    _, e, *numbers = map(int, ticket.split())
    drawn = pm.with_curve(before, e, tuple(zip(numbers[::2], numbers[1::2])))
    origin = at + complex(SIDES_WIDTH / 2 - 72, 170)
    old, new = View(before, origin, 16), View(drawn, origin, 16)
    page.box(at + 4 + 4j, SIDES_WIDTH - 8, 190)
    draw_faces(page, View(after, origin, 16))
    mark_changes(page, old, e, drawn)
    page.line(old.course(e), 'old')
    for row in before.edges:
        if row.number != e:
            draw_edge(page, new, row.number)
    draw_edge(page, new, e, tip=14, style='redrawn')
    draw_nodes(page, old)
    for n in before.nodes:
        if n.number in SIDES_NAMES:
            place, name = SIDES_NAMES[n.number]
            page.label(old.at(*place), name, 'small')
    ticket_line(page, at + complex(SIDES_WIDTH / 2, 213), ticket, answer)
    page.text(at + complex(SIDES_WIDTH / 2, 232), words, 'note')


def sides():
    page = Page(len(SIDES) * SIDES_WIDTH, 266)
    for i, panel in enumerate(SIDES):
        sides_panel(page, i * SIDES_WIDTH, *panel)
    page.line([12 + 252j, 52 + 252j], 'old')
    page.text(60 + 256.5j, 'edge 2 as it was', 'note start')
    page.line([186 + 252j, 226 + 252j], 'redrawn')
    page.text(234 + 256.5j, 'edge 2 as the ticket draws it', 'note start')
    page.disc(452 + 252j, 7, 'mark')
    page.text(466 + 256.5j, 'would change sides', 'note start')
    page.save('sides', SIDES_STYLE)


# --- docs/rectangles.svg ---------------------------------------------------------------------------------------------

# a bent ditch, edge 1, and the outer boundaries of the plots on either side of it
DITCH = ['1 -1 12 1', '1 -1 14 10', '12 1 2 12 1 17 4 9 7 14 10', '12 1 2 12 1 2 2 0 8 4 11 14 10',
         '12 1 2 12 1 22 0 26 8 14 10']


def draw_rectangle(page, view, face):
    """The rectangle of a face, dashed, and the inner points of its edges that lie on it."""
    left, low, right, high = pm.rectangle(view.m, face)
    colour = f' stroke="{ring_colour(face)}"'
    corners = view.line([(left, low), (right, low), (right, high), (left, high)])
    page.path(f'M{"L".join(map(spot, corners))}Z', 'ring', colour)
    for x, y in (p for e in view.m.edges if face in (e.left, e.right) for p in e.points[1:-1]):
        aside = complex(24 * (x == right) - 24 * (x == left), 15 * (y == low) - 15 * (y == high))
        if aside:
            at = view.at(x, y)
            page.put(f'<circle cx="{trimmed(at.real)}" cy="{trimmed(at.imag)}" r="5" fill="#fff"{colour} '
                     f'stroke-width="2"/>')
            page.label(at + aside, f'({x},{y})', 'small')


def rectangles():
    m, _ = grown(DITCH)
    page, view = Page(520, 318), View(m, 52 + 242j, 16, node_gap=24)
    page.box(4 + 4j, 512, 262)
    draw_faces(page, view)
    draw_edges(page, view)
    for face in m.faces[1:]:
        draw_rectangle(page, view, face)
    draw_nodes(page, view)
    draw_face_numbers(page, view, ((0, 0), (26, 11)), {0: (-1.6, 12.4)})
    for i, face in enumerate(m.faces[1:]):
        row = 16 + 288j + 250 * i
        page.path(f'M{spot(row - 4j)}h28', 'ring', f' stroke="{ring_colour(face)}"')
        page.text(row + 36, f"face row {' '.join(map(str, pm.encode_face(m, face, LEVEL)))}", 'note start')
    page.text(16 + 308j, 'The ditch between them is bent: two of its inner points lie on the rectangles.',
              'small start')
    page.save('rectangles')


# --- docs/meetings.svg -----------------------------------------------------------------------------------------------

BENT = ['1 -1 0 4', '1 -1 14 4', '4 1 2 0 4 4 6 10 6 14 4', '1 -1 1 10', '1 -1 13 10']       # edge 1, which is met
MEETINGS = [
    ('5 6 8 6', 'along a segment'),
    ('7 4', 'across a segment, twice'),
    ('7 6', 'a bend on a segment'),
    ('4 6', 'a bend at a bend'),
    ('3 8 5 4 16 1', 'through a bend'),
]
NAMED = {23: 'OVERLAPS_EDGE', 15: 'CROSSES_EDGE', 24: 'TOUCHES_EDGE'}
MEETINGS_WIDTH = 186
MEETINGS_STYLE = """.drawn { fill: none; stroke: #1f4e79; stroke-width: 3.5; stroke-linejoin: round }
.stretch { fill: none; stroke: #f2a89c; stroke-width: 15; stroke-linecap: round }
.met { fill: #f2a89c }
"""


def mark_meetings(page, view, points, met):
    """What the curve and the other one share, worked out by fractions: stretches, or else points."""
    shared = [check.shared(*s, *t) for s in pm.segments(points) for t in pm.segments(met)]
    found = dict.fromkeys(x for x in shared if x is not None)
    stretches = [x for x in found if isinstance(x[0], tuple)]
    for x in stretches:
        page.line(view.line(x), 'stretch')
    for x in () if stretches else found:
        page.disc(view.at(*map(float, x)), 8, 'met')


def meetings_panel(page, at, inner, words):
    """The bold line is the curve that the ticket asks for."""
    ticket = f'4 3 4 1 10 {inner} 13 10'
    m, _ = grown(BENT)
    _, answer = grown([*BENT, ticket])
    points = pm.curve_sent(tuple(map(int, ticket.split())))
    view = View(m, at + complex(MEETINGS_WIDTH / 2 - 70, 126), 9.5)
    page.box(at + 4 + 4j, MEETINGS_WIDTH - 8, 142)
    mark_meetings(page, view, points, m.edges[0].points)
    page.line(view.course(1), 'edge')
    page.line(view.line(points), 'drawn')
    page.label(view.at(12.6, 5.9), '1', 'edge-number')
    for n in m.nodes:
        page.disc(view.node(n.number), 4.5, 'node' if n.face < 0 else 'isolated')
    page.text(at + complex(MEETINGS_WIDTH / 2, 164), f'{answer[0]} {NAMED[answer[0]]}', 'note answer refused')
    page.text(at + complex(MEETINGS_WIDTH / 2, 182), words, 'note')


def meetings():
    page = Page(len(MEETINGS) * MEETINGS_WIDTH, 216)
    for i, panel in enumerate(MEETINGS):
        meetings_panel(page, i * MEETINGS_WIDTH, *panel)
    page.line([12 + 203j, 52 + 203j], 'edge')
    page.text(60 + 207.5j, 'edge 1', 'note start')
    page.line([132 + 203j, 172 + 203j], 'drawn')
    page.text(180 + 207.5j, 'the line that the ticket draws', 'note start')
    page.disc(400 + 203j, 7, 'met')
    page.text(414 + 207.5j, 'what they share', 'note start')
    page.save('meetings', MEETINGS_STYLE)


# --- docs/surplus.svg ------------------------------------------------------------------------------------------------

ENDS = ['1 -1 1 2', '1 -1 13 8']
SURPLUS = [
    (ENDS, '4 1 2 1 2 4 2 10 2 13 2 13 5 13 8', '6 points sent, 3 stay'),
    (ENDS, '4 1 2 1 2 3 3 7 5 11 7 13 8', '5 points sent, 2 stay'),
    (['1 -1 6 2'], '12 1 1 6 2 10 2 13 2 13 8 7 8 1 8 1 2 3 2 6 2', 'the end of a closed line stays'),
    (ENDS, '4 1 2 1 2 4 2 11 2 7 2 13 8', 'it doubles back'),
    (ENDS, '4 1 2 1 2 7 5 7 5 13 8', 'one point is sent twice'),
]
SURPLUS_NAMES = {0: 'carried out', 6: 'REDUNDANT_POINT', 7: 'NOT_SIMPLE'}
SURPLUS_STYLE = """.drawn { fill: none; stroke: #1f4e79; stroke-width: 2.5; stroke-linejoin: round }
.kept { fill: #1f4e79 }
.gone { fill: #fff; stroke: #b5472a; stroke-width: 1.8 }
.done { fill: #2e7d32 }
"""


def surplus_panel(page, at, tickets, ticket, words):
    """The line that the ticket sends, with its points."""
    m, _ = grown(tickets)
    _, (refusal, _) = grown([*tickets, ticket])
    points = pm.curve_sent(tuple(map(int, ticket.split())))
    view = View(m, at + complex(MEETINGS_WIDTH / 2 - 70, 118), 10)
    page.box(at + 4 + 4j, MEETINGS_WIDTH - 8, 124)
    page.line(view.line(points), 'drawn')
    for i, p in enumerate(points):
        page.disc(view.at(*p), 4.5, 'gone' if pm.surplus(points, i) else 'kept')
    style = 'refused' if refusal else 'done'
    page.text(at + complex(MEETINGS_WIDTH / 2, 146), f'{refusal} {SURPLUS_NAMES[refusal]}', f'note answer {style}')
    page.text(at + complex(MEETINGS_WIDTH / 2, 164), words, 'note')


def surplus():
    page = Page(len(SURPLUS) * MEETINGS_WIDTH, 198)
    for i, panel in enumerate(SURPLUS):
        surplus_panel(page, i * MEETINGS_WIDTH, *panel)
    page.disc(16 + 185j, 4.5, 'kept')
    page.text(28 + 189.5j, 'a point that stays', 'note start')
    page.disc(176 + 185j, 4.5, 'gone')
    page.text(188 + 189.5j, 'a surplus point: straight between its neighbours', 'note start')
    page.save('surplus', SURPLUS_STYLE)


PICTURES = {'directions': directions, 'edge': edge, 'links': links, 'meadow': meadow, 'meetings': meetings,
            'rectangles': rectangles, 'rings': rings, 'sides': sides, 'square': square, 'surplus': surplus}


def main(names):
    unknown = [n for n in names if n not in PICTURES]
    if unknown:
        print(__doc__, file=sys.stderr)
        return 2
    for name in names or PICTURES:
        PICTURES[name]()
    return 0


if __name__ == '__main__':
    sys.exit(main(sys.argv[1:]))
