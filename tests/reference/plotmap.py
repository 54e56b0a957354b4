"""The plot map: nodes, edges, faces and the fourteen tickets.

A reference implementation in the order of document 01.  Definitional style: short
pure functions over tuples of rows, exact whole numbers only, clarity before speed.

Every function that serves the base takes a `level`:
  0 the base (document 01 alone);
  1 adds request (i)   - refusal 22;
  3 adds request (iii) - rectangles in the face rows;
  4 adds request (iv)  - refusals 23, 15, 24;
  5 adds request (v)   - surplus survey points are dropped;
  9 adds request (ix)  - the head records how many points a curve may have, 6 or 12.
Level 2 is level 1: request (ii) changes no answer.  Nor do (vi), (vii), (viii) and those
after (ix) change what a ticket does; their calls are in modules of their own.
"""

from dataclasses import astuple, dataclass, replace
from typing import Callable, Optional

# ---------------------------------------------------------------------------------
# Tables and head
# ---------------------------------------------------------------------------------

MAX_NODES, MAX_EDGES, MAX_FACES = 1_000, 2_000, 1_000
MAX_POINTS = 12
POINT_RECORDS = (6, 12)
MAX_COORDINATE = 1_048_575
LAST_NUMBER = 999_999
NODE_WIDTH, EDGE_WIDTH = 4, 32


def face_width(level: int) -> int:
    return 5 if level >= 3 else 1


@dataclass(frozen=True)
class Head:
    node_count: int
    edge_count: int
    face_count: int
    next_node: int
    next_edge: int
    next_face: int
    points: int = MAX_POINTS       # request (ix): the recorded number of points


@dataclass(frozen=True)
class Tables:
    """The three lent tables as flat runs of numbers."""
    nodes: tuple
    edges: tuple
    faces: tuple


@dataclass(frozen=True)
class Sizes:
    """How many rows each table has room for."""
    nodes: int
    edges: int
    faces: int


@dataclass(frozen=True)
class Node:
    number: int
    x: int
    y: int
    face: int                      # -1 for a node at which an edge ends


@dataclass(frozen=True)
class Edge:
    number: int
    start: int
    end: int
    next_left: int                 # follows e
    next_right: int                # follows -e
    left: int
    right: int
    points: tuple                  # of (x, y), only those in use


@dataclass(frozen=True)
class Map:
    """The rows in use and the next numbers: what tables and head say, decoded."""
    nodes: tuple                   # of Node, rising number
    edges: tuple                   # of Edge, rising number
    faces: tuple                   # of face numbers, rising
    next_node: int
    next_edge: int
    next_face: int
    points: int = MAX_POINTS


EMPTY_MAP = Map((), (), (0,), 1, 1, 1)


def head_numbers(h: Head, level: int) -> tuple:
    """The numbers of the head; six before request (ix)."""
    return astuple(h) if level >= 9 else astuple(h)[:6]


def recorded_points(h: Head, level: int) -> int:
    return h.points if level >= 9 else MAX_POINTS


def rows(table: tuple, width: int) -> tuple:
    return tuple(tuple(table[i:i + width]) for i in range(0, len(table), width))


def decode_node(row: tuple) -> Node:
    return Node(*row)


def decode_edge(row: tuple) -> Edge:
    count = max(0, min(MAX_POINTS, row[7]))
    return Edge(*row[:7], tuple((row[8 + 2 * i], row[9 + 2 * i]) for i in range(count)))


def decode(t: Tables, h: Head, level: int) -> Map:
    """Only for counts within the tables."""
    return Map(tuple(decode_node(r) for r in rows(t.nodes, NODE_WIDTH)[:h.node_count]),
               tuple(decode_edge(r) for r in rows(t.edges, EDGE_WIDTH)[:h.edge_count]),
               tuple(r[0] for r in rows(t.faces, face_width(level))[:h.face_count]),
               h.next_node, h.next_edge, h.next_face, recorded_points(h, level))


def encode_node(n: Node) -> tuple:
    return (n.number, n.x, n.y, n.face)


def encode_edge(e: Edge) -> tuple:
    flat = tuple(c for p in e.points for c in p)
    return ((e.number, e.start, e.end, e.next_left, e.next_right, e.left, e.right,
             len(e.points)) + flat + (0,) * (2 * MAX_POINTS - len(flat)))


def encode_face(m: Map, f: int, level: int) -> tuple:
    return (f,) + rectangle(m, f) if level >= 3 else (f,)


def rectangle(m: Map, f: int) -> tuple:
    """Request (iii): least x, least y, greatest x, greatest y; four zeros for none."""
    points = [p for e in m.edges if f in (e.left, e.right) for p in e.points]
    if f == 0 or not points:
        return (0, 0, 0, 0)
    return (min(x for x, _ in points), min(y for _, y in points),
            max(x for x, _ in points), max(y for _, y in points))


def filled(row_list: list, room: int, width: int) -> tuple:
    """Rows from the front, then rows of zeros."""
    flat = tuple(v for r in row_list for v in r)
    return flat + (0,) * (room * width - len(flat))


def encode(m: Map, s: Sizes, level: int) -> tuple:
    return (Tables(filled([encode_node(n) for n in m.nodes], s.nodes, NODE_WIDTH),
                   filled([encode_edge(e) for e in m.edges], s.edges, EDGE_WIDTH),
                   filled([encode_face(m, f, level) for f in m.faces], s.faces,
                          face_width(level))),
            Head(len(m.nodes), len(m.edges), len(m.faces),
                 m.next_node, m.next_edge, m.next_face, m.points))


def sizes_of(t: Tables, level: int) -> Sizes:
    return Sizes(len(t.nodes) // NODE_WIDTH, len(t.edges) // EDGE_WIDTH,
                 len(t.faces) // face_width(level))


# A number that is looked up is either found with its row or missing.

def find(row_list: tuple, number: int):
    return next((r for r in row_list if r.number == number), None)


def node(m: Map, n: int) -> Optional[Node]:
    return find(m.nodes, n)


def edge(m: Map, e: int) -> Optional[Edge]:
    return find(m.edges, e)


def has_face(m: Map, f: int) -> bool:
    return f in m.faces


# A row changed in place, a new row after the last, a removed row closed up.

def changed(row_list: tuple, row) -> tuple:
    return tuple(row if r.number == row.number else r for r in row_list)


def without(row_list: tuple, number: int) -> tuple:
    return tuple(r for r in row_list if r.number != number)


# Directed edges: e (start to end) or -e (end to start).

def directed_edges(m: Map) -> list:
    return [d for e in m.edges for d in (e.number, -e.number)]


def row_of(m: Map, d: int) -> Edge:
    return edge(m, abs(d))


def leaves(m: Map, d: int) -> int:
    """The node from which d departs."""
    return row_of(m, d).start if d > 0 else row_of(m, d).end


def arrives(m: Map, d: int) -> int:
    return leaves(m, -d)


def follower(m: Map, d: int) -> int:
    """The next of d: next left follows e, next right follows -e."""
    return row_of(m, d).next_left if d > 0 else row_of(m, d).next_right


def borne(m: Map, d: int) -> int:
    """The face that d bears: the one on its left; left of -e is right of e."""
    return row_of(m, d).left if d > 0 else row_of(m, d).right


def course(m: Map, d: int) -> tuple:
    """The points of d in its own direction."""
    return row_of(m, d).points if d > 0 else row_of(m, d).points[::-1]


def ring(m: Map, d: int) -> tuple:
    """The cycle of next steps from d (for links that are a permutation)."""
    out = [d]
    while follower(m, out[-1]) != d and len(out) <= 2 * len(m.edges):
        out.append(follower(m, out[-1]))
    return tuple(out)


def rank(d: int) -> tuple:
    """Lowest edge number first, e before -e."""
    return (abs(d), d < 0)


def rings(m: Map) -> list:
    """Every ring once, each from its lowest member, by first member."""
    out, seen = [], set()
    for d in sorted(directed_edges(m), key=rank):
        if d not in seen:
            out.append(ring(m, d))
            seen.update(out[-1])
    return out


def edge_ends(m: Map, n: int) -> int:
    """How many edge ends there are at a node; a loop has two there."""
    return sum((e.start == n) + (e.end == n) for e in m.edges)


def piece(m: Map, n: int) -> frozenset:
    """The nodes to which a chain of edges leads from n."""
    reached = {n}
    while True:
        more = reached | {e.end for e in m.edges if e.start in reached} \
                       | {e.start for e in m.edges if e.end in reached}
        if more == reached:
            return frozenset(reached)
        reached = more


def piece_count(m: Map) -> int:
    """Node rows from which no chain leads to a node of lower number."""
    return sum(min(piece(m, n.number)) == n.number for n in m.nodes)


# ---------------------------------------------------------------------------------
# In form
# ---------------------------------------------------------------------------------

def whole_tables(t: Tables, level: int) -> bool:
    """Whole rows, within the limits, and a face table that is not empty."""
    width = face_width(level)
    return (len(t.nodes) % NODE_WIDTH == 0 and len(t.edges) % EDGE_WIDTH == 0
            and len(t.faces) % width == 0
            and len(t.nodes) // NODE_WIDTH <= MAX_NODES
            and len(t.edges) // EDGE_WIDTH <= MAX_EDGES
            and 1 <= len(t.faces) // width <= MAX_FACES)


def coordinate_ok(c: int) -> bool:
    return 0 <= c <= MAX_COORDINATE


def rising(numbers: list) -> bool:
    return all(a < b for a, b in zip(numbers, numbers[1:]))


def counts_fit(t: Tables, h: Head, level: int) -> bool:
    s = sizes_of(t, level)
    return (0 <= h.node_count <= s.nodes and 0 <= h.edge_count <= s.edges
            and 1 <= h.face_count <= s.faces)


def rest_zero(t: Tables, h: Head, level: int) -> bool:
    return (not any(t.nodes[h.node_count * NODE_WIDTH:])
            and not any(t.edges[h.edge_count * EDGE_WIDTH:])
            and not any(t.faces[h.face_count * face_width(level):]))


def record_ok(h: Head, level: int) -> bool:
    return recorded_points(h, level) in POINT_RECORDS


def edge_row_shape(row: tuple, most: int) -> bool:
    """2 to 12 points, or to the recorded number; unused points are 0."""
    return 2 <= row[7] <= most and not any(row[8 + 2 * row[7]:])


def edge_rows_shaped(t: Tables, h: Head, level: int) -> bool:
    return all(edge_row_shape(r, recorded_points(h, level))
               for r in rows(t.edges, EDGE_WIDTH)[:h.edge_count])


def numbers_ok(m: Map) -> bool:
    def used(numbers, first, following):
        return (1 <= following <= LAST_NUMBER + 1 and rising(numbers)
                and all(first <= n < following for n in numbers))
    return (used([n.number for n in m.nodes], 1, m.next_node)
            and used([e.number for e in m.edges], 1, m.next_edge)
            and used(list(m.faces), 0, m.next_face) and m.faces[0] == 0)


def coordinates_ok(m: Map) -> bool:
    return (all(coordinate_ok(n.x) and coordinate_ok(n.y) for n in m.nodes)
            and all(coordinate_ok(c) for e in m.edges for p in e.points for c in p))


def named_rows_exist(m: Map) -> bool:
    """Nodes and faces that a row names; edges that links name are apart."""
    return (all(n.face == -1 or has_face(m, n.face) for n in m.nodes)
            and all(node(m, e.start) and node(m, e.end)
                    and has_face(m, e.left) and has_face(m, e.right) for e in m.edges))


def named_edges_exist(m: Map) -> bool:
    return all(edge(m, abs(e.next_left)) and edge(m, abs(e.next_right)) for e in m.edges)


def place(m: Map, n: int) -> tuple:
    return (node(m, n).x, node(m, n).y)


def curves_ok(m: Map) -> bool:
    """A curve starts and ends on its nodes' points; neighbouring points differ."""
    return all(e.points[0] == place(m, e.start) and e.points[-1] == place(m, e.end)
               and not equal_neighbours(e.points) for e in m.edges)


def departures_differ(m: Map) -> bool:
    def differ(vectors):
        return not any(same_direction(a, b) for i, a in enumerate(vectors)
                       for b in vectors[i + 1:])
    return all(differ([way(m, d) for d in departures(m, n.number)]) for n in m.nodes)


def bare_marks_ok(m: Map) -> bool:
    """A node has face -1 exactly when an edge ends there."""
    return all((n.face == -1) == (edge_ends(m, n.number) > 0) for n in m.nodes)


def links_ok(m: Map) -> bool:
    """The next links name each directed edge once, and the next of d leaves the node
    where d arrives."""
    ds = directed_edges(m)
    return (sorted(follower(m, d) for d in ds) == sorted(ds)
            and all(leaves(m, follower(m, d)) == arrives(m, d) for d in ds))


def rings_bear_one_face(m: Map) -> bool:
    return all(borne(m, follower(m, d)) == borne(m, d) for d in directed_edges(m))


def rectangles_ok(t: Tables, m: Map, level: int) -> bool:
    return level < 3 or all(r == encode_face(m, f, level) for r, f in
                            zip(rows(t.faces, face_width(level)), m.faces))


def in_form_but_links(t: Tables, h: Head, level: int = 0) -> bool:
    """All of the form but the links, the faces on rings and departures in one direction
    (request (xii) asks for this part alone).  Each test is only made when the ones
    before it hold."""
    if not (counts_fit(t, h, level) and rest_zero(t, h, level) and record_ok(h, level)
            and edge_rows_shaped(t, h, level)):
        return False
    m = decode(t, h, level)
    return (numbers_ok(m) and coordinates_ok(m) and named_rows_exist(m) and curves_ok(m)
            and bare_marks_ok(m) and rectangles_ok(t, m, level))


def in_form(t: Tables, h: Head, level: int = 0) -> bool:
    """Each test is only made when the ones before it hold."""
    if not in_form_but_links(t, h, level):
        return False
    m = decode(t, h, level)
    return (departures_differ(m) and named_edges_exist(m) and links_ok(m)
            and rings_bear_one_face(m))


# ---------------------------------------------------------------------------------
# Directions and links
# ---------------------------------------------------------------------------------

def sign(v: int) -> int:
    return (v > 0) - (v < 0)


# Indexed by the sign of dx plus one, then the sign of dy plus one.
CLASSES = ((5, 4, 3),
           (6, -1, 2),
           (7, 0, 1))


def direction_class(v: tuple) -> int:
    return CLASSES[sign(v[0]) + 1][sign(v[1]) + 1]


def cross(a: tuple, b: tuple) -> int:
    return a[0] * b[1] - a[1] * b[0]


def before(a: tuple, b: tuple) -> bool:
    """a comes before b, counting counterclockwise from due east."""
    if direction_class(a) != direction_class(b):
        return direction_class(a) < direction_class(b)
    return cross(a, b) > 0


def same_direction(a: tuple, b: tuple) -> bool:
    return direction_class(a) == direction_class(b) and cross(a, b) == 0


def departures(m: Map, n: int) -> list:
    """The directed edges that leave node n."""
    return [d for d in directed_edges(m) if leaves(m, d) == n]


def heading(points: tuple) -> tuple:
    """The direction in which a course of points departs."""
    return (points[1][0] - points[0][0], points[1][1] - points[0][1])


def way(m: Map, d: int) -> tuple:
    return heading(course(m, d))


def greatest(m: Map, ds: list) -> int:
    """The departure that comes last, counting counterclockwise from due east."""
    best = ds[0]
    for d in ds[1:]:
        if before(way(m, best), way(m, d)):
            best = d
    return best


def first_clockwise(m: Map, v: tuple, ds: list) -> Optional[int]:
    """Of the departures ds the first met turning clockwise from direction v."""
    earlier = [d for d in ds if before(way(m, d), v)]
    return greatest(m, earlier or ds) if ds else None


def lawful_next(m: Map, d: int) -> int:
    """The link law: the first departure met turning clockwise from the reverse of d;
    with no other, that reverse."""
    others = [q for q in departures(m, arrives(m, d)) if q != -d]
    return first_clockwise(m, way(m, -d), others) if others else -d


def lawful(m: Map) -> bool:
    return all(follower(m, d) == lawful_next(m, d) for d in directed_edges(m))


def redirect(m: Map, old: int, new: int) -> Map:
    """Everything that led to `old` leads to `new`."""
    return replace(m, edges=tuple(
        replace(e, next_left=new if e.next_left == old else e.next_left,
                next_right=new if e.next_right == old else e.next_right)
        for e in m.edges))


def lead(m: Map, d: int, to: int) -> Map:
    """d leads to `to`."""
    e = row_of(m, d)
    return replace(m, edges=changed(
        m.edges, replace(e, next_left=to) if d > 0 else replace(e, next_right=to)))


def link_departure(m: Map, p: int, others: list) -> Map:
    """A new departure p, met by `others` at its node: its reverse leads to the first
    departure c met clockwise from p, what led to c leads to p; with none, the reverse
    leads to p."""
    c = first_clockwise(m, way(m, p), others)
    return lead(m, -p, p) if c is None else lead(redirect(m, c, p), -p, c)


def link_edge(m: Map, e: int) -> Map:
    """Link the new row e: the start's departure first, then the end's."""
    at_start = [d for d in departures(m, leaves(m, e)) if abs(d) != e]
    m = link_departure(m, e, at_start)
    at_end = [d for d in departures(m, leaves(m, -e)) if d != -e]
    return link_departure(m, -e, at_end)


def unlink_edge(m: Map, e: int) -> Map:
    """What led to a removed departure leads where its reverse led, the start's departure
    first, then the end's on the links so left.  The row goes."""
    m = redirect(m, e, follower(m, -e))
    m = redirect(m, -e, follower(m, e))
    return replace(m, edges=without(m.edges, e))


def corner_face(m: Map, n: int, v: tuple) -> int:
    """Corner face of a new departure from node n in direction v."""
    c = first_clockwise(m, v, departures(m, n))
    return node(m, n).face if c is None else borne(m, c)


# Meeting.

def area2(a: tuple, b: tuple, c: tuple) -> int:
    """The doubled area of the triangle a, b, c; positive when it turns left."""
    return (b[0] - a[0]) * (c[1] - a[1]) - (b[1] - a[1]) * (c[0] - a[0])


def in_box(p: tuple, a: tuple, b: tuple) -> bool:
    return (min(a[0], b[0]) <= p[0] <= max(a[0], b[0])
            and min(a[1], b[1]) <= p[1] <= max(a[1], b[1]))


def on_segment(p: tuple, s: tuple) -> bool:
    return area2(s[0], s[1], p) == 0 and in_box(p, s[0], s[1])


def segments_cross(s: tuple, t: tuple) -> bool:
    """They share one point, inner to both."""
    (a, b), (c, d) = s, t
    return (sign(area2(a, b, c)) * sign(area2(a, b, d)) < 0
            and sign(area2(c, d, a)) * sign(area2(c, d, b)) < 0)


def segments_meet(s: tuple, t: tuple) -> bool:
    """They share a point, of whole coordinates or not."""
    return (segments_cross(s, t) or on_segment(s[0], t) or on_segment(s[1], t)
            or on_segment(t[0], s) or on_segment(t[1], s))


def segments_stretch(s: tuple, t: tuple) -> bool:
    """On one line with more than one common point."""
    common = {p for p in s if on_segment(p, t)} | {p for p in t if on_segment(p, s)}
    return (area2(s[0], s[1], t[0]) == 0 and area2(s[0], s[1], t[1]) == 0
            and len(common) > 1)


def segments(points: tuple) -> list:
    return list(zip(points, points[1:]))


def segments_wrong(s: tuple, t: tuple, ends: list) -> bool:
    """They share a point that is none of `ends` (a shared stretch has such points)."""
    return segments_meet(s, t) and (
        segments_stretch(s, t) or not any(on_segment(q, s) and on_segment(q, t)
                                          for q in ends))


def common_ends(c: tuple, d: tuple) -> list:
    return [q for q in (c[0], c[-1]) if q in (d[0], d[-1])]


def curves_wrong(c: tuple, d: tuple) -> bool:
    """Two curves meet wrongly when they share a point that is not an end of both."""
    return any(segments_wrong(s, t, common_ends(c, d))
               for s in segments(c) for t in segments(d))


def curves_stretch(c: tuple, d: tuple) -> bool:
    return any(segments_stretch(s, t) for s in segments(c) for t in segments(d))


def curves_cross(c: tuple, d: tuple) -> bool:
    return any(segments_cross(s, t) for s in segments(c) for t in segments(d))


def may_share(points: tuple, i: int, j: int) -> list:
    """The points that segments i < j of one curve may share: the common point of
    neighbours; the end, for the first and last of a closed curve."""
    if j == i + 1:
        return [points[j]]
    if points[0] == points[-1] and i == 0 and j == len(points) - 2:
        return [points[0]]
    return []


def simple(points: tuple) -> bool:
    segs = segments(points)
    return not any(segments_wrong(segs[i], segs[j], may_share(points, i, j))
                   for j in range(len(segs)) for i in range(j))


def on_curve(p: tuple, points: tuple) -> bool:
    return any(on_segment(p, s) for s in segments(points))


def equal_neighbours(points: tuple) -> bool:
    return any(a == b for a, b in zip(points, points[1:]))


def straight_between(p: tuple, a: tuple, b: tuple) -> bool:
    """p lies on the segment from a to b and is neither a nor b."""
    return p != a and p != b and on_segment(p, (a, b))


def surplus(points: tuple, i: int) -> bool:
    """Inner point i lies straight between its given neighbours."""
    return 0 < i < len(points) - 1 and straight_between(points[i], points[i - 1], points[i + 1])


# Face of a point.

@dataclass(frozen=True)
class Below:
    """A segment with its ends ordered by x, and what lies on its upper side."""
    low: tuple
    high: tuple
    upper: int
    edge: int
    index: int


def ordered(s: tuple) -> tuple:
    return (s[0], s[1]) if s[0][0] <= s[1][0] else (s[1], s[0])


def passes_below(p: tuple, s: tuple) -> bool:
    """x1 <= px < x2 with the ends ordered by x, and strictly below p."""
    a, b = ordered(s)
    return a[0] <= p[0] < b[0] and area2(a, b, p) > 0


def below(m: Map, p: tuple) -> list:
    return [Below(*ordered(s), e.left if s[0][0] < s[1][0] else e.right, e.number, i)
            for e in m.edges for i, s in enumerate(segments(e.points)) if passes_below(p, s)]


def run_rise(s: Below) -> tuple:
    return (s.high[0] - s.low[0], s.high[1] - s.low[1])


def nearer(s: Below, t: Below, px: int) -> bool:
    """s is to be taken rather than t: higher at px, else the greater slope, else the
    lower edge number, else the earlier segment."""
    (sx, sy), (tx, ty) = run_rise(s), run_rise(t)
    height = ((s.low[1] * sx + (px - s.low[0]) * sy) * tx
              - (t.low[1] * tx + (px - t.low[0]) * ty) * sx)
    slope = sy * tx - ty * sx
    if height != 0:
        return height > 0
    if slope != 0:
        return slope > 0
    return (s.edge, s.index) < (t.edge, t.index)


def face_of_point(m: Map, p: tuple) -> int:
    best = None
    for s in below(m, p):
        if best is None or nearer(s, best, p[0]):
            best = s
    return 0 if best is None else best.upper


# Enclosed, and the doubled area of a ring.

def ring_segments(m: Map, r: tuple) -> list:
    """An edge used twice counts twice."""
    return [s for d in r for s in segments(course(m, d))]


def encloses(m: Map, r: tuple, p: tuple) -> bool:
    return sum(passes_below(p, s) for s in ring_segments(m, r)) % 2 == 1


def ring_area2(m: Map, r: tuple) -> int:
    return sum(cross(a, b) for a, b in ring_segments(m, r))


def ring_mark(m: Map, r: tuple) -> tuple:
    """The point of the start node of the ring's lowest edge."""
    return place(m, edge(m, min(abs(d) for d in r)).start)


# ---------------------------------------------------------------------------------
# Tickets
# ---------------------------------------------------------------------------------

# Numbers after the kind; True where a curve of x, y pairs follows them.
SHAPES = {1: (3, False), 2: (3, False), 3: (1, False), 4: (2, True), 5: (1, False),
          6: (1, True), 7: (3, False), 8: (3, False), 9: (2, False), 10: (2, False),
          11: (2, True), 12: (2, True), 13: (1, False), 14: (1, False)}


def shape_ok(ticket: tuple) -> bool:
    if not ticket or ticket[0] not in SHAPES:
        return False
    plain, curve = SHAPES[ticket[0]]
    extra = len(ticket) - 1 - plain
    return extra >= 0 and extra % 2 == 0 if curve else extra == 0


def curve_sent(ticket: tuple) -> tuple:
    flat = ticket[1 + SHAPES[ticket[0]][0]:]
    return tuple(zip(flat[0::2], flat[1::2]))


def curve_kept(ticket: tuple, level: int) -> tuple:
    """Request (v): without the inner points straight between their given neighbours."""
    points = curve_sent(ticket)
    if level < 5:
        return points
    return tuple(p for i, p in enumerate(points) if not surplus(points, i))


# Kinds 1 to 5.

def set_node_face(m: Map, n: int, f: int) -> Map:
    return replace(m, nodes=changed(m.nodes, replace(node(m, n), face=f)))


def add_iso_node(m: Map, p: tuple) -> Map:
    return replace(m, nodes=m.nodes + (Node(m.next_node, p[0], p[1], face_of_point(m, p)),),
                   next_node=m.next_node + 1)


def move_iso_node(m: Map, n: int, p: tuple) -> Map:
    return replace(m, nodes=changed(m.nodes, Node(n, p[0], p[1], face_of_point(m, p))))


def remove_iso_node(m: Map, n: int) -> Map:
    return replace(m, nodes=without(m.nodes, n))


def isolated(m: Map, n: int) -> bool:
    return node(m, n).face != -1


def with_edge(m: Map, start: int, end: int, points: tuple, face: int) -> Map:
    """A new linked edge with `face` on both sides; its nodes are no longer bare."""
    e = m.next_edge
    m = replace(m, edges=m.edges + (Edge(e, start, end, 0, 0, face, face, points),),
                next_edge=e + 1)
    return set_node_face(set_node_face(link_edge(m, e), start, -1), end, -1)


def edge_isolated(m: Map, e: int) -> bool:
    """It ends at two different nodes where no other edge ends."""
    r = edge(m, e)
    return r.start != r.end and edge_ends(m, r.start) == 1 and edge_ends(m, r.end) == 1


def without_edge(m: Map, e: int, face: int) -> Map:
    """The edge unlinked; a node so left bare takes `face`, the face now around it."""
    r = edge(m, e)
    m = unlink_edge(m, e)
    for n in (r.start, r.end):
        if edge_ends(m, n) == 0:
            m = set_node_face(m, n, face)
    return m


# Kind 6.

def with_curve(m: Map, e: int, points: tuple) -> Map:
    return replace(m, edges=changed(m.edges, replace(edge(m, e), points=points)))


def around(m: Map, n: int) -> list:
    """The departures of a node, counterclockwise from due east."""
    out = []
    for d in departures(m, n):
        at = sum(before(way(m, q), way(m, d)) for q in out)
        out.insert(at, d)
    return out


def turned(order: list) -> list:
    """The same cyclic order, from its lowest departure."""
    at = order.index(min(order))
    return order[at:] + order[:at]


def order_changes(m: Map, e: int, points: tuple) -> bool:
    after = with_curve(m, e, points)
    return any(turned(around(m, n)) != turned(around(after, n))
               for n in (edge(m, e).start, edge(m, e).end))


def side_changes(m: Map, e: int, points: tuple) -> bool:
    """Request (i)."""
    after = with_curve(m, e, points)
    own = piece(m, edge(m, e).start)
    marks = ([(n.x, n.y) for n in m.nodes if n.face != -1]
             + [ring_mark(m, r) for r in rings(m) if leaves(m, r[0]) not in own])
    return any((ring_area2(m, r) > 0) != (ring_area2(after, r) > 0)
               or any(encloses(m, r, p) != encloses(after, r, p) for p in marks)
               for r in (ring(m, e), ring(m, -e)))


# Kinds 7 and 8.

def cut(points: tuple, p: tuple) -> tuple:
    """The two halves, cut at the first place along the curve."""
    i = next(i for i, s in enumerate(segments(points)) if on_segment(p, s))
    if p == points[i + 1]:
        return points[:i + 2], points[i + 1:]
    return points[:i + 1] + (p,), (p,) + points[i + 1:]


def renamed(m: Map, names: dict) -> Map:
    """Departures renamed wherever a link names them."""
    return replace(m, edges=tuple(
        replace(e, next_left=names.get(e.next_left, e.next_left),
                next_right=names.get(e.next_right, e.next_right)) for e in m.edges))


def split(m: Map, e: int, p: tuple, keep: bool) -> Map:
    n = m.next_node
    a, b = (e, m.next_edge) if keep else (m.next_edge, m.next_edge + 1)
    m = renamed(m, {e: a, -e: -b})
    old = edge(m, e)
    first, second = cut(old.points, p)
    half_a = replace(old, number=a, end=n, next_left=b, points=first)
    half_b = replace(old, number=b, start=n, next_right=-a, points=second)
    return replace(
        m, nodes=m.nodes + (Node(n, p[0], p[1], -1),), next_node=n + 1,
        edges=(changed(m.edges, half_a) + (half_b,) if keep
               else without(m.edges, e) + (half_a, half_b)),
        next_edge=b + 1)


# Kinds 9 and 10.

def shared_nodes(m: Map, e: int, f: int) -> list:
    """Shared nodes in the order in which a heal looks at them: the first edge's end node,
    then its start node."""
    a, b = edge(m, e), edge(m, f)
    return [n for n in (a.end, a.start) if n in (b.start, b.end)]


def joints(m: Map, e: int, f: int) -> list:
    return [n for n in shared_nodes(m, e, f) if edge_ends(m, n) == 2]


def joined_points(first: tuple, second: tuple) -> tuple:
    """The joint point is dropped when it lies straight between its neighbours."""
    if straight_between(first[-1], first[-2], second[1]):
        return first[:-1] + second[1:]
    return first + second[1:]


def heal_courses(m: Map, e: int, f: int) -> tuple:
    """Two directed edges of which the healed edge consists, in its direction: that of e."""
    n = joints(m, e, f)[0]
    if n == edge(m, e).end:
        return (e, f if leaves(m, f) == n else -f)
    return (f if arrives(m, f) == n else -f, e)


def healed_points(m: Map, e: int, f: int) -> tuple:
    c, d = heal_courses(m, e, f)
    return joined_points(course(m, c), course(m, d))


def heal(m: Map, e: int, f: int, keep: bool) -> Map:
    n = joints(m, e, f)[0]
    c, d = heal_courses(m, e, f)
    h = e if keep else m.next_edge
    names = {c: h, -d: -h}
    row = Edge(h, leaves(m, c), arrives(m, d),
               names.get(follower(m, d), follower(m, d)),
               names.get(follower(m, -c), follower(m, -c)),
               edge(m, e).left, edge(m, e).right, healed_points(m, e, f))
    m = renamed(m, names)
    return replace(
        m, nodes=without(m.nodes, n),
        edges=(without(changed(m.edges, row), f) if keep
               else without(without(m.edges, e), f) + (row,)),
        next_edge=m.next_edge if keep else h + 1)


# Kinds 11 and 12.

def with_borne(m: Map, ds: tuple, f: int) -> Map:
    """Each directed edge of ds bears f."""
    return replace(m, edges=tuple(replace(e, left=f if e.number in ds else e.left,
                                          right=f if -e.number in ds else e.right)
                                  for e in m.edges))


def drawn(m: Map, start: int, end: int, points: tuple) -> Map:
    """The new edge linked in, with its corner face on both sides."""
    return with_edge(m, start, end, points, corner_face(m, start, heading(points)))


def splits_face(m: Map, start: int, end: int, points: tuple) -> bool:
    """e and -e come to lie on different rings."""
    e = m.next_edge
    return -e not in ring(drawn(m, start, end, points), e)


def split_face(m: Map, e: int, new_faces: bool) -> Map:
    """m has the new edge e, on two rings that bear one old face."""
    old = borne(m, e)
    left_ring, right_ring = ring(m, e), ring(m, -e)
    ref_left = ring_area2(m, left_ring) > 0
    ref_ring, other_ring = (left_ring, right_ring) if ref_left else (right_ring, left_ring)
    if new_faces and old != 0:
        left, right = m.next_face, m.next_face + 1
        ref, other = (left, right) if ref_left else (right, left)
        faces = tuple(f for f in m.faces if f != old) + (left, right)
        following = m.next_face + 2
    else:
        ref, other = m.next_face, old
        faces, following = m.faces + (ref,), m.next_face + 1

    def side(p):
        return ref if encloses(m, ref_ring, p) else other

    out = replace(m, faces=faces, next_face=following, nodes=tuple(
        replace(n, face=side((n.x, n.y))) if n.face == old else n for n in m.nodes))
    for r in rings(m):
        if borne(m, r[0]) == old and e not in r and -e not in r:
            out = with_borne(out, r, side(ring_mark(m, r)))
    return with_borne(with_borne(out, ref_ring, ref), other_ring, other)


def add_edge(m: Map, start: int, end: int, points: tuple, new_faces: bool) -> Map:
    e, cuts = m.next_edge, splits_face(m, start, end, points)
    m = drawn(m, start, end, points)
    return split_face(m, e, new_faces) if cuts else m


# Kinds 13 and 14.

def heals_faces(m: Map, e: int) -> bool:
    return edge(m, e).left != edge(m, e).right


def needs_face(m: Map, e: int, new_face: bool) -> bool:
    """Kind 13 makes a new face: two faces heal and neither is 0."""
    return new_face and heals_faces(m, e) and 0 not in (edge(m, e).left, edge(m, e).right)


def remaining_face(m: Map, e: int, new_face: bool) -> int:
    return m.next_face if needs_face(m, e, new_face) else min(edge(m, e).left, edge(m, e).right)


def renamed_faces(m: Map, gone: tuple, f: int) -> Map:
    """Every row that named a face now gone names f."""
    return replace(
        m, nodes=tuple(replace(n, face=f) if n.face in gone else n for n in m.nodes),
        edges=tuple(replace(r, left=f if r.left in gone else r.left,
                            right=f if r.right in gone else r.right) for r in m.edges))


def remove_edge(m: Map, e: int, new_face: bool) -> Map:
    f = remaining_face(m, e, new_face)
    gone = tuple(g for g in (edge(m, e).left, edge(m, e).right) if g != f)
    fresh = needs_face(m, e, new_face)
    m = without_edge(renamed_faces(m, gone, f), e, f)
    return replace(m, faces=tuple(g for g in m.faces if g not in gone) + ((f,) if fresh else ()),
                   next_face=m.next_face + fresh)


# A ticket carried out: the map after it and the value.

def apply(m: Map, ticket: tuple, level: int = 0) -> tuple:
    kind, a = ticket[0], ticket[1:]
    match kind:
        case 1:
            return add_iso_node(m, (a[1], a[2])), m.next_node
        case 2:
            return move_iso_node(m, a[0], (a[1], a[2])), 0
        case 3:
            return remove_iso_node(m, a[0]), 0
        case 4:
            return (with_edge(m, a[0], a[1], curve_kept(ticket, level), node(m, a[0]).face),
                    m.next_edge)
        case 5:
            return without_edge(m, a[0], edge(m, a[0]).left), 0
        case 6:
            return with_curve(m, a[0], curve_kept(ticket, level)), 0
        case 7 | 8:
            return split(m, a[0], (a[1], a[2]), kind == 8), m.next_node
        case 9:
            return heal(m, a[0], a[1], False), m.next_edge
        case 10:
            return heal(m, a[0], a[1], True), 0
        case 11 | 12:
            return (add_edge(m, a[0], a[1], curve_kept(ticket, level), kind == 11),
                    m.next_edge)
        case 13:
            return (remove_edge(m, a[0], True),
                    remaining_face(m, a[0], True) if heals_faces(m, a[0]) else -1)
        case 14:
            return remove_edge(m, a[0], False), 0


# Edges of a face.

def edges_of_face(m: Map, f: int) -> list:
    """Each ring as its length and then its directed edges."""
    return [v for r in rings(m) if borne(m, r[0]) == f for v in (len(r),) + r]


# ---------------------------------------------------------------------------------
# Reasons to turn a ticket down
# ---------------------------------------------------------------------------------

Reasons = list  # of (number, condition): looked at in order, the first that holds answers


def first_reason(reasons: Reasons) -> int:
    return next((number for number, holds in reasons if holds()), 0)


def no_room(m: Map, s: Sizes, nodes: int, edges: int, faces: int) -> bool:
    """The rows after the edit, by how many more there are, would not fit."""
    return (len(m.nodes) + nodes > s.nodes or len(m.edges) + edges > s.edges
            or len(m.faces) + faces > s.faces)


def no_number(m: Map, nodes: int, edges: int, faces: int) -> bool:
    """One of so many new numbers exceeds the last."""
    def spent(following, wanted):
        return wanted > 0 and following + wanted - 1 > LAST_NUMBER
    return spent(m.next_node, nodes) or spent(m.next_edge, edges) or spent(m.next_face, faces)


def bad_point(p: tuple) -> bool:
    return not (coordinate_ok(p[0]) and coordinate_ok(p[1]))


def node_at(m: Map, p: tuple, but: int = 0) -> bool:
    return any((n.x, n.y) == p and n.number != but for n in m.nodes)


def edge_through(m: Map, p: tuple) -> bool:
    return any(on_curve(p, e.points) for e in m.edges)


def node_inside(m: Map, points: tuple) -> bool:
    """A node on the curve at neither of its ends."""
    return any(on_curve((n.x, n.y), points) and (n.x, n.y) not in (points[0], points[-1])
               for n in m.nodes)


def curve_reasons(m: Map, ticket: tuple, start: Callable, end: Callable, level: int) -> Reasons:
    """5 to 8, for the kinds that bring a curve from node start() to node end()."""
    sent = curve_sent(ticket)
    kept = curve_kept(ticket, level)
    return [
        (5, lambda: not 2 <= len(sent) <= m.points or any(bad_point(p) for p in sent)),
        (6, lambda: equal_neighbours(sent)
            or (level < 5 and any(surplus(sent, i) for i in range(len(sent))))),
        (7, lambda: not simple(kept)),
        (8, lambda: kept[0] != place(m, start()) or kept[-1] != place(m, end())),
    ]


def direction_taken(m: Map, n: int, v: tuple, own: int = 0) -> bool:
    """A departure of an edge other than `own` leaves node n in direction v."""
    return any(same_direction(way(m, d), v) for d in departures(m, n) if abs(d) != own)


def direction_reason(m: Map, start: int, end: int, points: tuple, own: int = 0) -> bool:
    return (direction_taken(m, start, heading(points), own)
            or direction_taken(m, end, heading(points[::-1]), own))


def meeting_reasons(m: Map, points: tuple, own: int, level: int) -> Reasons:
    """14 and 15; with request (iv) 14, 23, 15 and 24."""
    others = [e.points for e in m.edges if e.number != own]
    wrong = lambda: any(curves_wrong(points, c) for c in others)
    stretch = lambda: any(curves_stretch(points, c) for c in others)
    crossing = lambda: any(curves_cross(points, c) for c in others)
    inside = (14, lambda: node_inside(m, points))
    if level < 4:
        return [inside, (15, wrong)]
    return [inside, (23, stretch), (15, crossing), (24, wrong)]


def no_node(m: Map, n: int) -> bool:
    return node(m, n) is None


def no_edge(m: Map, e: int) -> bool:
    return edge(m, e) is None


def node_reasons(m: Map, s: Sizes, ticket: tuple) -> Reasons:
    """Kinds 1 to 3."""
    kind, a = ticket[0], ticket[1:]
    match kind:
        case 1:
            f, p = a[0], (a[1], a[2])
            return [
                (4, lambda: f != -1 and not has_face(m, f)),
                (5, lambda: bad_point(p)),
                (10, lambda: node_at(m, p) or edge_through(m, p)),
                (12, lambda: f != -1 and f != face_of_point(m, p)),
                (20, lambda: no_room(m, s, 1, 0, 0)),
                (21, lambda: no_number(m, 1, 0, 0)),
            ]
        case 2:
            n, p = a[0], (a[1], a[2])
            return [
                (4, lambda: no_node(m, n)),
                (5, lambda: bad_point(p)),
                (9, lambda: not isolated(m, n)),
                (10, lambda: node_at(m, p, but=n) or edge_through(m, p)),
            ]
        case 3:
            return [
                (4, lambda: no_node(m, a[0])),
                (9, lambda: not isolated(m, a[0])),
            ]


def iso_edge_reasons(m: Map, s: Sizes, ticket: tuple, level: int) -> Reasons:
    """Kinds 4 and 5."""
    kind, a = ticket[0], ticket[1:]
    match kind:
        case 4:
            u, v, c = a[0], a[1], curve_kept(ticket, level)
            return [
                (4, lambda: no_node(m, u) or no_node(m, v)),
                *curve_reasons(m, ticket, lambda: u, lambda: v, level),
                (9, lambda: u == v or not isolated(m, u) or not isolated(m, v)),
                (12, lambda: node(m, u).face != node(m, v).face),
                *meeting_reasons(m, c, 0, level),
                (20, lambda: no_room(m, s, 0, 1, 0)),
                (21, lambda: no_number(m, 0, 1, 0)),
            ]
        case 5:
            return [
                (4, lambda: no_edge(m, a[0])),
                (9, lambda: not edge_isolated(m, a[0])),
            ]


def redraw_reasons(m: Map, ticket: tuple, level: int) -> Reasons:
    """Kind 6."""
    e, c = ticket[1], curve_kept(ticket, level)
    start, end = lambda: edge(m, e).start, lambda: edge(m, e).end
    return [
        (4, lambda: no_edge(m, e)),
        *curve_reasons(m, ticket, start, end, level),
        (11, lambda: direction_reason(m, start(), end(), c, own=e)),
        *meeting_reasons(m, c, e, level),
        (19, lambda: order_changes(m, e, c)),
        *([(22, lambda: side_changes(m, e, c))] if level >= 1 else []),
    ]


def split_reasons(m: Map, s: Sizes, ticket: tuple) -> Reasons:
    """Kinds 7 and 8."""
    kind, e, x, y = ticket
    p, more = (x, y), 2 if kind == 7 else 1
    return [
        (4, lambda: no_edge(m, e)),
        (5, lambda: bad_point(p)),
        (10, lambda: node_at(m, p)),
        (13, lambda: not on_curve(p, edge(m, e).points)),
        (20, lambda: no_room(m, s, 1, 1, 0)),
        (21, lambda: no_number(m, 1, more, 0)),
    ]


def heal_reasons(m: Map, ticket: tuple) -> Reasons:
    """Kinds 9 and 10."""
    kind, e, f = ticket
    return [
        (4, lambda: no_edge(m, e) or no_edge(m, f)),
        (16, lambda: e == f or not shared_nodes(m, e, f)),
        (17, lambda: not joints(m, e, f)),
        (18, lambda: len(healed_points(m, e, f)) > m.points),
        (21, lambda: kind == 9 and no_number(m, 0, 1, 0)),
    ]


def add_edge_reasons(m: Map, s: Sizes, ticket: tuple, level: int) -> Reasons:
    """Kinds 11 and 12."""
    kind, u, v, c = *ticket[:3], curve_kept(ticket, level)
    corner_u = lambda: corner_face(m, u, heading(c))
    corner_v = lambda: corner_face(m, v, heading(c[::-1]))
    cuts = lambda: splits_face(m, u, v, c)
    wanted = lambda: 0 if not cuts() else 2 if kind == 11 and corner_u() != 0 else 1
    return [
        (4, lambda: no_node(m, u) or no_node(m, v)),
        *curve_reasons(m, ticket, lambda: u, lambda: v, level),
        (11, lambda: direction_reason(m, u, v, c)),
        (12, lambda: corner_u() != corner_v()),
        *meeting_reasons(m, c, 0, level),
        (20, lambda: no_room(m, s, 0, 1, 1 if cuts() else 0)),
        (21, lambda: no_number(m, 0, 1, wanted())),
    ]


def remove_edge_reasons(m: Map, ticket: tuple) -> Reasons:
    """Kinds 13 and 14."""
    kind, e = ticket
    return [
        (4, lambda: no_edge(m, e)),
        (21, lambda: no_number(m, 0, 0, needs_face(m, e, kind == 13))),
    ]


def reasons(m: Map, s: Sizes, ticket: tuple, level: int = 0) -> Reasons:
    """4 and up, for a map in form and a ticket of known kind and right count."""
    match ticket[0]:
        case 1 | 2 | 3:
            return node_reasons(m, s, ticket)
        case 4 | 5:
            return iso_edge_reasons(m, s, ticket, level)
        case 6:
            return redraw_reasons(m, ticket, level)
        case 7 | 8:
            return split_reasons(m, s, ticket)
        case 9 | 10:
            return heal_reasons(m, ticket)
        case 11 | 12:
            return add_edge_reasons(m, s, ticket, level)
        case 13 | 14:
            return remove_edge_reasons(m, ticket)


def refusal(t: Tables, h: Head, ticket: tuple, level: int = 0) -> int:
    """The number of the first reason that holds, or 0."""
    return first_reason([
        (1, lambda: not whole_tables(t, level)),
        (2, lambda: not in_form(t, h, level)),
        (3, lambda: not shape_ok(ticket)),
    ]) or first_reason(reasons(decode(t, h, level), sizes_of(t, level), ticket, level))


# ---------------------------------------------------------------------------------
# The public calls: tables and head after the call, refusal and value
# ---------------------------------------------------------------------------------

def run(t: Tables, h: Head, ticket: tuple, level: int = 0) -> tuple:
    r = refusal(t, h, ticket, level)
    if r:
        return t, h, r, 0
    after, value = apply(decode(t, h, level), ticket, level)
    return *encode(after, sizes_of(t, level), level), 0, value


def make_empty(t: Tables, h: Head, level: int = 0, points: int = MAX_POINTS) -> tuple:
    """The empty map, whatever the tables and head held; with request (ix) under a
    recorded number of points."""
    r = first_reason([
        (1, lambda: not whole_tables(t, level)),
        (2, lambda: level >= 9 and points not in POINT_RECORDS),
    ])
    if r:
        return t, h, r, 0
    return *encode(replace(EMPTY_MAP, points=points), sizes_of(t, level), level), 0, 0


def list_edges_of_face(t: Tables, h: Head, f: int, out: tuple, level: int = 0) -> tuple:
    """The list after the call, refusal and value; the list's remainder is untouched."""
    m = lambda: decode(t, h, level)
    r = first_reason([
        (1, lambda: not whole_tables(t, level)),
        (2, lambda: not in_form(t, h, level)),
        (4, lambda: not has_face(m(), f)),
        (20, lambda: len(edges_of_face(m(), f)) > len(out)),
    ])
    if r:
        return out, r, 0
    written = tuple(edges_of_face(m(), f))
    return written + tuple(out[len(written):]), 0, len(written)
