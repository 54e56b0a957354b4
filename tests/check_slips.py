#!/usr/bin/env python3
"""Slips in the definitions that must not pass, each made in a copy of the repository.

  check_slips.py [NAME..]     all of them, or those named; all take twenty minutes and more

GROWN: slips that the theorem over every list of tickets must refuse. `grown` must not be proved, with the P cases and
the worked examples left out. For each a list of tickets is computed, after which a statement of the theorem is true
without the slip and false under it: the theorem itself is false there, and not only a proof that no longer fits.
WORKED: slips of what a call does or of what is in form, most of which the theorem need not notice. The worked examples
of `map` must fail, and for contents those of `nesting`.

Needs the Rattle kit (`rt`). One prover at a time: not beside check_definitions.py or the gate.
An edit of the gate's must-fail changes one crate and checks that crate; the theorem stands in a crate above the
definitions, hence this script.
"""

import pathlib
import re
import shutil
import subprocess
import sys
import tempfile

from repository import ROOT, needed

MAP = 'crates/map/specs/'
PROOFS = 'crates/map/proofs/'
MAP_EXAMPLES = tuple(f'Worked{part}.antt' for part in ('', 'Sides', 'Rectangles', 'Meetings', 'Surplus', 'Points'))
EXAMPLES = *MAP_EXAMPLES, 'Examples.antt'
CONTENTS = 'crates/nesting/specs/Contents.antt'
EDITS, REASONS, FORM, TICKET, ROWS, LIMITS = (
    MAP + f'{n}.antt' for n in ('Edits', 'Reasons', 'Form', 'Ticket', 'Rows', 'Limits'))

# the statements of the theorem that are told, the four of demand 3 first, and what computes each of the map m in the
# tables l
STATEMENTS = {
    'links once': 'links_once m',
    'rings bear one': 'rings_bear_one m',
    'curves apart': 'all_of (λ e. not (is_met (edge_meeting (without_edge e.number m.edges) e.curve))) m.edges',
    'sum': 'same (length m.nodes + length m.faces) (length m.edges + piece_count m + 1)',
    'in form': 'in_form l',
}
LOOP = ('1 -1 0 0', '12 1 1 0 0 10 0 10 10 0 10 0 0')

# name: file, old, new, the statement that is false, the tickets after which it is
GROWN = {
    'other rings half relabelled': (
        EDITS,
        'with_sides (side_of_dart m s (fwd e.number)) (side_of_dart m s (bwd e.number)) e',
        'with_sides (side_of_dart m s (fwd e.number)) (bears m (bwd e.number)) e',
        'rings bear one', ('1 -1 0 0', '1 -1 10 10', '12 1 2 0 0 10 0 10 10', '12 1 2 0 0 0 10 10 10')),
    'led to the wrong place': (
        MAP + 'Links.antt',
        "let m' = redirect (fwd e) (next m (bwd e)) m in",
        "let m' = redirect (fwd e) (next m (fwd e)) m in",
        'links once', ('1 -1 0 0', '1 -1 5 0', '1 -1 9 4', '4 1 2 0 0 5 0', '12 2 3 5 0 9 4', '13 2')),
    'joint node kept': (
        EDITS,
        'set_nodes (without_node (get_or (joint m e f) 0) m.nodes)\n',
        'set_nodes m.nodes\n',
        'in form', (*LOOP, '8 1 10 4', '10 1 2')),    # the node is a piece of its own: the sum holds
    'pieces of edges': (
        MAP + 'Darts.antt',
        'piece_count m = pieces (map (λ n. n.number) m.nodes) (arcs m)',
        'piece_count m = pieces (map (λ e. e.start) m.edges) (arcs m)',
        'sum', ('1 -1 0 0',)),
    'old number on both sides': (
        EDITS,
        'ref = cond (is_left || not goes) a b;',
        'ref = cond (is_left && goes) a b;',
        'sum', (*LOOP, '14 1')),
    'no new face': (
        EDITS,
        '(m.faces ++ a ∷ []) in\n    set_faces faces',
        'm.faces in\n    set_faces faces',
        'sum', LOOP),
    'face of the removed edge stays': (
        EDITS,
        'let left = keep (λ g. same g (renamed (edge m e) f g)) m.faces in',
        'let left = m.faces in',
        'sum', (*LOOP, '14 1')),
    'curves cross': (
        REASONS,
        '(15, same found 15)',
        '(15, false)',
        'curves apart', ('1 -1 0 0', '1 -1 9 9', '1 -1 0 9', '1 -1 9 0', '4 1 2 0 0 9 9', '4 3 4 0 9 9 0')),
    'split relinks nothing': (
        EDITS,
        "let m' = redirect (bwd e) (bwd b) (redirect (fwd e) (fwd a) m) in",
        "let m' = m in",
        'links once', (*LOOP, '7 1 10 4')),
    'rectangles of no edges': (
        ROWS,
        'lent_of s m = lent_with (rectangle m.edges) s m',
        'lent_of s m = lent_with (rectangle []) s m',
        'in form', LOOP),
}

FACES = MAP + 'Faces.antt'
TESTS = ('Prelude.{Bool, cond, ℕ, ltb, ℤ, pos, ◌+ℤ◌}',
         'Prelude.{Bool, cond, ◌&&◌, ◌||◌, ℕ, ltb, ℤ, pos, ◌+ℤ◌}\nuse Rattle.lists.specs.Tests.{same}')
# the segment passes below p, or its end of greater x is below p
PASSES = ('(λ s. passes_below p s || same (ordered s).to.x p.x && ltb (ordered s).from.x p.x'
          ' && ltb (ordered s).to.y p.y)')

# how the map's definitions word what a curve meets, and what they take for it from those of curves
EDGES, MET = 'edge_meeting es c = gravest (map (λ e. meeting c e.curve) es)', 'meeting, gravest}'
ABOVE = '-- over all edges, the gravest that the curve does with one\n'
CONTACTS = 'None', 'Touch', 'Crossing', 'Stretch'
# contacts by place
FIRST_MET = '''abbrev first_met : List Contact → Contact
first_met [] = None
first_met (k ∷ ks) = cond (is_met k) k (first_met ks)

'''
LAST_MET = '''abbrev last_met : List Contact → Contact
last_met [] = None
last_met (k ∷ ks) = let later = last_met ks in cond (is_met later) later k

'''
# two curves, by a choice from the contacts of their segments, each changed before
CURVES_BY = '''abbrev seg_by : (Point → Point → Point → Point → Contact → Contact) → List Point
    → Point → Point → Point → Point → Contact
seg_by change l a b p q = change a b p q (seg_meeting l a b p q)

abbrev curves_by : (List Contact → Contact) → (Point → Point → Point → Point → Contact → Contact)
    → Curve → Curve → Contact
curves_by choose change c d =
    let l = common_ends c d in
    choose (map (λ s. choose (map (λ t. seg_by change l s.from s.to t.from t.to) (segments d))) (segments c))

'''
CURVES_USED = ('point, curve_of, coordinate, is_run_to}', 'point, curve_of, coordinate, is_run_to, segments}')
TWELVE_USED = (CURVES_USED[0], 'point, curve_of, coordinate, is_run_to, max_points}')
AS_FOUND = '''abbrev as_found : Point → Point → Point → Point → Contact → Contact
as_found a b p q k = k

'''
# a touch is a crossing where a point of one lies inside the segment of the other
INNER = '''abbrev inner_crosses : Point → Point → Point → Point → Contact → Contact
inner_crosses a b p q None = None
inner_crosses a b p q Touch =
    cond (straight_between p a q || straight_between p b q || straight_between a p b || straight_between a q b)
    Crossing Touch
inner_crosses a b p q Crossing = Crossing
inner_crosses a b p q Stretch = Stretch

'''


def ranking(*order):
    """The definition of `ranked`: the first of a list by another order."""
    first = lambda j, k: next(c for c in (*order, 'None') if c in (j, k))
    rows = ''.join(f'ranked_two {j} {k} = {first(j, k)}\n' for j in CONTACTS for k in CONTACTS)
    return ('abbrev ranked_two : Contact → Contact → Contact\n' + rows
            + '\nabbrev ranked : List Contact → Contact\nranked [] = None\n'
              'ranked (k ∷ ks) = ranked_two k (ranked ks)\n\n')


def by_segments(choose, above, change='as_found'):
    """Curves that meet by another choice, or with segments told apart otherwise; edges by the same choice. What is
    chosen by, or the change, stands above."""
    used = 'seg_meeting, common_ends' + {'gravest': ', gravest', 'first_met': ', is_met'}.get(choose, '')
    return (REASONS, EDGES, f'edge_meeting es c = {choose} (map (λ e. curves_by {choose} {change} c e.curve) es)',
            ABOVE, above + AS_FOUND * (change == 'as_found') + CURVES_BY + ABOVE, MET, used + '}', *CURVES_USED)


def stored(edit):
    """An edit that stores the points sent."""
    return (TICKET, f'{edit} (curve_in sent) m', f'{edit} (curve_of sent) m',
            'use Rattle.curves.specs.Curves.{point}', 'use Rattle.curves.specs.Curves.{point, curve_of}')


# name: file, old, new, and more of both
WORKED = {
    'face of a point: ties to the later': (
        FACES,
        'cond (higher x g.segment f.segment) g f', 'cond (higher x f.segment g.segment) f g'),
    'face of a point: the first below': (
        FACES, 'highest x (cond (higher x g.segment f.segment) g f) r', 'highest x f r'),
    'face of a point: slopes do not count': (
        FACES,
        'higher x g.segment f.segment',
        'is_positive (sgn (height x g.segment *ℤ (along f.segment).dx'
        ' -ℤ height x f.segment *ℤ (along g.segment).dx))',
        'ltb, ℤ, pos, ◌+ℤ◌}', 'ltb, ℤ, pos, ◌+ℤ◌, ◌-ℤ◌, ◌*ℤ◌}',
        'use Rattle.plane.specs.Below.{Segment, ordered, passes_below, higher}',
        'use Rattle.integers.specs.Order.{sgn}\nuse Rattle.plane.specs.Areas.{is_positive}\n'
        'use Rattle.plane.specs.Below.{Segment, ordered, passes_below, along, height}'),
    'face of a point: x up to x2': (FACES, 'keep (passes_below p)', f'keep {PASSES}', *TESTS),
    'enclosed: x up to x2': (
        FACES, 'odd_below (course m d) p', f'odd_count (segments (course m d)) {PASSES}', *TESTS),
    'face of a point: the lower side': (
        FACES, 'e.left e.right', 'e.right e.left'),
    'enclosed: an edge counts once': (
        FACES, 'encloses m r p = odd_count r (',
        'encloses m r p = odd_count (keep (λ d. ltb 0 (cond d.back 0 1)) r) ('),
    'isolated nodes stay behind': (
        EDITS, '(with_face (some (side_of_point m s n.at)) n) n', '(with_face (some s.other) n) n'),
    'other rings stay behind': (
        EDITS, 'let elsewhere = side_of_ring m s d in', 'let elsewhere = s.other in'),
    'other rings by any edge': (
        EDITS, '(edge m (lowest_edge d.edge (ring m d))).start', '(edge m d.edge).start'),
    'other rings by the end node': (
        EDITS, '(edge m (lowest_edge d.edge (ring m d))).start', '(edge m (lowest_edge d.edge (ring m d))).end'),
    'reference side is left': (
        EDITS, 'let is_left = is_positive (sgn (ring_area m left)) in', 'let is_left = true in'),
    'reference side takes the lower number': (
        EDITS,
        'ref = cond (is_left || not goes) a b;\n      other = cond (is_left || not goes) b a;',
        'ref = a;\n      other = b;'),
    'face 0 goes': (
        EDITS, 'let goes = is_new how && not (same old 0) in', 'let goes = is_new how in'),
    '22: the ring on the left alone': (
        REASONS, "|| ring_changes m m' ps (ring m (bwd e))", "|| ring_changes m m' ps (ring m (fwd e))"),
    '22: the ring on the right alone': (
        REASONS, "ring_changes m m' ps (ring m (fwd e)) ||", "ring_changes m m' ps (ring m (bwd e)) ||"),
    '22: the area does not count': (
        REASONS, "⊕ is_positive (sgn (ring_area m' r))", '⊕ is_positive (sgn (ring_area m r))'),
    '22: area 0 is positive': (
        REASONS,
        "is_positive (sgn (ring_area m r)) ⊕ is_positive (sgn (ring_area m' r))",
        "is_positive (sgn (neg_ℤ (ring_area m r))) ⊕ is_positive (sgn (neg_ℤ (ring_area m' r)))",
        'negsuc, nat_abs, length}', 'negsuc, neg_ℤ, nat_abs, length}'),
    '22: isolated nodes do not count': (
        REASONS, 'isolated_points m ++ other_piece_points m n', 'other_piece_points m n'),
    '22: other pieces do not count': (
        REASONS, '++ other_piece_points m n', '++ []'),
    '22: isolated nodes of face 0 do not count': (
        REASONS, '(keep (λ n. is_some n.face) m.nodes)',
        '(keep (λ n. not (same (get_or n.face 0) 0)) m.nodes)'),
    '22: other rings of the piece count': (
        REASONS, 'not (same (piece_of m (leaves m d)) (piece_of m n))', 'not (same (leaves m d) n)'),
    '22: rings by any edge': (
        REASONS, '(piece_of m n))) (firsts m))', '(piece_of m n))) (directed m))',
        'Darts.{leaves, departures, edge_ends, way, ring, firsts, piece_of}',
        'Darts.{directed, leaves, departures, edge_ends, way, ring, piece_of}'),
    '22: rings by the end node': (
        REASONS, '(node m (edge m d.edge).start).at', '(node m (edge m d.edge).end).at'),
    '22: rings by the node that their first member leaves': (
        REASONS, '(node m (edge m d.edge).start).at', '(node m (leaves m d)).at'),
    '22 before 19': (
        REASONS,
        '(19, order_changes m e c)\n    ∷ (22, sides_change m e c)',
        '(22, sides_change m e c)\n    ∷ (19, order_changes m e c)'),
    '23: a stretch is a crossing': (REASONS, 'contact_reason Stretch = 23', 'contact_reason Stretch = 15'),
    '24: a touch is a crossing': (REASONS, 'contact_reason Touch = 24', 'contact_reason Touch = 15'),
    '24: a crossing is a touch': (REASONS, 'contact_reason Crossing = 15', 'contact_reason Crossing = 24'),
    '23 for 24': (
        REASONS, 'contact_reason Touch = 24', 'contact_reason Touch = 23',
        'contact_reason Stretch = 23', 'contact_reason Stretch = 24'),
    '23: the first edge that is met': (
        REASONS, EDGES, EDGES.replace('gravest', 'first_met'), ABOVE, FIRST_MET + ABOVE, MET, 'meeting, is_met}'),
    '23: the last edge that is met': (
        REASONS, EDGES, EDGES.replace('gravest', 'last_met'), ABOVE, LAST_MET + ABOVE, MET, 'meeting, is_met}'),
    '23: by place': by_segments('first_met', FIRST_MET),
    '15 before 23': by_segments('ranked', ranking('Crossing', 'Stretch', 'Touch')),
    '24 before 15': by_segments('ranked', ranking('Stretch', 'Touch', 'Crossing')),
    '15: a point inside a segment crosses': (
        *by_segments('gravest', INNER, 'inner_crosses'),
        'use Rattle.plane.specs.Points.{same_point}\n',
        'use Rattle.plane.specs.Points.{same_point}\nuse Rattle.plane.specs.Segments.{straight_between}\n'),
    '23: the own edge too': (
        REASONS, 'meeting_reasons m (without_edge e m.edges) c', 'meeting_reasons m m.edges c',
        'use Rattle.map.specs.Rows.{without_edge, counts}', 'use Rattle.map.specs.Rows.{counts}'),
    '15 before 14': (
        REASONS,
        '(14, node_inside m c)\n    ∷ (23, same found 23)\n    ∷ (15, same found 15)',
        '(15, same found 15)\n    ∷ (14, node_inside m c)\n    ∷ (23, same found 23)'),
    '23 before 14': (
        REASONS,
        '(14, node_inside m c)\n    ∷ (23, same found 23)', '(23, same found 23)\n    ∷ (14, node_inside m c)'),
    '24 never': (REASONS, '(24, same found 24)', '(24, false)'),
    '23 before 11': (
        REASONS,
        '(11, direction_taken m m.next.edges a b c)\n    ∷ (12, corners_differ m a b c)\n'
        '    ∷ meeting_reasons m m.edges c\n    ++ room_reasons',
        'meeting_reasons m m.edges c\n    ++ (11, direction_taken m m.next.edges a b c)\n'
        '    ∷ (12, corners_differ m a b c)\n    ∷ room_reasons'),
    'surplus: nothing is dropped': (
        REASONS, 'curve_in sent = without_surplus (curve_of sent)', 'curve_in sent = curve_of sent'),
    'surplus: kind 4 stores the points sent': stored('add_iso_edge (nat_abs u) (nat_abs v)'),
    'surplus: kind 6 stores the points sent': stored('change_edge_geom (nat_abs e)'),
    'surplus: kind 11 stores the points sent': stored('add_edge New (nat_abs u) (nat_abs v)'),
    'surplus: kind 12 stores the points sent': stored('add_edge Mod (nat_abs u) (nat_abs v)'),
    'surplus: 7 to 24 by the points sent': (REASONS, 'sent ++ rest (curve_in sent)', 'sent ++ rest (curve_of sent)'),
    'surplus: 5 by the points left': (
        REASONS, '(5, bad_curve most sent)',
        '(5, bad_curve most (coordinates (points (without_surplus (curve_of sent)))))',
        CURVES_USED[0], 'point, curve_of, coordinate, is_run_to, coordinates}'),
    '6: straight points too': (
        REASONS, '(6, not (neighbours_differ (curve_of sent)))',
        '(6, not (neighbours_differ (curve_of sent)) || straight_inside (curve_of sent))',
        'Tests.{neighbours_differ, on_curve', 'Tests.{neighbours_differ, straight_inside, on_curve'),
    '6: never': (REASONS, '(6, not (neighbours_differ (curve_of sent)))', '(6, false)'),
    'value of kind 4': (
        TICKET, '(add_iso_edge (nat_abs u) (nat_abs v) (curve_in sent) m, pos m.next.edges)',
        '(add_iso_edge (nat_abs u) (nat_abs v) (curve_in sent) m, pos m.next.nodes)'),
    'value of kind 13 where none healed': (
        TICKET, '(negsuc 0),\n)', '(pos 0),\n)'),
    'a bare node goes to face 0': (
        EDITS, "(with_face (some f)) m'", "(with_face (some 0)) m'"),
    'nodes of a face that goes': (
        EDITS, 'renamed_node e f n (some g) = with_face (some (renamed e f g)) n', 'renamed_node e f n (some g) = n'),
    '12: any given face': (
        REASONS, '(12, not (minus_one f) && not (same (nat_abs f) (face_of_point m p)))', '(12, false)'),
    '14: only at a corner': (
        REASONS, '(λ n. on_curve c n.at &&', '(λ n. any_of (same_point n.at) (points c) &&'),
    '18: at the record': (
        REASONS, '(18, ltb (most_points s.limit) (length (points (healed_curve m a b))))',
        '(18, ltb (most_points s.limit) (suc (length (points (healed_curve m a b)))))'),
    '18: not at one point more': (
        REASONS, '(18, ltb (most_points s.limit) (', '(18, ltb (suc (most_points s.limit)) ('),
    '18: by 12 whatever the record': (
        REASONS, '(18, ltb (most_points s.limit) (', '(18, ltb max_points (', *TWELVE_USED),
    '5: by 12 whatever the record': (
        REASONS, 'sent_reasons (most_points s.limit) sent', 'sent_reasons max_points sent', *TWELVE_USED),
    '21: at 999,999': (
        REASONS, 'ltb (suc last_number) (m.next.nodes', 'ltb last_number (m.next.nodes'),
    '21: kind 7 needs one number': (
        REASONS, '(counts 1 (cond (is_mod how) 1 2) 0)', '(counts 1 1 0)'),
    '21: 13 always needs a face': (
        REASONS, '(counts 0 0 (bit (makes_face New (nat_abs e) m)))', '(counts 0 0 1)'),
    'edges of a face: -e before e': (
        MAP + 'Darts.antt', 'not c.back && d.back', 'c.back && not d.back'),
    'edges of a face: the remainder goes': (
        TICKET, 'list = written ++ drop (length written) list;', 'list = written;'),
    'edges of a face: room to spare': (
        TICKET, '(20, ltb (length list) (length written))', '(20, ltb (length list) (suc (length written)))'),
    'form: departures': (FORM, '    && departures_differ m\n', ''),
    'form: marks': (FORM, '    && bare_marked m\n', ''),
    'form: links once': (FORM, '    && links_once m\n', ''),
    'form: links meet': (FORM, '    && links_meet m\n', ''),
    'form: rings': (FORM, '    && rings_bear_one m', ''),
    'form: named nodes': (FORM, 'has_node m e.start && has_node m e.end && has_edge', 'has_edge'),
    'form: zero rows': (FORM, '    && rest_zero edge_width l.head.edges l.edges\n', ''),
    'form: face 0': (FORM, ' && same (first_or 1 m.faces) 0', ''),
    'form: rectangles': (FORM, ' && boxed l', ''),
    'rectangle of face 0': (ROWS, 'rectangle es zero = box_of []', 'rectangle es zero = box_of (boundary es 0)'),
    'rectangle: inner points left out': (
        ROWS, 'flat_map (λ e. points e.curve)', 'flat_map (λ e. e.curve.first ∷ last_point e.curve ∷ [])',
        'Curves.{Curve, points, point,', 'Curves.{Curve, points, last_point, point,'),
    'rectangle: left sides alone': (
        ROWS, 'borders f e = same e.left f || same e.right f', 'borders f e = same e.left f'),
    'rectangle: right sides alone': (
        ROWS, 'borders f e = same e.left f || same e.right f', 'borders f e = same e.right f'),
    'rectangle: y before x': (
        ROWS, 'pos (box f).left ∷ pos (box f).low ∷', 'pos (box f).low ∷ pos (box f).left ∷'),
    'rectangle: greatest before least': (
        ROWS,
        'pos (box f).left ∷ pos (box f).low ∷ pos (box f).right ∷ pos (box f).high',
        'pos (box f).right ∷ pos (box f).high ∷ pos (box f).left ∷ pos (box f).low'),
    'form: the record': (
        FORM, '    && is_record l.head.points\n', '    && true\n', 'most_points, is_record,', 'most_points,'),
    'form: point counts by 12 whatever the record': (
        FORM, 'all_of (edge_ranges_to (most_points (sizes_of l).limit)) (edge_rows l)',
        'all_of (edge_ranges_to max_points) (edge_rows l)', 'most_points, is_record,', 'is_record,'),
    'a record of 7': (
        LIMITS, '|| same_z k (pos max_points)', '|| (same_z k (pos 7) || same_z k (pos max_points))'),
    'created for 12 whatever is asked for': (
        TICKET, 'created_unless l (sizes_for (limit_of k) l) (', 'created_unless l (sizes_for TwelvePoints l) (',
        'Limits.{is_record, limit_of}', 'Limits.{is_record, TwelvePoints}'),
    'created: 2 before 1': (
        TICKET, '(1, not (whole l)) ∷ (2, not (is_record k)) ∷ []', '(2, not (is_record k)) ∷ (1, not (whole l)) ∷ []'),
    'form: unused points': (FORM, '\n    && all_of is_zero (drop (2 * nat_abs (cell r 7)) (drop 8 r))', ''),
    'contents: the one that led there is listed again': (
        CONTENTS, 'keep (λ y. not (is_it y led)) ys', 'keep (λ y. true || is_it y led) ys'),
    'contents: lone nodes are in no face': (
        CONTENTS, 'is_in m p f = ring_bears m p f || node_bears m p f',
        'is_in m p f = ring_bears m p f || ring_bears m p f'),
    'contents: rings are in no face': (
        CONTENTS, 'is_in m p f = ring_bears m p f || node_bears m p f',
        'is_in m p f = node_bears m p f || node_bears m p f'),
    'contents: a piece has the rings at its lowest node alone': (
        CONTENTS, 'same (piece_of m (leaves m d)) p', 'same (leaves m d) p'),
    'contents: the depth stays': (
        CONTENTS, 'lines k beneath (not b) y (some x) (suc d)', 'lines k beneath (not b) y (some x) d'),
    'contents: a face is taken for the piece of its number': (
        CONTENTS, 'beq l.piece b && same l.number x', 'same l.number x'),
    'contents: a list of just the room is too short': (
        CONTENTS, '(20, ltb (length list) (length written))', '(20, ltb (length list) (suc (length written)))'),
    'contents: one is missed': (
        CONTENTS, 'cond (ltb (length ls) n) none (some ls)', 'cond (ltb n (length ls)) none (some ls)'),
    'contents: from face 1 on': (
        CONTENTS, '(listed_under m) false 0 none 0 [])', '(listed_under m) false 1 none 0 [])'),
    'contents: 1 for a face, 0 for a piece': (
        CONTENTS, 'pos (bit l.piece)', 'pos (bit (not l.piece))'),
    'contents: 2 is not looked at': (
        CONTENTS, 'first_reason (lent_reasons l ++ (28,', 'first_reason ((1, not (whole l)) ∷ (28,',
        'use Rattle.map.specs.Rows.{Map, Lent, map_of}', 'use Rattle.map.specs.Rows.{Map, Lent, map_of, whole}',
        '{Listed, lent_reasons, list_unless}', '{Listed, list_unless}'),
    'contents: the remainder is cut off': (
        CONTENTS, 'list_unless list written\n', 'list_unless (take (length written) list) written\n',
        'ℤ, pos, length}', 'ℤ, pos, length, take}'),
}

WITNESS = '''use Rattle.std.specs.Prelude.{◌≡◌, refl, Bool, true, false, not, List, [], ◌∷◌, ◌+◌}
use Rattle.std.specs.Prelude.{ℤ, pos, negsuc, length}
use Rattle.lists.specs.Tests.{same}
use Rattle.lists.specs.Scans.{all_of}
use Rattle.curves.specs.Tests.{is_met}
use Rattle.map.specs.Limits.{TwelvePoints}
use Rattle.map.specs.Rows.{Lent, Sizes, map_of, without_edge}
use Rattle.map.specs.Darts.{piece_count}
use Rattle.map.specs.Form.{links_once, rings_bear_one, in_form}
use Rattle.map.specs.Reasons.{edge_meeting}
use Rattle.map.specs.Grow.{grow}
use Rattle.map.proofs.Opened.{opened}

abbrev room : Sizes
room = record { nodes = 9; edges = 9; faces = 9; limit = TwelvePoints }

abbrev stated : Lent → Bool
stated l = let m = map_of l in %s

abbrev after : Bool
after = stated (grow room (%s)).lent

pub holds : after ≡ true
unfolding opened
holds = refl

pub fails : after ≡ false
unfolding opened
fails = refl
'''


def numbers(line):
    return '(' + ''.join(f'pos {n} ∷ ' if n >= 0 else f'negsuc {-n - 1} ∷ ' for n in map(int, line.split())) + '[])'


def witness(copy, statement, tickets):
    """Whether the statement is true after the tickets, by the definitions of the copy."""
    lib, file = copy / PROOFS / 'Lib.antt', copy / PROOFS / 'Witness.antt'
    text = lib.read_text()
    file.write_text(WITNESS % (STATEMENTS[statement], ''.join(f'{numbers(t)} ∷ ' for t in tickets) + '[]'))
    lib.write_text(text + 'pub mod Witness\n')
    _, errors = check(copy, 'map')
    lib.write_text(text)
    file.unlink()
    refuted = [re.search('error: `(.*?)`', e)[1] for e in errors if 'Witness.antt' in e]
    assert refuted in (['fails'], ['holds']), refuted
    return refuted == ['fails']


def check(copy, crate):
    """Whether the crate is proved, and the errors, in the crate or in the library below it that is not proved."""
    run = subprocess.run(['rt', 'check'], cwd=copy / 'crates' / crate, stdout=subprocess.PIPE, stderr=subprocess.STDOUT,
                         text=True)
    errors = [l.removeprefix('./') for l in run.stdout.split('\n') if re.match(r'\S+:\d+:\d+: error', l)]
    assert not any(e.startswith('specs/') for e in errors), errors    # a slip that is no definition
    assert errors or run.returncode == 0, run.stdout[-2000:]
    return run.returncode == 0, errors


def slipped(copy, path, *words):
    """The text of the file before the slip is made in it."""
    before = text = (copy / path).read_text()
    for old, new in zip(words[::2], words[1::2]):
        assert text.count(old) == 1, f'{old}: {text.count(old)} places'
        text = text.replace(old, new)
    (copy / path).write_text(text)
    return before


def grown(copy, name):
    path, old, new, statement, tickets = GROWN[name]
    left_out = {n: (copy / PROOFS / n).read_text() for n in ('Sheet.antt', *MAP_EXAMPLES)}
    for n, text in left_out.items():
        (copy / PROOFS / n).write_text(re.split(r'\npub (?:P|Worked\w*) : ', text)[0] + '\n')
    held = witness(copy, statement, tickets)
    before = slipped(copy, path, old, new)
    false = held and not witness(copy, statement, tickets)
    proved, errors = check(copy, 'grown')
    (copy / path).write_text(before)
    for n, text in left_out.items():
        (copy / PROOFS / n).write_text(text)
    said = f'false ({statement})' if false else f'NO WITNESS ({statement})'
    print(f'{name}: {"NOT REFUSED" if proved else "refused"}, {said}; {errors[0][:110] if errors else ""}', flush=True)
    return false and not proved


def worked(copy, name):
    path = WORKED[name][0]
    before = slipped(copy, *WORKED[name])
    _, errors = check(copy, 'nesting' if path == CONTENTS else 'map')
    (copy / path).write_text(before)
    files = [e.split(':')[0].split('/')[-1] for e in errors]
    found = [f for f in files if f in EXAMPLES]
    other = sorted({f for f in files if f not in EXAMPLES})
    print(f'{name}: {"refused" if found else "NOT REFUSED"}{"; beside it " * bool(other)}{" ".join(other)}', flush=True)
    return bool(found)


def refused(names):
    """Each slip tried in one copy of the repository, by name."""
    with tempfile.TemporaryDirectory() as folder:
        copy = pathlib.Path(folder) / 'copy'
        shutil.copytree(ROOT, copy, ignore=shutil.ignore_patterns('.git', '__pycache__', 'out', 'target'))
        return {n: grown(copy, n) if n in GROWN else worked(copy, n) for n in names}


def counted(results, slips):
    tried = [refused for name, refused in results.items() if name in slips]
    return f'{sum(tried)} of {len(tried)}'


def main():
    needed('rt', 'the Rattle kit')
    names = sys.argv[1:] or [*GROWN, *WORKED]
    unknown = [n for n in names if n not in GROWN and n not in WORKED]
    if unknown:
        sys.exit(f'no such slip: {", ".join(unknown)}')
    results = refused(names)
    print(f'{counted(results, GROWN)} refused by the theorem, {counted(results, WORKED)} by the worked examples')
    return 0 if all(results.values()) else 1


if __name__ == '__main__':
    sys.exit(main())
