//! Solgwid for Rust: a map with its tables, over the static library. See solgwid.h for list lengths, threads and stack.
//!
//!     (cd crates/solgwid && rt lib) && rustc --edition 2021 program.rs -L crates/solgwid/out -l static=solgwid
#![allow(dead_code)]

use std::fmt;

/// The landing (docs/LANDINGS.md). It rises with each landing that changes what a call takes or does.
pub const VERSION: u32 = 18;

/// Rows of a table, at most.
pub const MAX_NODES: usize = 1000;
pub const MAX_EDGES: usize = 2000;
pub const MAX_FACES: usize = 1000;
/// Points of a curve, at most; at least 2.
pub const MAX_POINTS: usize = 12;
/// Points of a curve in a map for a plotting program, at most. 12 and 6 are the records of points.
pub const PLOTTER_POINTS: usize = 6;
/// Coordinates are 0 to this.
pub const MAX_COORDINATE: i64 = 1_048_575;
/// The last number of a node, edge or face.
pub const LAST_NUMBER: i64 = 999_999;

/// Numbers of a row, and of the head.
pub const NODE_WIDTH: usize = 4;
pub const EDGE_WIDTH: usize = 32;
pub const FACE_WIDTH: usize = 5;
pub const HEAD_WIDTH: usize = 7;
/// Numbers of a line of the contents.
pub const LINE_WIDTH: usize = 3;

unsafe extern "C" {
    fn solgwid_empty_map(
        nodes: *mut i64, nodes_length: usize, edges: *mut i64, edges_length: usize,
        faces: *mut i64, faces_length: usize, head: *mut [i64; HEAD_WIDTH], points: i64,
    ) -> u64;
    fn solgwid_ticket(
        nodes: *mut i64, nodes_length: usize, edges: *mut i64, edges_length: usize,
        faces: *mut i64, faces_length: usize, head: *mut [i64; HEAD_WIDTH],
        numbers: *const i64, numbers_length: usize, value: *mut i64,
    ) -> u64;
    fn solgwid_edges_of_face(
        nodes: *const i64, nodes_length: usize, edges: *const i64, edges_length: usize,
        faces: *const i64, faces_length: usize, head: *const [i64; HEAD_WIDTH], face: i64,
        list: *mut i64, list_length: usize, value: *mut i64,
    ) -> u64;
    fn solgwid_contents(
        nodes: *const i64, nodes_length: usize, edges: *const i64, edges_length: usize,
        faces: *const i64, faces_length: usize, head: *const [i64; HEAD_WIDTH],
        list: *mut i64, list_length: usize, value: *mut i64,
    ) -> u64;
    fn solgwid_run(
        nodes: *mut i64, nodes_length: usize, edges: *mut i64, edges_length: usize,
        faces: *mut i64, faces_length: usize, head: *mut [i64; HEAD_WIDTH], points: i64,
        numbers: *const i64, numbers_length: usize, lengths: *const usize, lengths_length: usize,
        refusals: *mut u64, refusals_length: usize, values: *mut i64, values_length: usize,
    ) -> u64;
}

/// Why a call was turned down: the first reason against it. Nothing of the map differs then.
#[derive(Clone, Copy, Debug, PartialEq, Eq, Hash)]
#[repr(u64)]
pub enum Refusal {
    NotWhole = 1,
    NotInForm = 2,
    BadTicket = 3,
    MissingRow = 4,
    OutOfRange = 5,
    RedundantPoint = 6,
    NotSimple = 7,
    EndsOffNodes = 8,
    NotIsolated = 9,
    PointTaken = 10,
    SameDirection = 11,
    FacesDiffer = 12,
    NotOnEdge = 13,
    CrossesNode = 14,
    CrossesEdge = 15,
    NotAdjacent = 16,
    OtherEdges = 17,
    TooManyPoints = 18,
    OrderChanges = 19,
    NoRoom = 20,
    NumbersUsedUp = 21,
    SidesChange = 22,
    OverlapsEdge = 23,
    TouchesEdge = 24,
    NotNested = 28,
    /// A number that this file does not name: it belongs to another version of the library.
    Unknown = u64::MAX,
}

/// The refusals from 1 on, with their texts.
const REFUSALS: [(Refusal, &str); 25] = [
    (Refusal::NotWhole, "a table is not whole rows or exceeds a limit, or the face table is empty"),
    (Refusal::NotInForm, "the tables and the head are not in form, or the record of points is neither 6 nor 12"),
    (Refusal::BadTicket, "the kind is unknown, or its count of numbers is wrong"),
    (Refusal::MissingRow, "a named node, edge or face is missing"),
    (
        Refusal::OutOfRange,
        "a coordinate is out of range, or the curve has too few points or more than the map allows",
    ),
    (Refusal::RedundantPoint, "neighbouring points of the curve are equal"),
    (Refusal::NotSimple, "the curve meets itself other than by closing"),
    (Refusal::EndsOffNodes, "the curve does not start and end on its nodes' points"),
    (Refusal::NotIsolated, "the node or edge is not isolated, or one node is both ends"),
    (Refusal::PointTaken, "another node is at the point, or an isolated node would lie on an edge"),
    (Refusal::SameDirection, "the curve leaves a node in the direction of another edge"),
    (Refusal::FacesDiffer, "the given face is not the point's, or the curve leaves its nodes into different faces"),
    (Refusal::NotOnEdge, "the split point is not on the edge"),
    (Refusal::CrossesNode, "a node lies on the curve between its ends"),
    (Refusal::CrossesEdge, "the curve crosses another edge"),
    (Refusal::NotAdjacent, "the edges are one and the same, or share no node"),
    (Refusal::OtherEdges, "no shared node has exactly two edge ends"),
    (Refusal::TooManyPoints, "the healed curve would have more points than the map allows"),
    (Refusal::OrderChanges, "the order of the edges about an end would change"),
    (Refusal::NoRoom, "the rows after the edit, or the list, would not fit"),
    (Refusal::NumbersUsedUp, "a number above 999,999 would be needed"),
    (Refusal::SidesChange, "an isolated node or another piece would change sides, or a face turn inside out"),
    (Refusal::OverlapsEdge, "the curve lies along another edge for a stretch"),
    (Refusal::TouchesEdge, "the curve touches another edge other than at an end of both"),
    (Refusal::NotNested, "the contents would list a face or a piece twice, or miss one"),
];

/// The table's row for a number; none for 0 and for numbers that it does not name.
fn named(number: u64) -> Option<&'static (Refusal, &'static str)> {
    REFUSALS.iter().find(|row| row.0 as u64 == number)
}

impl Refusal {
    /// Its number, as solgwid.h has it.
    pub fn number(self) -> u64 {
        self as u64
    }
}

impl fmt::Display for Refusal {
    fn fmt(&self, f: &mut fmt::Formatter) -> fmt::Result {
        f.write_str(named(self.number()).map_or("unknown refusal", |row| row.1))
    }
}

impl std::error::Error for Refusal {}

/// An answer of the library as a result.
fn answered<T>(refusal: u64, value: T) -> Result<T, Refusal> {
    match refusal {
        0 => Ok(value),
        _ => Err(named(refusal).map_or(Refusal::Unknown, |row| row.0)),
    }
}

/// A map with its tables. Every call is safe: the engine asks nothing of what they hold, nor of how long they are.
#[derive(Clone, Debug, PartialEq, Eq)]
pub struct Map {
    /// Rows of 4: number, x, y, containing face (-1 where an edge ends).
    pub nodes: Vec<i64>,
    /// Rows of 32: number, start, end, next left, next right, left face, right face, point count, 12 points as x, y.
    pub edges: Vec<i64>,
    /// Rows of 5: number, then the rectangle of the face: least x, least y, greatest x, greatest y. Face 0 always
    /// exists; it has four zeros there, and so has a face that no edge has on a side.
    pub faces: Vec<i64>,
    /// The three row counts, the next node, edge and face number, then the record of points: 6 or 12, the most that a
    /// curve of this map may have. `NotInForm`, `OutOfRange` and `TooManyPoints` go by it; no ticket changes it.
    pub head: [i64; HEAD_WIDTH],
}

/// A line of the contents.
#[derive(Clone, Copy, Debug, PartialEq, Eq)]
pub struct Line {
    /// 0 for face 0; one more than that of the line that it stands under.
    pub depth: usize,
    /// A piece, and not a face: what a chain of edges connects, or a node on no edge by itself.
    pub is_piece: bool,
    /// The number of the face, or of the lowest node of the piece.
    pub number: i64,
}

impl Map {
    /// The empty map in tables of so many rows, for curves of at most `points` points: `MAX_POINTS` or
    /// `PLOTTER_POINTS`. More rows than the limits, or no face row, is refusal 1, any other number of points refusal 2.
    pub fn new(nodes: usize, edges: usize, faces: usize, points: usize) -> Result<Map, Refusal> {
        // one row above a limit is refused like any more, and needs no great table
        let table = |rows: usize, most: usize, width: usize| vec![0; rows.min(most + 1) * width];
        let mut map = Map {
            nodes: table(nodes, MAX_NODES, NODE_WIDTH),
            edges: table(edges, MAX_EDGES, EDGE_WIDTH),
            faces: table(faces, MAX_FACES, FACE_WIDTH),
            head: [0; HEAD_WIDTH],
        };
        let refusal = unsafe {
            solgwid_empty_map(
                map.nodes.as_mut_ptr(), map.nodes.len(), map.edges.as_mut_ptr(), map.edges.len(),
                map.faces.as_mut_ptr(), map.faces.len(), &mut map.head, points as i64,
            )
        };
        answered(refusal, map)
    }

    /// One ticket: its kind and the numbers after it. Answers its value.
    pub fn ticket(&mut self, numbers: &[i64]) -> Result<i64, Refusal> {
        let mut value = 0;
        let refusal = unsafe {
            solgwid_ticket(
                self.nodes.as_mut_ptr(), self.nodes.len(), self.edges.as_mut_ptr(), self.edges.len(),
                self.faces.as_mut_ptr(), self.faces.len(), &mut self.head,
                numbers.as_ptr(), numbers.len(), &mut value,
            )
        };
        answered(refusal, value)
    }

    /// The rings of a face, each as its length and then its directed edges.
    pub fn edges_of_face(&self, face: i64) -> Result<Vec<i64>, Refusal> {
        let mut list = vec![0; self.edges.len() / EDGE_WIDTH * 4];
        let mut value = 0;
        let refusal = unsafe {
            solgwid_edges_of_face(
                self.nodes.as_ptr(), self.nodes.len(), self.edges.as_ptr(), self.edges.len(),
                self.faces.as_ptr(), self.faces.len(), &self.head, face,
                list.as_mut_ptr(), list.len(), &mut value,
            )
        };
        list.truncate(value as usize);
        answered(refusal, list)
    }

    /// The rings of a face, each as its directed edges.
    pub fn rings(&self, face: i64) -> Result<Vec<Vec<i64>>, Refusal> {
        let list = self.edges_of_face(face)?;
        let mut numbers = list.into_iter();
        let mut rings = Vec::new();
        while let Some(length) = numbers.next() {
            rings.push(numbers.by_ref().take(length as usize).collect());
        }
        Ok(rings)
    }

    /// The contents of the sheet: face 0, the pieces in it, the other faces that each bounds, and so on, each line
    /// followed at once by those under it. `NotNested` never answers for a map that tickets made.
    pub fn contents(&self) -> Result<Vec<Line>, Refusal> {
        let mut list = vec![0; (self.nodes.len() / NODE_WIDTH + self.faces.len() / FACE_WIDTH) * LINE_WIDTH];
        let mut value = 0;
        let refusal = unsafe {
            solgwid_contents(
                self.nodes.as_ptr(), self.nodes.len(), self.edges.as_ptr(), self.edges.len(),
                self.faces.as_ptr(), self.faces.len(), &self.head, list.as_mut_ptr(), list.len(), &mut value,
            )
        };
        let line = |l: &[i64]| Line { depth: l[0] as usize, is_piece: l[1] == 1, number: l[2] };
        answered(refusal, list[..value as usize].chunks(LINE_WIDTH).map(line).collect())
    }

    /// A list of tickets from the empty map for `points` points on, whatever tables and head held: the answer to each.
    /// Refusals 1 and 2 alone can meet the whole call, as they can `new`.
    pub fn run(&mut self, points: usize, tickets: &[&[i64]]) -> Result<Vec<Result<i64, Refusal>>, Refusal> {
        let numbers = tickets.concat();
        let lengths: Vec<usize> = tickets.iter().map(|ticket| ticket.len()).collect();
        let (mut refusals, mut values) = (vec![0; tickets.len()], vec![0; tickets.len()]);
        let refusal = unsafe {
            solgwid_run(
                self.nodes.as_mut_ptr(), self.nodes.len(), self.edges.as_mut_ptr(), self.edges.len(),
                self.faces.as_mut_ptr(), self.faces.len(), &mut self.head, points as i64,
                numbers.as_ptr(), numbers.len(), lengths.as_ptr(), lengths.len(),
                refusals.as_mut_ptr(), refusals.len(), values.as_mut_ptr(), values.len(),
            )
        };
        answered(refusal, refusals.into_iter().zip(values).map(|(r, v)| answered(r, v)).collect())
    }
}

/// The fourteen tickets by the names of SQL/MM. A curve is its points as (x, y); inner ones straight between their
/// neighbours are dropped.
impl Map {
    /// `face` is the face that the point must lie in, or -1. Answers the node.
    pub fn add_iso_node(&mut self, face: i64, x: i64, y: i64) -> Result<i64, Refusal> {
        self.ticket(&[1, face, x, y])
    }

    pub fn move_iso_node(&mut self, node: i64, x: i64, y: i64) -> Result<(), Refusal> {
        self.ticket(&[2, node, x, y]).map(drop)
    }

    pub fn remove_iso_node(&mut self, node: i64) -> Result<(), Refusal> {
        self.ticket(&[3, node]).map(drop)
    }

    /// Answers the edge.
    pub fn add_iso_edge(&mut self, start: i64, end: i64, curve: &[(i64, i64)]) -> Result<i64, Refusal> {
        self.ticket(&with_curve(&[4, start, end], curve))
    }

    pub fn remove_iso_edge(&mut self, edge: i64) -> Result<(), Refusal> {
        self.ticket(&[5, edge]).map(drop)
    }

    /// Links and faces stay, so a curve that would leave a well or another piece in another face, or turn a face inside
    /// out, is turned down: `SidesChange`.
    pub fn change_edge_geom(&mut self, edge: i64, curve: &[(i64, i64)]) -> Result<(), Refusal> {
        self.ticket(&with_curve(&[6, edge], curve)).map(drop)
    }

    /// The edge goes; its halves are the two last edges, the start half first. Answers the node.
    pub fn new_edges_split(&mut self, edge: i64, x: i64, y: i64) -> Result<i64, Refusal> {
        self.ticket(&[7, edge, x, y])
    }

    /// The start half keeps the edge's number; the other is the last edge. Answers the node.
    pub fn mod_edge_split(&mut self, edge: i64, x: i64, y: i64) -> Result<i64, Refusal> {
        self.ticket(&[8, edge, x, y])
    }

    /// Both edges go. They join at the end node of the first if both share it and exactly two edge ends meet there,
    /// else at its start node on the same terms. Answers the healed edge, which is new.
    pub fn new_edge_heal(&mut self, edge: i64, other: i64) -> Result<i64, Refusal> {
        self.ticket(&[9, edge, other])
    }

    /// The same; the healed edge keeps the number of the first.
    pub fn mod_edge_heal(&mut self, edge: i64, other: i64) -> Result<(), Refusal> {
        self.ticket(&[10, edge, other]).map(drop)
    }

    /// Where a face is split it goes, and both sides are new faces; face 0 stays, and one side is new. Answers
    /// the edge.
    pub fn add_edge_new_faces(&mut self, start: i64, end: i64, curve: &[(i64, i64)]) -> Result<i64, Refusal> {
        self.ticket(&with_curve(&[11, start, end], curve))
    }

    /// Where a face is split it stays, and one side is a new face. Answers the edge.
    pub fn add_edge_mod_face(&mut self, start: i64, end: i64, curve: &[(i64, i64)]) -> Result<i64, Refusal> {
        self.ticket(&with_curve(&[12, start, end], curve))
    }

    /// Answers the face that remains of two, and -1 where one face was on both sides.
    pub fn rem_edge_new_face(&mut self, edge: i64) -> Result<i64, Refusal> {
        self.ticket(&[13, edge])
    }

    /// Of two faces the one with the lower number remains.
    pub fn rem_edge_mod_face(&mut self, edge: i64) -> Result<(), Refusal> {
        self.ticket(&[14, edge]).map(drop)
    }
}

/// A ticket of some numbers and then a curve.
fn with_curve(first: &[i64], curve: &[(i64, i64)]) -> Vec<i64> {
    first.iter().copied().chain(curve.iter().flat_map(|&(x, y)| [x, y])).collect()
}
