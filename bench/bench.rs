//! Microseconds a ticket, by kind and size, for the edges of a face and for the contents, beside one bare pass over the
//! rows in use in the same run.
//!
//! A sheet is a grid of plots with wells (isolated nodes), islands (isolated edges), boundaries across some plots and
//! ditches split at a sluice. Each ticket is timed alone on a fresh copy of the sheet's tables, at many places of the
//! sheet, once as it is carried out and once as it is turned down: the least of some calls at each place, then the
//! median over the places. The bare pass adds up every number of the rows in use; beside it stands the time of one that
//! compares each with a bound. Contents are turned down with 28 on the same rows with a face more, which nothing bears.
//! Prints tables, and adds the times to the CSV file given.
//!
//! In a list (`run`) a ticket is timed by many of it behind those that draw the sheet, less the time of these alone. A
//! ticket that is turned down is handed in again and again; one that is carried out is followed by one that takes it
//! back, and both get the mean of the two.
//!
//! Kind 6 is also timed at the plots with wells and at those with islands: a side led short of them, and past them. The
//! second is turned down with 22; a library of before landing 13 carries it out, and is timed as it does.

use std::collections::HashMap;
use std::fmt::Write as _;
use std::fs::OpenOptions;
use std::hint::black_box;
use std::io::Write as _;
use std::time::Instant;

#[path = "../include/solgwid.rs"]
mod solgwid;
use solgwid::{EDGE_WIDTH, FACE_WIDTH, MAX_POINTS, Map, NODE_WIDTH, Refusal};

const SIDE: i64 = 100;
const KINDS: usize = 14;
const PLACES: usize = 60;
/// Calls at each place; the least counts, since a call is now and then interrupted.
const ROUNDS: usize = 5;
/// Tickets of a kind, or of two, in a list.
const LISTED: usize = 2000;
/// Plots along a side of the grid, and edges with the boundaries.
const SIZES: [(i64, i64); 4] = [(6, 100), (14, 500), (21, 1000), (30, 2000)];

/// A map, and the tickets that drew it.
struct Sheet {
    map: Map,
    drawn: Vec<Vec<i64>>,
}

fn must(sheet: &mut Sheet, numbers: &[i64]) -> i64 {
    sheet.drawn.push(numbers.to_vec());
    sheet.map.ticket(numbers).unwrap_or_else(|refusal| panic!("{numbers:?}: {refusal}"))
}

/// The same rows in tables with so many rows to spare.
fn roomy(map: &Map, spare: usize) -> Map {
    let fit = |table: &[i64], width: usize, count: i64, most: usize| {
        let rows = (count as usize + spare).min(most);
        let used = count as usize * width;
        let mut wide = vec![0; rows * width];
        wide[..used].copy_from_slice(&table[..used]);
        wide
    };
    let mut wide = map.clone();
    wide.nodes = fit(&map.nodes, NODE_WIDTH, map.head[0], 1000);
    wide.edges = fit(&map.edges, EDGE_WIDTH, map.head[1], 2000);
    wide.faces = fit(&map.faces, FACE_WIDTH, map.head[2], 1000);
    wide
}

/// The rows in use of the three tables.
fn used(map: &Map) -> [&[i64]; 3] {
    let cells = |i: usize, width: usize| map.head[i] as usize * width;
    [&map.nodes[..cells(0, NODE_WIDTH)], &map.edges[..cells(1, EDGE_WIDTH)], &map.faces[..cells(2, FACE_WIDTH)]]
}

fn bare_pass(map: &Map) -> i64 {
    let sum = |table: &[i64]| table.iter().fold(0i64, |a, &b| a.wrapping_add(b));
    used(map).into_iter().fold(0i64, |a, table| a.wrapping_add(sum(table)))
}

/// The same rows, each number compared with a bound: what a check costs that finds nothing. It may stop at each number,
/// so it is not made into vector instructions.
fn tested_pass(map: &Map) -> bool {
    used(map).iter().all(|table| table.iter().all(|&z| z >= -1_000_000))
}

/// What stands in one plot of the grid.
#[derive(Clone)]
struct Plot {
    at: (i64, i64),
    corners: [i64; 4],
    bottom: i64,
    wells: Vec<i64>,
    island: Option<i64>,
    boundary: Option<i64>,
    sluice: Option<(i64, i64)>,
}

type Numbers = HashMap<(i64, i64), i64>;

/// The nodes of k by k plots; with gaps, some are given numbers after others were removed.
fn draw_nodes(sheet: &mut Sheet, k: i64, gaps: bool) -> Numbers {
    let mut number = Numbers::new();
    for (x, y) in (0..=k).flat_map(|y| (0..=k).map(move |x| (x, y))) {
        if gaps && (x + y) % 3 == 0 {
            let n = must(sheet, &[1, -1, x * SIDE + 7, y * SIDE + 7]);
            must(sheet, &[3, n]);
        }
        number.insert((x, y), must(sheet, &[1, -1, x * SIDE, y * SIDE]));
    }
    number
}

/// The edges of the plots. Answers those along the bottom of each.
fn draw_edges(sheet: &mut Sheet, k: i64, gaps: bool, number: &Numbers) -> Numbers {
    let mut bottom = Numbers::new();
    for (x, y) in (0..=k).flat_map(|y| (0..=k).map(move |x| (x, y))) {
        let (a, b) = (x * SIDE, y * SIDE);
        if x < k {
            let edge = [12, number[&(x, y)], number[&(x + 1, y)], a, b, a + SIDE, b];
            if gaps && (x + y) % 4 == 0 {
                let e = must(sheet, &edge);
                must(sheet, &[14, e]);
            }
            bottom.insert((x, y), must(sheet, &edge));
        }
        if y < k {
            must(sheet, &[12, number[&(x, y)], number[&(x, y + 1)], a, b, a, b + SIDE]);
        }
    }
    bottom
}

fn plots_of(k: i64, number: &Numbers, bottom: &Numbers) -> Vec<Plot> {
    (0..k * k)
        .map(|i| {
            let (x, y) = (i % k, i / k);
            let corner = |dx, dy| number[&(x + dx, y + dy)];
            Plot {
                at: (x * SIDE, y * SIDE),
                corners: [corner(0, 0), corner(1, 0), corner(1, 1), corner(0, 1)],
                bottom: bottom[&(x, y)],
                wells: vec![],
                island: None,
                boundary: None,
                sluice: None,
            }
        })
        .collect()
}

/// An eighth of the spare nodes for each of: islands (two nodes), pairs of wells, sluices.
fn furnish(sheet: &mut Sheet, plots: &mut [Plot]) {
    let nodes = sheet.map.head[0];
    let spare = (1000 - nodes).min(nodes / 5);
    let (each, count) = ((spare / 8).max(3) as usize, plots.len());
    let step = (count / (3 * each + 1)).max(1);
    for j in 0..each {
        let place = |m: usize| ((3 * j + m) * step) % count;
        let p = &mut plots[place(0)];
        let (x, y) = p.at;
        let a = must(sheet, &[1, -1, x + 60, y + 30]);
        let b = must(sheet, &[1, -1, x + 80, y + 30]);
        p.island = Some(must(sheet, &[4, a, b, x + 60, y + 30, x + 80, y + 30]));
        let p = &mut plots[place(1)];
        let (x, y) = p.at;
        p.wells = vec![must(sheet, &[1, -1, x + 60, y + 30]), must(sheet, &[1, -1, x + 80, y + 30])];
        let p = &mut plots[place(2)];
        let (x, y) = p.at;
        must(sheet, &[8, p.bottom, x + 50, y]);
        p.sluice = Some((p.bottom, sheet.map.head[4] - 1));
    }
}

/// A grid of k by k plots, with boundaries across plots until there are about `target` edges.
fn grid(k: i64, target: i64, gaps: bool) -> (Sheet, Vec<Plot>) {
    let map = Map::new(1000, 2000, 1000, MAX_POINTS).expect("tables at the limits hold the empty map");
    let mut sheet = Sheet { map, drawn: vec![] };
    let number = draw_nodes(&mut sheet, k, gaps);
    let bottom = draw_edges(&mut sheet, k, gaps, &number);
    let mut plots = plots_of(k, &number, &bottom);
    furnish(&mut sheet, &mut plots);
    let count = plots.len();
    for i in 0..count {
        if sheet.map.head[1] >= target || sheet.map.head[2] >= 990 {
            break;
        }
        let p = &mut plots[(i * 11) % count];
        if p.boundary.is_none() {
            let (x, y) = p.at;
            p.boundary = Some(must(&mut sheet, &[12, p.corners[0], p.corners[2], x, y, x + SIDE, y + SIDE]));
        }
    }
    (sheet, plots)
}

/// A ticket of the kind at the plot that is carried out, and one that is turned down late; none where the plot has
/// nothing of the sort.
fn tickets(kind: usize, p: &Plot) -> Option<(Vec<i64>, Vec<i64>)> {
    let (x, y) = p.at;
    let k = kind as i64;
    let plain = p.sluice.is_none();
    Some(match kind {
        1 => (vec![1, -1, x + 70, y + 20], vec![1, -1, x + 100, y + 70]),
        2 => (vec![2, *p.wells.first()?, x + 71, y + 21], vec![2, *p.wells.first()?, x + 100, y + 70]),
        3 => (vec![3, *p.wells.first()?], vec![3, p.corners[0]]),
        4 => {
            let (a, b) = (*p.wells.first()?, *p.wells.get(1)?);
            let start = [4, a, b, x + 60, y + 30];
            ([&start[..], &[x + 80, y + 30]].concat(), [&start[..], &[x + 70, y - 10, x + 80, y + 30]].concat())
        }
        5 => (vec![5, p.island?], vec![5, p.bottom]),
        6 if plain && p.boundary.is_none() => (
            vec![6, p.bottom, x, y, x + 50, y + 10, x + 100, y],
            vec![6, p.bottom, x, y, x + 50, y + 150, x + 100, y],
        ),
        7 | 8 if plain => (vec![k, p.bottom, x + 50, y], vec![k, p.bottom, x + 50, y + 1]),
        9 | 10 => (vec![k, p.sluice?.0, p.sluice?.1], vec![k, p.sluice?.0, p.sluice?.0 + 1]),
        11 | 12 if p.boundary.is_none() && p.island.is_none() && p.wells.is_empty() => (
            vec![k, p.corners[0], p.corners[2], x, y, x + SIDE, y + SIDE],
            vec![k, p.corners[0], p.corners[2], x, y, x + 30, y + 150, x + SIDE, y + SIDE],
        ),
        13 | 14 => (vec![k, p.boundary.unwrap_or(p.bottom)], vec![k, 999_999]),
        _ => return None,
    })
}

/// Kinds in a list: one that is carried out, and one that takes it back.
const PAIRS: [(usize, usize); 8] = [(1, 3), (2, 2), (4, 5), (6, 6), (7, 9), (8, 10), (11, 13), (12, 14)];

/// What takes back the kind at the plot, where the next node and edge numbers before it were these.
fn taken_back(kind: usize, p: &Plot, node: i64, edge: i64) -> Vec<i64> {
    let (x, y) = p.at;
    match kind {
        1 => vec![3, node],
        2 => vec![2, p.wells[0], x + 60, y + 30],
        4 => vec![5, edge],
        6 => vec![6, p.bottom, x, y, x + SIDE, y],
        7 => vec![9, edge, edge + 1],
        8 => vec![10, p.bottom, edge],
        _ => vec![kind as i64 + 2, edge],
    }
}

/// So many tickets, a kind and what takes it back in turn, at all places of the sheet.
fn in_turn(kind: usize, sheet: &Sheet, plots: &[Plot], count: usize) -> Vec<Vec<i64>> {
    let mut places: Vec<Plot> = plots.iter().filter(|p| tickets(kind, p).is_some()).cloned().collect();
    let (mut node, mut edge) = (sheet.map.head[3], sheet.map.head[4]);
    let mut list = vec![];
    for i in 0..count / 2 {
        let at = (i * 13) % places.len();
        let p = &mut places[at];
        list.push(tickets(kind, p).expect("the place has the kind").0);
        list.push(taken_back(kind, p, node, edge));
        node += matches!(kind, 1 | 7 | 8) as i64;
        edge += [0, 0, 0, 0, 1, 0, 0, 3, 1, 0, 0, 1, 1, 0, 0][kind];
        if kind == 7 {
            p.bottom = edge - 1;
        }
    }
    list
}

/// What a side of a plot is redrawn beside, with the name of its rows.
const BESIDE: [(&str, fn(&Plot) -> bool); 2] =
    [("6 beside wells", |p| !p.wells.is_empty()), ("6 beside an island", |p| p.island.is_some())];

/// The bottom of the plot led short of what lies in it, and past that; both leave a boundary across the plot alone.
fn redrawings(p: &Plot) -> Option<(Vec<i64>, Vec<i64>)> {
    let (x, y) = p.at;
    let by = |mx, my| vec![6, p.bottom, x, y, x + mx, y + my, x + SIDE, y];
    p.sluice.is_none().then(|| (by(50, 10), by(70, 60)))
}

fn median(mut v: Vec<f64>) -> f64 {
    v.sort_by(f64::total_cmp);
    v[v.len() / 2]
}

fn micros(f: impl FnOnce()) -> f64 {
    let start = Instant::now();
    f();
    start.elapsed().as_nanos() as f64 / 1000.0
}

fn least(mut f: impl FnMut() -> f64) -> f64 {
    (0..ROUNDS).map(|_| f()).fold(f64::MAX, f64::min)
}

/// The least time of the ticket on a fresh copy; it must be answered as told.
fn ticket_time(map: &Map, numbers: &[i64], as_told: impl Fn(&Result<i64, Refusal>) -> bool) -> f64 {
    least(|| {
        let mut copy = map.clone();
        let mut answer = Ok(0);
        let time = micros(|| answer = copy.ticket(black_box(numbers)));
        assert!(as_told(&answer), "{numbers:?}: {answer:?}");
        time
    })
}

/// The least time of the sheet's tickets and then these in one list; these must be answered as told.
fn list_time(sheet: &Sheet, more: &[Vec<i64>], carried: bool) -> f64 {
    let list: Vec<&[i64]> = sheet.drawn.iter().chain(more).map(Vec::as_slice).collect();
    let mut map = sheet.map.clone();
    least(|| {
        let mut answers = Ok(vec![]);
        let time = micros(|| answers = map.run(MAX_POINTS, black_box(&list)));
        let answers = answers.expect("the list is taken");
        let as_told = |(i, answer): (usize, &Result<i64, Refusal>)| answer.is_ok() == (carried || i < sheet.drawn.len());
        assert!(answers.iter().enumerate().all(as_told), "{:?}", more[0]);
        time
    })
}

/// Tickets in a list, by kind: carried out and turned down. The sheet's own are timed among them, for the machine's clock
/// changes.
fn list_times(sheet: &Sheet, plots: &[Plot]) -> [[f64; KINDS]; 2] {
    let mut drawn = f64::MAX;
    let mut timed = |more: &[Vec<i64>], carried: bool| {
        drawn = drawn.min(list_time(sheet, &[], true));
        list_time(sheet, more, carried)
    };
    let (mut yes, mut no) = ([0.0; KINDS], [0.0; KINDS]);
    for (kind, back) in PAIRS {
        let time = timed(&in_turn(kind, sheet, plots, LISTED), true);
        (yes[kind - 1], yes[back - 1]) = (time, time);
    }
    for kind in 1..=KINDS {
        let bad: Vec<_> = plots.iter().filter_map(|p| tickets(kind, p)).map(|(_, bad)| bad).collect();
        let more: Vec<_> = (0..LISTED).map(|i| bad[(i * 13) % bad.len()].clone()).collect();
        no[kind - 1] = timed(&more, false);
    }
    [yes, no].map(|times| times.map(|time| (time - drawn) / LISTED as f64))
}

/// The least time of the edges of a face; they must be listed or not as told.
fn face_time(map: &Map, face: i64, listed: bool) -> f64 {
    least(|| {
        let mut answer = Ok(vec![]);
        let time = micros(|| answer = map.edges_of_face(black_box(face)));
        assert_eq!(answer.is_ok(), listed, "face {face}: {answer:?}");
        time
    })
}

/// The least time of the contents; they must be listed or not as told.
fn contents_time(map: &Map, listed: bool) -> f64 {
    least(|| {
        let mut answer = Ok(vec![]);
        let time = micros(|| answer = black_box(map).contents());
        assert_eq!(answer.is_ok(), listed, "contents: {answer:?}");
        time
    })
}

/// The map with a face more, which nothing bears.
fn with_bare_face(map: &Map) -> Map {
    let mut more = map.clone();
    more.faces[map.head[2] as usize * FACE_WIDTH] = map.head[5];
    more.head[2] += 1;
    more.head[5] += 1;
    more
}

/// The contents, listed and turned down.
fn contents_times(map: &Map) -> [f64; 2] {
    let bare = with_bare_face(map);
    [(map, true), (&bare, false)]
        .map(|(map, listed)| median((0..PLACES).map(|_| contents_time(map, listed)).collect()))
}

struct Times {
    rows: [i64; 3],
    pass: f64,
    tested: f64,
    listed: f64,
    unlisted: f64,
    contents: [f64; 2],
    carried: [f64; KINDS],
    refused: [f64; KINDS],
    beside: [[f64; 2]; BESIDE.len()],
    in_list: [[f64; KINDS]; 2],
}

fn measure(sheet: &Sheet, plots: &[Plot]) -> Times {
    let map = &sheet.map;
    // the passes are timed among the tickets: the machine's clock changes within a run
    let (mut passes, mut tests) = (vec![], vec![]);
    let (mut carried, mut refused) = ([0.0; KINDS], [0.0; KINDS]);
    for kind in 1..=KINDS {
        let pairs: Vec<_> = plots.iter().filter_map(|p| tickets(kind, p)).collect();
        assert!(!pairs.is_empty(), "kind {kind} has no place");
        let (mut yes, mut no) = (vec![], vec![]);
        for i in 0..PLACES {
            passes.push(least(|| micros(|| { black_box(bare_pass(black_box(map))); })));
            tests.push(least(|| micros(|| { black_box(tested_pass(black_box(map))); })));
            let (good, bad) = &pairs[(i * 13) % pairs.len()];
            yes.push(ticket_time(map, good, Result::is_ok));
            no.push(ticket_time(map, bad, Result::is_err));
        }
        carried[kind - 1] = median(yes);
        refused[kind - 1] = median(no);
    }
    let beside = BESIDE.map(|(_, has)| redrawing_times(map, plots, has));
    let face = |i: usize| map.faces[i * 13 % map.head[2] as usize * FACE_WIDTH];
    let listed = median((0..PLACES).map(|i| face_time(map, face(i), true)).collect());
    let unlisted = median((0..PLACES).map(|_| face_time(map, 999_999, false)).collect());
    let contents = contents_times(map);
    let in_list = list_times(sheet, plots);
    let rows = [map.head[0], map.head[1], map.head[2]];
    let (pass, tested) = (median(passes), median(tests));
    Times { rows, pass, tested, listed, unlisted, contents, carried, refused, beside, in_list }
}

/// Kind 6 at the plots that have something: short of it, and past it.
fn redrawing_times(map: &Map, plots: &[Plot], has: fn(&Plot) -> bool) -> [f64; 2] {
    let pairs: Vec<_> = plots.iter().filter(|p| has(p)).filter_map(redrawings).collect();
    let (mut short, mut past) = (vec![], vec![]);
    for i in 0..PLACES {
        let (good, bad) = &pairs[i % pairs.len()];
        short.push(ticket_time(map, good, Result::is_ok));
        past.push(ticket_time(map, bad, |a| matches!(a, Ok(_) | Err(Refusal::SidesChange))));
    }
    [median(short), median(past)]
}

fn mean(v: &[f64]) -> f64 {
    v.iter().sum::<f64>() / v.len() as f64
}

/// A line of the table: its name, then a cell for each size.
fn line(name: &str, all: &[Times], cell: impl Fn(&Times) -> String) {
    let cells: String = all.iter().map(|t| format!("{:>20}", cell(t))).collect();
    println!("{name:>24}{cells}");
}

fn report(title: &str, all: &[Times]) {
    println!("\n{title}\n");
    line("nodes/edges/faces", all, |t| format!("{}/{}/{}", t.rows[0], t.rows[1], t.rows[2]));
    line("bare pass, us", all, |t| format!("{:.2}", t.pass));
    line("pass that tests, us", all, |t| format!("{:.2}", t.tested));
    println!("{:>24}   carried out / turned down, us", "kind");
    for kind in 0..KINDS {
        line(&(kind + 1).to_string(), all, |t| format!("{:.1} / {:.1}", t.carried[kind], t.refused[kind]));
    }
    line("edges of a face, us", all, |t| format!("{:.1} / {:.1}", t.listed, t.unlisted));
    line("contents, us", all, |t| format!("{:.1} / {:.1}", t.contents[0], t.contents[1]));
    for (i, (name, _)) in BESIDE.iter().enumerate() {
        line(&format!("{name}, us"), all, |t| format!("{:.1} / {:.1}", t.beside[i][0], t.beside[i][1]));
    }
    line("mean of kinds, us", all, |t| format!("{:.1} / {:.1}", mean(&t.carried), mean(&t.refused)));
    line("mean, bare passes", all, |t| {
        format!("{:.1} / {:.1}", mean(&t.carried) / t.pass, mean(&t.refused) / t.pass)
    });
    println!("{:>24}   in a list, us; a kind that is carried out with the one that takes it back", "kind");
    for kind in 0..KINDS {
        line(&(kind + 1).to_string(), all, |t| format!("{:.2} / {:.2}", t.in_list[0][kind], t.in_list[1][kind]));
    }
    line("mean in a list, us", all, |t| format!("{:.2} / {:.2}", mean(&t.in_list[0]), mean(&t.in_list[1])));
    line("mean, bare passes", all, |t| {
        format!("{:.2} / {:.2}", mean(&t.in_list[0]) / t.pass, mean(&t.in_list[1]) / t.pass)
    });
    let (first, last) = (&all[0], &all[all.len() - 1]);
    let larger = last.rows[1] as f64 / first.rows[1] as f64;
    let growth = |time: fn(&Times) -> f64| (time(last) / time(first)).ln() / larger.ln();
    println!(
        "{:>24}   carried out n^{:.2}, turned down n^{:.2}, bare pass n^{:.2}",
        "growth", growth(|t| mean(&t.carried)), growth(|t| mean(&t.refused)), growth(|t| t.pass)
    );
    println!(
        "{:>24}   carried out n^{:.2}, turned down n^{:.2}",
        "growth in a list", growth(|t| mean(&t.in_list[0])), growth(|t| mean(&t.in_list[1]))
    );
}

/// The times as rows of a CSV file; a pass has one time.
fn rows(setting: &str, all: &[Times]) -> String {
    let mut out = String::new();
    for t in all {
        let edges = t.rows[1];
        for (kind, (carried, refused)) in t.carried.iter().zip(t.refused).enumerate() {
            writeln!(out, "Solgwid,{setting},{},{edges},{carried:.2},{refused:.2}", kind + 1).unwrap();
        }
        let [yes, no] = t.in_list;
        for (kind, (carried, refused)) in yes.iter().zip(no).enumerate() {
            writeln!(out, "Solgwid,{setting} in a list,{},{edges},{carried:.2},{refused:.2}", kind + 1).unwrap();
        }
        writeln!(out, "Solgwid,{setting},edges of a face,{edges},{:.2},{:.2}", t.listed, t.unlisted).unwrap();
        writeln!(out, "Solgwid,{setting},contents,{edges},{:.2},{:.2}", t.contents[0], t.contents[1]).unwrap();
        for ((name, _), [short, past]) in BESIDE.iter().zip(t.beside) {
            writeln!(out, "Solgwid,{setting},{name},{edges},{short:.2},{past:.2}").unwrap();
        }
        writeln!(out, "Solgwid,{setting},bare pass,{edges},{:.2},", t.pass).unwrap();
        writeln!(out, "Solgwid,{setting},tested pass,{edges},{:.2},", t.tested).unwrap();
    }
    out
}

fn main() {
    let mut csv = String::from("engine,setting,kind,edges,carried out,turned down\n");
    for (setting, gaps, spare, title) in [
        ("no gaps", false, 25, "Numbers without gaps, 25 rows to spare"),
        (
            "gaps", true, 25,
            "Numbers with gaps (a third of the nodes and a quarter of the edges were removed and drawn again), \
             25 rows to spare",
        ),
        ("at the limits", false, 2000, "Numbers without gaps, tables at the limits"),
    ] {
        let timed = |&(k, target): &(i64, i64)| {
            let (mut sheet, plots) = grid(k, target, gaps);
            sheet.map = roomy(&sheet.map, spare);
            measure(&sheet, &plots)
        };
        let all: Vec<Times> = SIZES.iter().map(timed).collect();
        report(title, &all);
        csv += &rows(setting, &all);
    }
    if let Some(path) = std::env::args().nth(1) {
        let file = OpenOptions::new().create(true).append(true).open(path);
        file.and_then(|mut f| f.write_all(csv.as_bytes())).expect("the times are written");
    }
}
