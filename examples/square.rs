//! The square sheet: a loop around a plot, the loop split, a boundary across the plot. Then a split taken back, a curve
//! sent with points along its straight runs, a well in the plot and what lies in what, a map for a plotting program.
//!
//!     (cd crates/solgwid && rt lib) && rustc --edition 2021 examples/square.rs -L crates/solgwid/out -l static=solgwid

#[path = "../include/solgwid.rs"]
mod solgwid;
use solgwid::{Map, Refusal};

fn print_answer(call: &str, answer: Result<i64, Refusal>) {
    match answer {
        Ok(value) => println!("{call}: {value}"),
        Err(refusal) => println!("{call}: refused, {}: {refusal}", refusal.number()),
    }
}

fn print_edges_of_face(map: &Map, face: i64) -> Result<(), Refusal> {
    let list: Vec<String> = map.edges_of_face(face)?.iter().map(i64::to_string).collect();
    println!("edges of face {face}: {}", list.join(" "));
    Ok(())
}

fn main() -> Result<(), Refusal> {
    let mut map = Map::new(200, 200, 200, solgwid::MAX_POINTS)?;
    print_answer("node", map.add_iso_node(-1, 0, 0));
    print_answer("loop", map.add_edge_mod_face(1, 1, &[(0, 0), (10, 0), (10, 10), (0, 10), (0, 0)]));
    print_answer("split", map.mod_edge_split(1, 10, 10));
    print_answer("boundary", map.add_edge_mod_face(1, 2, &[(0, 0), (10, 10)]));
    print_answer("heal", map.new_edge_heal(1, 2));
    print_edges_of_face(&map, 1)?;
    print_edges_of_face(&map, 2)?;
    print_answer("face left", map.rem_edge_new_face(3));

    // the loop is split where a sluice will stand; the sluice is cancelled, and every row is as before
    let before = map.clone();
    print_answer("sluice", map.mod_edge_split(1, 10, 4));
    map.mod_edge_heal(1, before.head[4])?;
    let same = map.nodes == before.nodes && map.edges == before.edges && map.faces == before.faces;
    println!("taken back: done, {}", if same { "every row as before" } else { "rows differ" });

    // the surveyor sends the first half again, with points along the way: they are dropped, and the row is the same
    map.change_edge_geom(1, &[(0, 0), (3, 0), (8, 0), (10, 0), (10, 4), (10, 10)])?;
    let same = map.edges == before.edges;
    let how = if same { "which is as before" } else { "which differs" };
    println!("surveyed: done, 6 points sent, {} in the row, {how}", map.edges[7]);

    // a well in the plot, and the contents of the sheet
    print_answer("well", map.add_iso_node(-1, 5, 5));
    for line in map.contents()? {
        println!("{:1$}{2} {3}", "", 2 * line.depth, if line.is_piece { "piece" } else { "face" }, line.number);
    }

    // a map for a plotting program: a line has at most 6 points, drawn or healed
    let line = [(0, 0), (1, 1), (2, 0), (3, 1), (4, 0), (5, 1), (6, 0)];
    print_answer("a map for 7 points", Map::new(200, 200, 200, 7).map(|map| map.head[6]));
    let mut map = Map::new(200, 200, 200, solgwid::PLOTTER_POINTS)?;
    for (x, y) in [line[0], line[5], line[6]] {
        map.add_iso_node(-1, x, y)?;
    }
    print_answer("7 points", map.add_edge_mod_face(1, 3, &line));
    print_answer("6 points", map.add_edge_mod_face(1, 2, &line[..6]));
    print_answer("the rest", map.add_edge_mod_face(2, 3, &line[5..]));
    print_answer("heal to 7", map.new_edge_heal(1, 2));
    Ok(())
}
