//! "The listing", to the byte.

mod common;
use common::*;
use second::{build_vec, check, list};

#[test]
fn the_second_row_of_the_worked_piece() {
    let whole = "job 7 round 1 vertices 5 records 3 leaves 2 deepest 1 sixfold 262144\n\
                 1 0 1 2 4 edge 0 2 gen 1\n\
                 2 4 1 2 3 edge 1 3 gen 1\n";
    assert_eq!(list(&refined(&k(), &[0])), whole.as_bytes());
}

#[test]
fn the_first_row() {
    let whole = "job 7 round 0 vertices 4 records 1 leaves 1 deepest 0 sixfold 262144\n\
                 0 0 1 2 3 edge 0 3 gen 0\n";
    assert_eq!(list(&k()), whole.as_bytes());
}

#[test]
fn the_refinement_edge_is_listed_lower_vertex_first() {
    let mesh = build_vec(0, &K_COORDINATES, &[3, 2, 1, 0]).unwrap();
    let whole = "job 0 round 0 vertices 4 records 1 leaves 1 deepest 0 sixfold 262144\n\
                 0 3 2 1 0 edge 0 3 gen 0\n";
    assert_eq!(list(&mesh), whole.as_bytes());
}

/// A left-handed piece is listed as build stores it, its last two corners exchanged.
#[test]
fn a_left_handed_piece() {
    let mesh = build_vec(7, &K_COORDINATES, &[0, 1, 3, 2]).unwrap();
    assert_eq!(list(&mesh), list(&k()));
    let mesh = build_vec(0, &K_COORDINATES, &[3, 2, 0, 1]).unwrap();
    let whole = "job 0 round 0 vertices 4 records 1 leaves 1 deepest 0 sixfold 262144\n\
                 0 3 2 1 0 edge 0 3 gen 0\n";
    assert_eq!(list(&mesh), whole.as_bytes());
}

#[test]
fn a_refused_mesh() {
    assert_eq!(list(&[]), b"refused 1\n");
    let mut mesh = k();
    mesh[0] = b'X';
    assert_eq!(list(&mesh), b"refused 2\n");
    let mut hanging = decode(&cube());
    cut_one(&mut hanging, 3, Way::Right);
    assert_eq!(check(&hanging.bytes()).number, 10);
    assert_eq!(list(&hanging.bytes()), b"refused 10\n");
    let mut left = decode(&cube());
    left.records[5] = turned(&left.records[5], 0, 3);
    assert_eq!(check(&left.bytes()).number, 22);
    assert_eq!(list(&left.bytes()), b"refused 22\n");
    let mut on_an_edge = on_an_edge_of_k([0; 3]);
    assert_eq!(check(&on_an_edge.bytes()).number, 23);
    assert_eq!(list(&on_an_edge.bytes()), b"refused 23\n");
    cut_one(&mut on_an_edge, 1, Way::Right);
    assert_eq!(list(&on_an_edge.bytes()), b"refused 23\n");
    let off_the_edge = on_an_edge_of_k([-32, 0, 0]);
    let heading = "job 7 round 0 vertices 8 records 2 leaves 2 deepest 0 sixfold ";
    assert!(list(&off_the_edge.bytes()).starts_with(heading.as_bytes()));
}

#[test]
fn input_longer_than_the_largest_mesh() {
    // 7,000 vertices with the matching length: check says 3, the listing 1.
    let mut long = k();
    long[13..15].copy_from_slice(&7_000u16.to_le_bytes());
    long.resize(20 + 70_000 + 17, 0);
    assert_eq!(check(&long).number, 3);
    assert_eq!(list(&long), b"refused 1\n");
    // One vertex more than allowed, but not longer than the largest mesh: 3 in both.
    let mut long = k();
    long[13..15].copy_from_slice(&1_025u16.to_le_bytes());
    long.resize(20 + 10_250 + 17, 0);
    assert_eq!(check(&long).number, 3);
    assert_eq!(list(&long), b"refused 3\n");
}

#[test]
fn every_line_fits_the_line_buffer() {
    let mut stored = decode(&deepen(k(), 15));
    stored.job = u32::MAX;
    stored.round = u16::MAX;
    let listing = String::from_utf8(list(&stored.bytes())).unwrap();
    let lines: Vec<&str> = listing.split_inclusive('\n').collect();
    assert_eq!(lines.len(), 1 + stored.leaves().len());
    assert!(lines[0].starts_with("job 4294967295 round 65535 vertices "));
    assert!(lines
        .iter()
        .all(|line| line.len() <= 128 && line.ends_with('\n')));
    // Every leaf once, in rising number, by the layout.
    for (line, leaf) in lines[1..].iter().zip(stored.leaves()) {
        let r = stored.records[leaf as usize];
        let (lower, higher) = stored.refinement_ends(leaf as usize);
        let [a, b, c, d] = r.corners;
        let generation = r.generation;
        assert_eq!(
            *line,
            format!("{leaf} {a} {b} {c} {d} edge {lower} {higher} gen {generation}\n")
        );
    }
}
