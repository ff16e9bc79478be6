//! "Four easy ways to go wrong": for each a mesh on which it gives another answer than the right
//! way, which is what refine gives.

mod common;
use common::*;
use second::{build_vec, check};

/// Refine's answer is the right way's to the byte, the wrong way's differs, and check refuses the
/// wrong mesh with that number.
fn told_apart(mesh: &[u8], selected: &[u16], wrong: Way, number: u64) -> (Stored, Stored) {
    let right = refined(mesh, selected);
    assert_eq!(right, naive_refine(mesh, selected, Way::Right).bytes());
    assert_eq!(check(&right).number, 0);
    let other = naive_refine(mesh, selected, wrong);
    assert_ne!(right, other.bytes());
    assert_eq!(check(&other.bytes()).number, number, "{wrong:?}");
    (decode(&right), other)
}

#[test]
fn closing_only_across_a_cut_pieces_faces() {
    // Two of the cube's six pieces, opposite to each other: they touch along the diagonal alone.
    let coordinates: Vec<i16> = [
        [0, 0, 0],
        [64, 0, 0],
        [64, 64, 0],
        [64, 64, 64],
        [0, 0, 64],
        [0, 64, 64],
    ]
    .concat();
    let mesh = build_vec(7, &coordinates, &[0, 1, 2, 3, 0, 4, 5, 3]).unwrap();
    for selected in [0, 1] {
        let (right, wrong) = told_apart(&mesh, &[selected], Way::OnlyAcrossFaces, 10);
        assert_eq!(right.leaves(), [2, 3, 4, 5]);
        assert_eq!(right.vertices.len(), 7);
        assert_eq!(wrong.leaves().len(), 3);
        assert_eq!(wrong.records[1 - selected as usize].first_child, NONE);
    }
}

#[test]
fn a_midpoint_for_each_neighbour() {
    let (right, wrong) = told_apart(&cube(), &[0], Way::MidpointEach, 4);
    assert_eq!(right.vertices.len(), 9);
    assert_eq!(wrong.vertices.len(), 14);
    // Two neighbours selected at once share the midpoint too.
    let (right, wrong) = told_apart(&cube(), &[0, 1], Way::MidpointEach, 4);
    assert_eq!(right.vertices.len(), 9);
    assert_eq!(wrong.vertices.len(), 14);
    // Beyond the base: K after two rounds, 4 and 5 have the edge 1-2 in common.
    let mesh = refined(&refined(&k(), &[0]), &[1, 2]);
    let (right, wrong) = told_apart(&mesh, &[4], Way::MidpointEach, 4);
    assert_eq!((right.vertices.len(), wrong.vertices.len()), (8, 9));
}

#[test]
fn the_flag_from_the_childs_own_type() {
    // K is of type A: its children are P, and their flag is unset all the same.
    let (right, wrong) = told_apart(&k(), &[0], Way::FlagFromTheChild, 9);
    assert_eq!([right.records[1].flag, right.records[2].flag], [0, 0]);
    assert_eq!([wrong.records[1].flag, wrong.records[2].flag], [1, 1]);
    // A flag set too early changes the marks of the next round.
    let right_next = naive_refine(&right.bytes(), &[1, 2], Way::Right);
    let wrong_next = naive_refine(&wrong.bytes(), &[1, 2], Way::Right);
    assert_eq!(right_next.records[3].corners, wrong_next.records[3].corners);
    assert_ne!(right_next.records[3].marks, wrong_next.records[3].marks);
    assert_eq!(refined(&right.bytes(), &[1, 2]), right_next.bytes());
    // Type P unset: the children are P with the flag set, and theirs A with the flag unset.
    let mut stored = decode(&k());
    stored.records[0].edge = 0;
    stored.records[0].marks = [3, 1, 0, 0];
    let one = refined(&stored.bytes(), &[0]);
    assert_eq!(decode(&one).records[1].flag, 1);
    let two = decode(&refined(&one, &[1, 2]));
    assert!(two.records[3..].iter().all(|r| r.flag == 0));
    // Their children again are P: unset, though a P of that generation's type would set it.
    let (right, _) = told_apart(&two.bytes(), &[3], Way::FlagFromTheChild, 9);
    assert!(right.records[7..].iter().all(|r| r.flag == 0));
}

#[test]
fn only_the_refinement_edge_tested_for_hanging() {
    // Piece 1 has the refinement edge 0-1 of piece 0 as an edge, but its own is the longer 4-5.
    let places: [[i16; 3]; 6] = [
        [0, 0, 0],
        [64, 0, 0],
        [32, 32, 0],
        [32, 0, 32],
        [32, -160, -32],
        [32, 0, -192],
    ];
    let mesh = build_vec(7, &places.concat(), &[0, 1, 2, 3, 0, 1, 4, 5]).unwrap();
    let stored = decode(&mesh);
    assert_eq!(stored.refinement_ends(0), (0, 1));
    assert_ne!(stored.refinement_ends(1), (0, 1));
    let (right, wrong) = told_apart(&mesh, &[0], Way::OnlyTheRefinementEdge, 10);
    assert_eq!(wrong.records.len(), 4);
    // The leaf needs two cuts: 1 is cut and then both or one of its children.
    let child = right.records[1].first_child;
    assert_ne!(child, NONE);
    let cut_children = [child, child + 1]
        .iter()
        .filter(|&&n| right.records[n as usize].first_child != NONE)
        .count();
    assert!(cut_children > 0);
    assert!(right.records.len() > 6);
}
