//! Every row of "A piece worked by hand", starred or not.

mod common;
use common::*;
use second::mesh;
use second::piece::{children, type_of, Type};
use second::{build, build_vec, check, refine, refine_vec, selection, Report};

fn accepted(leaves: u64, deepest: u64, sixfold: u64) -> Report {
    Report {
        number: 0,
        leaves,
        deepest,
        sixfold,
        record: 0,
        edge: 0,
    }
}

fn vertex(place: [i16; 3], parents: [u16; 2]) -> Vertex {
    Vertex { place, parents }
}

fn k0() -> Stored {
    Stored {
        job: 7,
        round: 0,
        base_vertices: 4,
        base_records: 1,
        vertices: vec![
            vertex([0, 0, 0], [NONE; 2]),
            vertex([64, 0, 0], [NONE; 2]),
            vertex([64, 64, 0], [NONE; 2]),
            vertex([64, 64, 64], [NONE; 2]),
        ],
        records: vec![Record {
            corners: [0, 1, 2, 3],
            edge: 2,
            marks: [4, 2, 2, 1],
            flag: 0,
            generation: 0,
            first_child: NONE,
        }],
    }
}

fn k1() -> Stored {
    let mut stored = k0();
    stored.round = 1;
    stored.vertices.push(vertex([32, 32, 32], [0, 3]));
    stored.records[0].first_child = 1;
    stored.records.push(Record {
        corners: [0, 1, 2, 4],
        edge: 1,
        marks: [3, 1, 0, 1],
        flag: 0,
        generation: 1,
        first_child: NONE,
    });
    stored.records.push(Record {
        corners: [4, 1, 2, 3],
        edge: 4,
        marks: [4, 5, 4, 3],
        flag: 0,
        generation: 1,
        first_child: NONE,
    });
    stored
}

#[test]
fn k_built() {
    #[rustfmt::skip]
    let bytes: [u8; 77] = [
        b'T', b'M', b'B', 1, 0, 7, 0, 0, 0, 0, 0, 4, 0, 4, 0, 1, 0, 1, 0, 0,
        0, 0, 0, 0, 0, 0, 255, 255, 255, 255,
        64, 0, 0, 0, 0, 0, 255, 255, 255, 255,
        64, 0, 64, 0, 0, 0, 255, 255, 255, 255,
        64, 0, 64, 0, 64, 0, 255, 255, 255, 255,
        0, 0, 1, 0, 2, 0, 3, 0, 2, 4, 2, 2, 1, 0, 0, 255, 255,
    ];
    let mut out = [9; 77];
    assert_eq!(build(7, &K_COORDINATES, &[0, 1, 2, 3], &mut out), 0);
    assert_eq!(out, bytes);
    assert_eq!(k0().bytes(), bytes);
    assert_eq!(check(&bytes), accepted(1, 0, 262_144));
    let record = mesh::Mesh::read(&bytes).unwrap().records[0];
    assert_eq!(type_of(&record), Some(Type::A));
}

#[test]
fn k_select_0() {
    let mut out = [9; 121];
    assert_eq!(refine(&k(), &selection(7, 0, &[0]), &mut out), 0);
    assert_eq!(out.to_vec(), k1().bytes());
    assert_eq!(check(&out), accepted(2, 1, 262_144));
    assert_eq!([k1().signed(1), k1().signed(2)], [131_072; 2]);
    let read = mesh::Mesh::read(&out).unwrap();
    assert_eq!(read.signed(&read.records[1]), Some(131_072));
    assert_eq!(read.signed(&read.records[2]), Some(131_072));
    let mut short = [9; 120];
    assert_eq!(refine(&k(), &selection(7, 0, &[0]), &mut short), 20);
    assert_eq!(short, [0; 120]);
}

#[test]
fn then_select_1_and_2() {
    let stored = decode(&refined(&k1().bytes(), &[1, 2]));
    assert_eq!(stored.round, 2);
    assert_eq!(stored.records.len(), 7);
    assert_eq!(stored.vertices.len(), 7);
    assert_eq!(stored.leaves(), [3, 4, 5, 6]);
    let next: Vec<Pair> = (3..7).map(|n| stored.refinement_ends(n)).collect();
    assert_eq!(next, [(0, 1), (1, 2), (1, 2), (2, 3)]);
    assert_eq!(stored.records[1].first_child, 3);
    assert_eq!(stored.records[2].first_child, 5);
    assert_eq!(stored.vertices[5], vertex([32, 32, 0], [0, 2]));
    assert_eq!(stored.vertices[6], vertex([64, 32, 32], [1, 3]));
    // Worked by hand from the rules of cutting: records 1 and 2 are P unset.
    let by_hand = |corners, edge, marks| Record {
        corners,
        edge,
        marks,
        flag: 1,
        generation: 2,
        first_child: NONE,
    };
    assert_eq!(stored.records[3], by_hand([0, 1, 5, 4], 0, [4, 2, 0, 0]));
    assert_eq!(stored.records[4], by_hand([5, 1, 2, 4], 3, [3, 5, 4, 3]));
    assert_eq!(stored.records[5], by_hand([4, 1, 2, 6], 3, [3, 1, 0, 3]));
    assert_eq!(stored.records[6], by_hand([4, 6, 2, 3], 5, [5, 5, 2, 1]));
}

#[test]
fn from_there_select_4_alone() {
    let mesh = refined(&k1().bytes(), &[1, 2]);
    let result = refined(&mesh, &[4]);
    let stored = decode(&result);
    assert_ne!(stored.records[5].first_child, NONE, "5 is cut too");
    assert_eq!(stored.vertices.len(), 8);
    assert_eq!(stored.records.len(), 11);
    assert_eq!(stored.leaves(), [3, 6, 7, 8, 9, 10]);
    assert_eq!(stored.round, 3);
    assert_eq!(check(&result), accepted(6, 3, 262_144));
}

#[test]
fn select_3_to_6_instead() {
    let mesh = refined(&k1().bytes(), &[1, 2]);
    let result = refined(&mesh, &[3, 4, 5, 6]);
    let stored = decode(&result);
    assert_eq!(stored.vertices.len(), 10);
    assert_eq!(stored.records.len(), 15);
    assert_eq!(stored.leaves(), (7..15).collect::<Vec<u16>>());
    for leaf in stored.leaves() {
        assert_eq!(stored.sixfold(leaf as usize), 32_768);
    }
    assert_eq!(check(&result), accepted(8, 3, 262_144));
}

/// A single piece with refinement edge 0 and the given marks of faces 1 and 0.
fn single(marks: (u8, u8)) -> Stored {
    let mut stored = k0();
    stored.records[0].edge = 0;
    stored.records[0].marks = [marks.1, marks.0, 0, 0];
    stored
}

#[test]
fn the_types_and_what_they_give() {
    let table = [
        ((1, 3), Type::P),
        ((2, 4), Type::P),
        ((1, 4), Type::A),
        ((2, 3), Type::A),
        ((5, 5), Type::O),
        ((1, 5), Type::M),
        ((2, 5), Type::M),
        ((5, 3), Type::M),
        ((5, 4), Type::M),
    ];
    for (marks, wanted) in table {
        let stored = single(marks);
        let bytes = stored.bytes();
        assert_eq!(check(&bytes).number, 0, "{marks:?}");
        let record = mesh::Mesh::read(&bytes).unwrap().records[0];
        assert_eq!(type_of(&record), Some(wanted), "{marks:?}");

        // "P unset gives two P set; P set gives two A; A, O, M give two P unset."
        let kind = |stored: &Stored, n: usize| {
            let read = mesh::Mesh::read(&stored.bytes()).unwrap();
            (type_of(&read.records[n]).unwrap(), read.records[n].flag)
        };
        let expected = if wanted == Type::P {
            [(Type::P, 0), (Type::P, 1), (Type::A, 0), (Type::P, 0)]
        } else {
            [(wanted, 0), (Type::P, 0), (Type::P, 1), (Type::A, 0)]
        };
        // Closing may cut further in a round, so the type goes by generation.
        let mut mesh = bytes;
        while check(&mesh).deepest < 3 || decode(&mesh).leaves().len() < 8 {
            let stored = decode(&mesh);
            let mut selected = stored.leaves();
            selected.retain(|&n| stored.records[n as usize].generation < 3);
            mesh = refined(&mesh, &selected);
        }
        let stored = decode(&mesh);
        assert_eq!(stored.records.len(), 15, "{marks:?}");
        for (n, r) in stored.records.iter().enumerate() {
            let expected = expected[r.generation as usize];
            assert_eq!(kind(&stored, n), expected, "{marks:?} record {n}");
        }

        // The same from the bare cut, with the flag as given.
        for flag in [0, 1] {
            if flag == 1 && wanted != Type::P {
                continue;
            }
            let parent = mesh::Record { flag, ..record };
            let expected = match (wanted, flag) {
                (Type::P, 0) => (Type::P, 1),
                (Type::P, _) => (Type::A, 0),
                _ => (Type::P, 0),
            };
            for child in children(&parent, 4).unwrap() {
                assert_eq!(
                    (type_of(&child).unwrap(), child.flag),
                    expected,
                    "{marks:?}"
                );
                assert_eq!(child.generation, 1);
            }
        }
    }
}

#[test]
fn a_flagged_piece_marks_the_new_face_from_the_midpoint_to_the_shared_corner() {
    // Refinement edge 01, marks of faces (1, 0): 02 and 12 share the corner in slot 2.
    let parent = mesh::Record {
        corners: [10, 11, 12, 13],
        edge: 0,
        marks: [3, 1, 0, 0],
        flag: 1,
        generation: 1,
        first_child: NONE,
    };
    let [first, second] = children(&parent, 20).unwrap();
    // First child 10 20 12 13: inherited face 1 marked 02; cut faces 2 and 3 marked 03 and 02; the
    // new face 0 marked from w in slot 1 to slot 2.
    assert_eq!(first.corners, [10, 20, 12, 13]);
    assert_eq!((first.edge, first.marks, first.flag), (1, [3, 1, 2, 1], 0));
    // Second child 20 11 12 13: inherited face 0 marked 12; cut faces 2 and 3 marked 13 and 12; the
    // new face 1 marked from w in slot 0 to slot 2.
    assert_eq!(second.corners, [20, 11, 12, 13]);
    assert_eq!(
        (second.edge, second.marks, second.flag),
        (3, [3, 1, 4, 3], 0)
    );
    // The shared corner in slot 3 instead.
    let parent = mesh::Record {
        marks: [4, 2, 0, 0],
        ..parent
    };
    let [first, second] = children(&parent, 20).unwrap();
    assert_eq!((first.edge, first.marks), (2, [4, 2, 2, 1]));
    assert_eq!((second.edge, second.marks), (4, [4, 2, 4, 3]));
}

#[test]
fn the_first_child_keeps_the_end_of_lower_vertex_number() {
    // The lower number stands in the higher slot.
    let parent = mesh::Record {
        corners: [3, 1, 2, 0],
        edge: 2,
        marks: [4, 2, 2, 1],
        flag: 0,
        generation: 0,
        first_child: NONE,
    };
    let [first, second] = children(&parent, 4).unwrap();
    assert_eq!(first.corners, [4, 1, 2, 0]);
    assert_eq!(first.edge, 4);
    assert_eq!(second.corners, [3, 1, 2, 4]);
    assert_eq!(second.edge, 1);
}

#[test]
fn empty_selection_on_k() {
    let mut wanted = k0();
    wanted.round = 1;
    let result = refine_vec(&k(), &selection(7, 0, &[])).unwrap();
    assert_eq!(result, wanted.bytes());
    assert_eq!(check(&result), accepted(1, 0, 262_144));
}

#[test]
fn selection_of_round_0_on_a_mesh_of_round_1() {
    let mesh = k1().bytes();
    assert_eq!(refine_vec(&mesh, &selection(7, 0, &[1])), Err(14));
    assert_eq!(refine_vec(&mesh, &selection(8, 0, &[1])), Err(13));
    assert!(refine_vec(&mesh, &selection(7, 1, &[1])).is_ok());
}

#[test]
fn the_cube_select_one() {
    for selected in 0..6 {
        let result = refined(&cube(), &[selected]);
        let stored = decode(&result);
        assert!((0..6).all(|n| stored.records[n].first_child != NONE));
        assert_eq!(stored.vertices.len(), 9);
        assert_eq!(stored.records.len(), 18);
        assert_eq!(stored.vertices[8], vertex([32, 32, 32], [0, 7]));
        assert_eq!(check(&result), accepted(12, 1, 1_572_864));
    }
    assert_eq!(check(&cube()), accepted(6, 0, 1_572_864));
}

#[test]
fn base_coordinates() {
    let with = |coordinate: i16| {
        let mut coordinates = K_COORDINATES;
        coordinates[11] = coordinate;
        build_vec(7, &coordinates, &[0, 1, 2, 3])
    };
    let stored_with = |coordinate: i16| {
        let mut stored = k0();
        stored.vertices[3].place[2] = coordinate;
        check(&stored.bytes()).number
    };
    for good in [32_736, -32_736, 32, -32] {
        assert!(with(good).is_ok(), "{good}");
        // Below the face of the other three the stored piece is left-handed, which build undoes.
        let number = if good < 0 { 22 } else { 0 };
        assert_eq!(stored_with(good), number, "{good}");
    }
    for bad in [16, -32_768, 1, -1, 31, 33, 32_735, 32_737, 32_767, -32_767] {
        assert_eq!(with(bad), Err(4), "{bad}");
        assert_eq!(stored_with(bad), 4, "{bad}");
    }
}

#[test]
fn a_named_leaf_of_generation_14_and_one_of_15() {
    let fourteen = deepen(k(), 14);
    let leaf = deepest_leaf(&fourteen);
    assert_eq!(decode(&fourteen).records[leaf as usize].generation, 14);
    let fifteen = refined(&fourteen, &[leaf]);
    assert_ne!(decode(&fifteen).records[leaf as usize].first_child, NONE);
    assert_eq!(check(&fifteen).deepest, 15);
    let leaf = deepest_leaf(&fifteen);
    assert_eq!(decode(&fifteen).records[leaf as usize].generation, 15);
    assert_eq!(refine_vec(&fifteen, &choose(&fifteen, &[leaf])), Err(17));
    assert_eq!(check(&fifteen).sixfold, 262_144);
}

/// "State that a child's signed value is exactly half of its parent's": of every record, down to
/// generation 15.
#[test]
fn every_signed_value_is_half_of_its_parents() {
    let mut records = 0;
    let singles = [(1, 3), (2, 4), (1, 4), (2, 3), (5, 5), (1, 5), (5, 3)];
    let singles = singles.map(|marks| single(marks).bytes());
    for base in [k(), cube()].into_iter().chain(singles) {
        let mesh = deepen(base, 15);
        assert_eq!(check(&mesh).deepest, 15);
        let stored = decode(&mesh);
        records += right_handed_by_halves(&stored);
        let read = mesh::Mesh::read(&mesh).unwrap();
        for (n, record) in read.records.iter().enumerate() {
            assert_eq!(read.signed(record), Some(stored.signed(n)));
            // Fifteen halves of K's 262,144, which is 2^18, are 8.
            let base = 262_144 >> record.generation;
            assert_eq!(stored.signed(n), base);
        }
    }
    assert!(records > 400, "{records}");
}
