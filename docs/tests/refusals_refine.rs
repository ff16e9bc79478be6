//! Refusals 11 to 20: for each clause inputs that earn it, and inputs just short of it that don't. Before
//! them come the mesh's own, 23 among them.

mod common;
use common::*;
use second::{build_vec, check, refine, refine_vec, selection};

/// A selection with some bytes replaced.
fn poked(selection: &[u8], at: usize, new: &[u8]) -> Vec<u8> {
    let mut selection = selection.to_vec();
    selection[at..at + new.len()].copy_from_slice(new);
    selection
}

/// 23 is the mesh's own: it comes before 11 to 20, whatever is cut.
#[test]
fn refusal_23() {
    let hanging = on_an_edge_of_k([0; 3]);
    let last = Stored {
        round: 65_535,
        ..hanging.clone()
    };
    for mut stored in [hanging, last] {
        for cut in [None, Some(0), Some(1)] {
            if let Some(n) = cut {
                cut_one(&mut stored, n, Way::Right);
            }
            let mesh = stored.bytes();
            for (name, selection) in [
                ("an empty selection", choose(&mesh, &[])),
                ("one piece", choose(&mesh, &[1])),
                ("all leaves", choose(&mesh, &stored.leaves())),
                ("not rising (15)", choose(&mesh, &[1, 0])),
                ("another job (13)", selection(8, stored.round, &[0])),
                ("another round (14)", selection(7, 9, &[0])),
                ("another version (12)", poked(&choose(&mesh, &[0]), 3, &[2])),
                ("no bytes (11)", vec![]),
            ] {
                refine_refused(name, &mesh, &selection, 23);
            }
        }
    }
    // One step off the edge it is another matter.
    for off in [[-32, 0, 0], [0, 32, 0], [-32, 32, 0], [0, 0, 32]] {
        let mesh = on_an_edge_of_k(off).bytes();
        mesh_accepted("one step off", &mesh);
        let result = refined(&mesh, &[0]);
        // The made vertex is in the middle of 0-3, where the other would hang.
        assert_eq!(decode(&result).vertices[8].place, [32; 3]);
        mesh_accepted("refined", &refined(&result, &[1, 2]));
    }
}

/// What refine makes is not judged by places: two pieces that overlap, cut where their edges cross.
#[test]
fn not_23_made_vertices() {
    // The pieces whose edges cross in the middles of a cube's sides; 0-3 and 1-2 are cut first.
    let cube: Vec<[i16; 3]> = cube_coordinates(64)
        .chunks(3)
        .map(|p| [p[0], p[1], p[2]])
        .collect();
    let mut mesh = of_type_o(&cube, &[[0, 3, 5, 6], [1, 2, 4, 7]]).bytes();
    for round in 0..6 {
        let leaves = decode(&mesh).leaves();
        mesh = refined(&mesh, &leaves);
        mesh_accepted("a star, refined", &mesh);
        assert_eq!(check(&mesh).sixfold, 4 * 64u64.pow(3), "{round}");
    }
    // Made vertices of the one stand where made vertices of the other do.
    let stored = decode(&mesh);
    let places: std::collections::BTreeSet<_> = stored.vertices.iter().map(|v| v.place).collect();
    assert!(places.len() < stored.vertices.len());
}

#[test]
fn refusal_11() {
    let mesh = cube();
    let good = choose(&mesh, &[0, 2]);
    refine_refused("empty", &mesh, &[], 11);
    refine_refused("12 bytes", &mesh, &choose(&mesh, &[])[..12], 11);
    refine_refused("one byte short", &mesh, &good[..16], 11);
    refine_refused("one number short", &mesh, &good[..15], 11);
    refine_refused("one byte long", &mesh, &[&good[..], &[0]].concat(), 11);
    refine_refused(
        "count 1 for two numbers",
        &mesh,
        &poked(&good, 11, &[1]),
        11,
    );
    refine_refused(
        "count 3 for two numbers",
        &mesh,
        &poked(&good, 11, &[3]),
        11,
    );
    refine_refused(
        "count 258 for two numbers",
        &mesh,
        &poked(&good, 12, &[1]),
        11,
    );
    refine_refused("a wrong mark, one byte long", &mesh, &[b'x'; 18], 11);
    refine_refused("a mesh", &mesh, &mesh, 11);
    let many: Vec<u16> = (0..=65_535).collect();
    assert_eq!(many.len(), 65_536);
    refine_refused(
        "65,536 numbers have no count",
        &mesh,
        &choose(&mesh, &many),
        11,
    );
    // Not earned.
    assert!(refine_vec(&mesh, &good).is_ok());
    assert!(refine_vec(&mesh, &choose(&mesh, &[])).is_ok());
    let many = &many[..65_535];
    refine_refused("65,535 numbers", &mesh, &choose(&mesh, many), 15);
}

#[test]
fn refusal_12() {
    let mesh = cube();
    let good = choose(&mesh, &[0]);
    for at in 0..3 {
        refine_refused("mark", &mesh, &poked(&good, at, b"m"), 12);
    }
    refine_refused("a mesh's mark", &mesh, &poked(&good, 0, b"TMB"), 12);
    refine_refused("version 0", &mesh, &poked(&good, 3, &[0, 0]), 12);
    refine_refused("version 2", &mesh, &poked(&good, 3, &[2, 0]), 12);
    refine_refused("version 257", &mesh, &poked(&good, 3, &[1, 1]), 12);
    refine_refused("zeros", &mesh, &[0; 13], 12);
    assert!(refine_vec(&mesh, &good).is_ok());
}

#[test]
fn refusal_13() {
    let mesh = k();
    for job in [0, 6, 8, 263, 7 + 65_536, 7 + (1 << 24), u32::MAX] {
        refine_refused("another job", &mesh, &selection(job, 0, &[0]), 13);
        refine_refused("another job and round", &mesh, &selection(job, 1, &[0]), 13);
        refine_refused(
            "another job, nothing named",
            &mesh,
            &selection(job, 0, &[]),
            13,
        );
    }
    assert!(refine_vec(&mesh, &selection(7, 0, &[0])).is_ok());
    // The same numbers exist in both meshes: the case of the rack.
    let other = build_vec(8, &K_COORDINATES, &[0, 1, 2, 3]).unwrap();
    refine_refused("left by the man ahead", &other, &choose(&mesh, &[0]), 13);
    for job in [0, u32::MAX] {
        let mesh = build_vec(job, &K_COORDINATES, &[0, 1, 2, 3]).unwrap();
        assert!(refine_vec(&mesh, &selection(job, 0, &[0])).is_ok());
    }
}

#[test]
fn refusal_14() {
    let mesh = refined(&k(), &[0]);
    for round in [0, 2, 257, 65_535] {
        refine_refused("another round", &mesh, &selection(7, round, &[1]), 14);
        refine_refused(
            "another round, nothing named",
            &mesh,
            &selection(7, round, &[]),
            14,
        );
        refine_refused(
            "another round, not rising",
            &mesh,
            &selection(7, round, &[2, 1]),
            14,
        );
    }
    assert!(refine_vec(&mesh, &selection(7, 1, &[1])).is_ok());
    // A choice is dead as soon as a refinement is accepted, an empty one too.
    let empty = choose(&k(), &[]);
    let after = refine_vec(&k(), &empty).unwrap();
    refine_refused("the same selection again", &after, &empty, 14);
}

#[test]
fn refusal_15() {
    let mesh = cube();
    for (name, numbers) in [
        ("falling", &[1u16, 0][..]),
        ("equal", &[0, 0]),
        ("equal at the end", &[0, 1, 2, 2]),
        ("falling at the end", &[0, 1, 3, 2]),
        ("falling at the start", &[4, 1, 2, 3]),
        ("the record count", &[6]),
        ("the record count after others", &[0, 1, 6]),
        ("65,535", &[65_535]),
        ("256 and more", &[0, 256]),
        ("falling and too great", &[7, 6]),
    ] {
        refine_refused(name, &mesh, &choose(&mesh, numbers), 15);
    }
    for numbers in [&[0u16][..], &[5], &[0, 5], &[0, 1, 2, 3, 4, 5]] {
        assert!(refine_vec(&mesh, &choose(&mesh, numbers)).is_ok());
    }
}

#[test]
fn refusal_16() {
    let mesh = refined(&k(), &[0]);
    refine_refused("the base record", &mesh, &choose(&mesh, &[0]), 16);
    refine_refused("it and a leaf", &mesh, &choose(&mesh, &[0, 1]), 16);
    let mesh = refined(&mesh, &[1, 2]);
    refine_refused(
        "a record beyond the base",
        &mesh,
        &choose(&mesh, &[2, 3]),
        16,
    );
    refine_refused(
        "all records",
        &mesh,
        &choose(&mesh, &[0, 1, 2, 3, 4, 5, 6]),
        16,
    );
    assert!(refine_vec(&mesh, &choose(&mesh, &[3, 4, 5, 6])).is_ok());
}

/// Two pieces that share nothing, one refined to generation 15, then the other and its children: a
/// leaf of generation 15 stands before a cut record.
fn leaf_of_15_before_a_cut_record() -> (Vec<u8>, u16, u16) {
    let (coordinates, corners) = separate(2);
    let mut mesh = build_vec(7, &coordinates, &corners).unwrap();
    let mut leaf = 0;
    for generation in 0..15 {
        let stored = decode(&mesh);
        assert_eq!(stored.records[leaf as usize].generation, generation);
        mesh = refined(&mesh, &[leaf]);
        leaf = decode(&mesh).records[leaf as usize].first_child;
    }
    mesh = refined(&mesh, &[1]);
    let later = decode(&mesh).records[1].first_child;
    mesh = refined(&mesh, &[later]);
    (mesh, leaf, later)
}

#[test]
fn refusal_16_before_17() {
    let (mesh, leaf, cut) = leaf_of_15_before_a_cut_record();
    let stored = decode(&mesh);
    assert!(leaf < cut);
    assert_eq!(stored.records[leaf as usize].generation, 15);
    assert_eq!(stored.records[leaf as usize].first_child, NONE);
    assert_ne!(stored.records[cut as usize].first_child, NONE);
    refine_refused(
        "15, later a cut record",
        &mesh,
        &choose(&mesh, &[leaf, cut]),
        16,
    );
    refine_refused(
        "a cut record, later 15",
        &mesh,
        &choose(&mesh, &[0, leaf]),
        16,
    );
    refine_refused("15 alone", &mesh, &choose(&mesh, &[leaf]), 17);
}

#[test]
fn refusal_17() {
    let fourteen = deepen(k(), 14);
    let mesh = deepen(k(), 15);
    let stored = decode(&mesh);
    let generation = |n: &u16| stored.records[*n as usize].generation;
    let leaves = stored.leaves();
    let of_15: Vec<u16> = leaves
        .iter()
        .copied()
        .filter(|n| generation(n) == 15)
        .collect();
    assert!(of_15.len() >= 2);
    for &leaf in &of_15 {
        refine_refused("one of 15", &mesh, &choose(&mesh, &[leaf]), 17);
    }
    refine_refused("all of 15", &mesh, &choose(&mesh, &of_15), 17);
    refine_refused("all leaves", &mesh, &choose(&mesh, &leaves), 17);
    // Not earned: leaves of 15 that aren't named, and each leaf of 14 alone.
    let mut tried = 0;
    for mesh in [&fourteen, &mesh] {
        let stored = decode(mesh);
        for leaf in stored.leaves() {
            if stored.records[leaf as usize].generation == 14 {
                let result = refined(mesh, &[leaf]);
                mesh_accepted("a leaf of 14 cut", &result);
                assert_eq!(check(&result).deepest, 15);
                assert_ne!(decode(&result).records[leaf as usize].first_child, NONE);
                tried += 1;
            }
        }
    }
    assert!(tried > 0);
}

#[test]
fn refusal_18() {
    let at_round = |round: u16| {
        let mut stored = decode(&k());
        stored.round = round;
        stored.bytes()
    };
    let last = at_round(65_535);
    mesh_accepted("the last round", &last);
    refine_refused("a piece named", &last, &selection(7, 65_535, &[0]), 18);
    refine_refused("nothing named", &last, &selection(7, 65_535, &[]), 18);
    refine_refused("of another round", &last, &selection(7, 65_534, &[0]), 14);
    refine_refused("of round 0", &last, &selection(7, 0, &[0]), 14);
    // Not earned.
    let result = refined(&at_round(65_534), &[0]);
    assert_eq!(decode(&result).round, 65_535);
    mesh_accepted("into the last round", &result);
    let result = refined(&at_round(255), &[]);
    assert_eq!(decode(&result).round, 256);
}

#[test]
fn refusal_19_vertices() {
    let (coordinates, corners) = separate(255);
    let mesh = build_vec(2, &coordinates, &corners).unwrap();
    let four = refined(&mesh, &[0, 1, 2, 3]);
    assert_eq!(decode(&four).vertices.len(), 1_024);
    mesh_accepted("1,024 vertices", &four);
    refine_refused("five pieces", &mesh, &choose(&mesh, &[0, 1, 2, 3, 4]), 19);
    refine_refused(
        "all pieces",
        &mesh,
        &choose(&mesh, &(0..255).collect::<Vec<_>>()),
        19,
    );
    refine_refused("one more", &four, &choose(&four, &[4]), 19);
    // The empty selection cuts nothing, also where the tables are full.
    let result = refined(&four, &[]);
    let mut wanted = decode(&four);
    wanted.round += 1;
    assert_eq!(decode(&result), wanted);
    // Full from the start.
    let (coordinates, corners) = separate(256);
    let mesh = build_vec(2, &coordinates, &corners).unwrap();
    refine_refused("1,024 base vertices", &mesh, &choose(&mesh, &[255]), 19);
    assert_eq!(refined(&mesh, &[]).len(), mesh.len());
}

#[test]
fn refusal_19_only_by_closing() {
    // The selected record alone would fit: closing a chain of pieces fills the vertices.
    for rungs in [338, 339, 340, 341] {
        let mesh = ladder(rungs).bytes();
        mesh_accepted("a ladder", &mesh);
        let closed = naive_refine(&mesh, &[0], Way::Right);
        // Two base vertices for each end of a rung, one midpoint for each but the first edge.
        assert_eq!(closed.vertices.len(), 2 * (rungs + 1) + rungs);
        assert_eq!(closed.records.len(), rungs + 2 + 6 * (rungs - 1));
        if rungs <= 340 {
            assert_eq!(refined(&mesh, &[0]), closed.bytes());
        } else {
            refine_refused("a ladder too long", &mesh, &choose(&mesh, &[0]), 19);
        }
    }
}

/// A chain of pieces, each hanging on the one before as soon as that is cut: piece i has the edges
/// e(i) and e(i+1) opposite to each other, e(i+1) being its refinement edge (type O).
fn ladder(rungs: usize) -> Stored {
    let places: Vec<[i16; 3]> = (0..=rungs as i16)
        .flat_map(|i| {
            let z = 32 * (i - 170);
            if i % 2 == 0 {
                [[-32, 0, z], [32, 0, z]]
            } else {
                [[0, -32, z], [0, 32, z]]
            }
        })
        .collect();
    // The rungs turn to and fro, and so does the order in which a piece is right-handed.
    let slots = |i: u16| match i % 2 {
        0 => [1, 0, 2, 3],
        _ => [0, 1, 2, 3],
    };
    let pieces: Vec<_> = (0..rungs as u16)
        .map(|i| (slots(i).map(|n| 2 * i + n), 5, [5, 5, 0, 0]))
        .collect();
    marked(&places, &pieces)
}

#[test]
fn refusal_19_records() {
    for records in [3_068, 3_069, 3_070, 3_071, 3_072] {
        // The last piece has nothing in common with the others.
        let (mut coordinates, mut corners) = crowded(796, records - 1, 11);
        coordinates.extend(K_COORDINATES.map(|x| x - 640));
        corners.extend([796, 797, 798, 799]);
        let mesh = build_vec(2, &coordinates, &corners).unwrap();
        let lonely = records as u16 - 1;
        let mut tried = [0, 0];
        for leaf in (0..lonely).step_by(300).chain([lonely]) {
            let closed = naive_refine(&mesh, &[leaf], Way::Right);
            assert!(closed.vertices.len() <= 1_024);
            if closed.records.len() <= 3_072 {
                assert_eq!(refined(&mesh, &[leaf]), closed.bytes());
                tried[0] += 1;
            } else {
                refine_refused("records", &mesh, &choose(&mesh, &[leaf]), 19);
                tried[1] += 1;
            }
        }
        // The lonely piece makes two records more.
        let fits = records + 2 <= 3_072;
        assert!(tried[if fits { 0 } else { 1 }] > 0, "{records}: {tried:?}");
        if !fits {
            assert_eq!(tried[0], 0);
        }
    }
}

#[test]
fn refusal_20() {
    let mesh = k();
    for (numbers, length) in [(&[0u16][..], 121), (&[], 77)] {
        let selection = choose(&mesh, numbers);
        for short in [0, 1, 20, 76, length - 1] {
            let mut out = vec![0xAA; short];
            assert_eq!(refine(&mesh, &selection, &mut out), 20);
            assert_eq!(out, vec![0; short]);
        }
        for enough in [length, length + 1, FULL, FULL + 1, 100_000] {
            let mut out = vec![0xAA; enough];
            assert_eq!(refine(&mesh, &selection, &mut out), 0);
            assert_eq!(out[..length], refine_vec(&mesh, &selection).unwrap());
            assert!(out[length..].iter().all(|&byte| byte == 0));
        }
    }
    // 18 and 19 before 20.
    let mut stored = decode(&mesh);
    stored.round = 65_535;
    refine_refused(
        "the last round",
        &stored.bytes(),
        &selection(7, 65_535, &[0]),
        18,
    );
    // By the result as closed, not by the selected pieces: the cube's six are all cut.
    let selection = choose(&cube(), &[0]);
    let length = 20 + 9 * 10 + 18 * 17;
    assert_eq!(refine(&cube(), &selection, &mut vec![0; length - 1]), 20);
    assert_eq!(refine(&cube(), &selection, &mut vec![0; length]), 0);
}
