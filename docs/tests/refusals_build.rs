//! Build: the refusals it gives (21, 3, 4, 5, 7, 8, 23, 20), its marks, and what it does with left-handed
//! pieces: it never gives 22.

mod common;
use common::*;
use second::{build, build_vec, check};
use std::collections::BTreeMap;

#[test]
fn refusal_21() {
    let k = &K_COORDINATES;
    build_refused("11 coordinates", &k[..11], &[0, 1, 2, 3], 21);
    build_refused("10 coordinates", &k[..10], &[0, 1, 2, 3], 21);
    build_refused("one coordinate", &[0], &[], 21);
    build_refused(
        "13 coordinates",
        &[&k[..], &[16]].concat(),
        &[0, 1, 2, 3],
        21,
    );
    build_refused("3 corners", k, &[0, 1, 2], 21);
    build_refused("5 corners", k, &[0, 1, 2, 3, 0], 21);
    build_refused("6 corners", k, &[0, 1, 2, 3, 0, 1], 21);
    build_refused("one corner alone", &[], &[65_535], 21);
    build_refused("both", &k[..11], &[0, 1, 2], 21);
    // Not earned: empty lists are whole multiples.
    build_refused("nothing", &[], &[], 3);
    build_refused("no pieces", k, &[], 3);
    build_refused("no vertices", &[], &[0, 1, 2, 3], 3);
    assert!(build_vec(7, k, &[0, 1, 2, 3]).is_ok());
}

#[test]
fn refusal_3() {
    let k = &K_COORDINATES;
    build_refused("3 vertices", &k[..9], &[0, 1, 2, 3], 3);
    // No coordinate is looked at before 3: these are all off the grid and at one place.
    build_refused("1,025 vertices", &[1; 3 * 1_025], &[0, 1, 2, 3], 3);
    build_refused("70,000 vertices", &vec![1; 3 * 70_000], &[0, 1, 2, 3], 3);
    build_refused("65,540 vertices", &vec![1; 3 * 65_540], &[0, 1, 2, 3], 3);
    let repeated = |pieces: usize| [0u16, 1, 2, 3].repeat(pieces);
    build_refused("3,073 pieces", k, &repeated(3_073), 3);
    build_refused("65,537 pieces", k, &repeated(65_537), 3);
    build_refused("70,000 pieces", k, &repeated(70_000), 3);
    // Not earned.
    build_refused("1,024 vertices", &[1; 3 * 1_024], &[0, 1, 2, 3], 4);
    build_refused("3,072 pieces", k, &repeated(3_072), 7);
    let (coordinates, corners) = crowded(1_024, 3_072, 3);
    let mut out = vec![1; FULL];
    assert_eq!(build(u32::MAX, &coordinates, &corners, &mut out), 0);
    mesh_accepted("the largest mesh", &out);
    assert_eq!(build(0, &coordinates, &corners, &mut out[..FULL - 1]), 20);
}

#[test]
fn refusal_4() {
    for (at, bad) in [(0, 16), (5, -32_768), (11, 32_767), (7, 63), (3, -1)] {
        let mut coordinates = K_COORDINATES;
        coordinates[at] = bad;
        build_refused("off the grid", &coordinates, &[0, 1, 2, 3], 4);
    }
    let mut coordinates = K_COORDINATES;
    coordinates[9..].copy_from_slice(&[64, 0, 0]);
    build_refused("two at one place", &coordinates, &[0, 1, 2, 3], 4);
    let five = [&K_COORDINATES[..], &[64, 64, 0]].concat();
    build_refused("two at one place, one unused", &five, &[0, 1, 2, 3], 4);
    build_refused(
        "two at one place in two pieces",
        &five,
        &[0, 1, 2, 3, 0, 1, 4, 3],
        4,
    );
    let largest = K_COORDINATES.map(|x| if x == 64 { 32_736 } else { -32_736 });
    let mesh = build_vec(7, &largest, &[0, 1, 2, 3]).unwrap();
    assert_eq!(check(&mesh).sixfold, 65_472u64.pow(3));
}

#[test]
fn refusal_5() {
    let k = &K_COORDINATES;
    for corners in [
        [0, 0, 1, 2],
        [0, 1, 2, 0],
        [1, 2, 3, 3],
        [3, 3, 3, 3],
        [0, 1, 2, 1],
    ] {
        build_refused("equal corners", k, &corners, 5);
    }
    for corner in [4, 100, 1_023, 1_024, 65_535] {
        build_refused("a corner not in the base", k, &[0, 1, 2, corner], 5);
    }
    let flat = [0, 0, 0, 64, 0, 0, 64, 64, 0, 0, 64, 0];
    build_refused("sixfold volume 0", &flat, &[0, 1, 2, 3], 5);
    // The second piece, after a good one.
    let five = [&k[..], &[64, 0, 64]].concat();
    build_refused("the second piece flat", &five, &[0, 1, 2, 3, 1, 2, 3, 4], 5);
    // 5 judges the pieces as they are given: a left-handed one before or after changes nothing.
    for pieces in [[0, 1, 3, 2, 1, 2, 3, 4], [1, 2, 3, 4, 0, 1, 3, 2]] {
        build_refused("a left-handed piece and a flat one", &five, &pieces, 5);
    }
    build_refused("a left-handed piece", &five, &[0, 1, 3, 2, 0, 1, 2, 2], 5);
    // Far apart, where products no longer fit 32 bits but the volume is small.
    let thin = [-32_736, 0, 0, 32_736, 0, 0, 32_736, 32, 0, 32_736, 32, 32];
    let mesh = build_vec(7, &thin, &[0, 1, 2, 3]).unwrap();
    assert_eq!(check(&mesh).sixfold, 65_472 * 32 * 32);
}

#[test]
fn refusal_7() {
    let places: [[i16; 3]; 6] = [
        [0, 0, 0],
        [64, 0, 0],
        [0, 64, 0],
        [0, 0, 64],
        [0, 32, -64],
        [32, 0, -64],
    ];
    let coordinates = places.concat();
    let three = [0, 1, 2, 3, 0, 1, 2, 4, 2, 5, 1, 0];
    build_refused("a face in three", &coordinates, &three, 7);
    assert!(build_vec(7, &coordinates[..15], &three[..8]).is_ok());
    build_refused("twice", &K_COORDINATES, &[0, 1, 2, 3, 0, 1, 2, 3], 7);
    build_refused(
        "twice, turned",
        &K_COORDINATES,
        &[0, 1, 2, 3, 3, 1, 0, 2],
        7,
    );
    // The same piece twice, not one after the other.
    let corners = [0, 1, 2, 3, 0, 1, 4, 5, 2, 1, 0, 3];
    build_refused("twice, apart", &coordinates, &corners, 7);
}

#[test]
fn refusal_8() {
    let five = [&K_COORDINATES[..], &[0, 0, 64]].concat();
    build_refused("the last vertex unused", &five, &[0, 1, 2, 3], 8);
    let five = [&[0, 0, 64], &K_COORDINATES[..]].concat();
    build_refused("the first vertex unused", &five, &[1, 2, 3, 4], 8);
    let many: Vec<i16> = (0..1_024).flat_map(grid_place).collect();
    build_refused("1,020 vertices unused", &many, &[0, 1, 11, 110], 8);
}

/// Two pieces: one in the corner of a cube, and one that has vertex 4 at the place and its other corners
/// beyond the face 0 1 2.
fn spike(place: [i16; 3]) -> Vec<i16> {
    let places = [[0, 0, 0], [128, 0, 0], [0, 128, 0], [0, 0, 128]];
    let others = [[0, 0, -640], [64, 0, -640], [0, 64, -640]];
    [&places[..], &[place], &others].concat().concat()
}

#[test]
fn refusal_23() {
    let pieces = [0, 1, 2, 3, 4, 5, 6, 7];
    for (name, place) in [
        ("in the middle of an edge", [64, 0, 0]),
        ("in the middle of another", [0, 64, 64]),
        ("on an edge, next to a corner", [0, 0, 96]),
        ("in a face", [32, 32, 0]),
        ("in another", [32, 64, 32]),
        ("strictly inside", [32, 32, 32]),
        ("one step off an edge, in a face", [64, 32, 0]),
    ] {
        build_refused(name, &spike(place), &pieces, 23);
        // The other piece first.
        build_refused(name, &spike(place), &[4, 5, 6, 7, 0, 1, 2, 3], 23);
    }
    for (name, place) in [
        ("one step off an edge", [64, -32, 0]),
        ("one step off another", [0, 96, 64]),
        ("one step off a face", [32, 32, -32]),
        ("one step beyond a corner", [160, 0, 0]),
        ("in the plane of a face", [96, 96, 0]),
        ("in the plane of another", [-32, 64, 96]),
        ("on the line of an edge", [0, -32, 0]),
    ] {
        let mesh = build_vec(7, &spike(place), &pieces);
        mesh_accepted(
            name,
            &mesh.unwrap_or_else(|number| panic!("{name}: {number}")),
        );
    }
    // At a corner: by the same number it is a corner, by another it is 4's.
    assert!(build_vec(7, &spike([0; 3])[..12], &pieces[..4]).is_ok());
    build_refused("at one place", &spike([0; 3]), &pieces, 4);
    let shared = [&spike([0; 3])[..12], &spike([0; 3])[15..]].concat();
    assert!(build_vec(7, &shared, &[0, 1, 2, 3, 0, 4, 5, 6]).is_ok());
    // 4 is the middle of 0-1, and the neighbour has halves of its face 0 1 3.
    let halves = [&spike([64, 0, 0])[..15], &[0, -128, 0]].concat();
    let [a, b] = [[0, 4, 3, 5], [4, 1, 3, 5]];
    build_refused("halves", &halves, &[[0, 1, 2, 3], a, b].concat(), 23);
    build_refused("one half", &halves, &[[0, 1, 2, 3], a].concat(), 23);
    let four = [[0, 4, 2, 3], [4, 1, 2, 3], a, b].concat();
    assert!(build_vec(7, &halves, &four).is_ok());
    // The cube with one of its sides' middles for a corner of one more piece.
    let cube = [
        cube_coordinates(64),
        vec![32, 32, 0, 0, 0, -64, 64, 0, -64, 0, 64, -64],
    ]
    .concat();
    let corners = [&CUBE_CORNERS[..], &[8, 9, 10, 11]].concat();
    build_refused("on the diagonal of a side", &cube, &corners, 23);
}

/// "Pieces that overlap with no vertex inside one another stay unjudged."
#[test]
fn not_23_pieces_that_overlap() {
    // The two pieces whose edges cross in the middles of a cube's sides, also as large as can be.
    for size in [32, 32_736] {
        let cube = cube_coordinates(1).into_iter().map(|x| size * (2 * x - 1));
        let cube: Vec<i16> = cube.collect();
        let mesh = build_vec(7, &cube, &[0, 3, 5, 6, 1, 2, 4, 7]).unwrap();
        mesh_accepted("a star", &mesh);
        assert_eq!(check(&mesh).sixfold, 4 * (2 * size as u64).pow(3));
        // Corner 7 in the middle of a side, and so of an edge of the other piece.
        for axis in 0..3 {
            let mut pulled = cube.clone();
            (0..3)
                .filter(|&i| i != axis)
                .for_each(|i| pulled[21 + i] = 0);
            build_refused("pulled in", &pulled, &[0, 3, 5, 6, 1, 2, 4, 7], 23);
        }
        // And in the middle of the cube.
        let inside = [&cube[..21], &[0, 0, 0]].concat();
        build_refused("inside", &inside, &[0, 3, 5, 6, 1, 2, 4, 7], 23);
    }
}

#[test]
fn refusal_20() {
    for short in [0, 1, 20, 76] {
        let mut out = vec![0xAA; short];
        assert_eq!(build(7, &K_COORDINATES, &[0, 1, 2, 3], &mut out), 20);
        assert_eq!(out, vec![0; short]);
    }
    for enough in [77, 78, FULL, 100_000] {
        let mut out = vec![0xAA; enough];
        assert_eq!(build(7, &K_COORDINATES, &[0, 1, 2, 3], &mut out), 0);
        assert_eq!(out[..77], k());
        assert!(out[77..].iter().all(|&byte| byte == 0));
    }
}

#[test]
fn every_subset_of_the_refusals_gets_the_first_that_build_tries() {
    let order = [21, 3, 4, 5, 7, 8, 23, 20];
    for subset in 0..1u32 << order.len() {
        let broken: Vec<u32> = (0..order.len())
            .filter(|i| subset >> i & 1 == 1)
            .map(|i| order[i])
            .collect();
        let breaks = |number: u32| broken.contains(&number);
        // The cube with a piece on the outside of its face 0 1 3; four of the seven are left-handed.
        let mut coordinates = [cube_coordinates(64), vec![64, 0, -64]].concat();
        let mut corners = [&CUBE_CORNERS[..], &[0, 1, 3, 8]].concat();
        if breaks(23) {
            // A piece that has vertex 8 in the middle of its edge 9-10.
            coordinates.extend([32, 0, -64, 96, 0, -64, 64, 32, -128, 64, -32, -128]);
            corners.extend([9, 10, 11, 12]);
        }
        if breaks(8) {
            coordinates.extend([320, 320, 320]);
        }
        if breaks(7) {
            corners.extend([0, 2, 3, 7]);
        }
        if breaks(5) {
            corners.extend([0, 1, 2, 3]);
        }
        if breaks(4) {
            coordinates[5] = 16;
        }
        if breaks(3) {
            corners.extend([0u16, 1, 3, 7].repeat(3_072));
        }
        if breaks(21) {
            corners.push(0);
        }
        let length = 20 + 10 * coordinates.len() / 3 + 17 * corners.len() / 4;
        let mut out = vec![0xAA; if breaks(20) { length - 1 } else { length }];
        let number = build(7, &coordinates, &corners, &mut out);
        assert_eq!(number, broken.first().copied().unwrap_or(0), "{broken:?}");
        assert_eq!(out.iter().all(|&byte| byte == 0), number != 0);
    }
}

#[test]
fn marks_of_equal_lengths_go_by_vertex_numbers() {
    // Three edges of squared length 2 · 64²: 1-2, 1-3 and 2-3.
    let coordinates = [0, 0, 0, 64, 0, 0, 0, 64, 0, 0, 0, 64];
    let record = |corners: &[u16]| decode(&build_vec(7, &coordinates, corners).unwrap()).records[0];
    let r = record(&[0, 1, 2, 3]);
    assert_eq!((r.edge, r.marks), (3, [3, 5, 4, 3]));
    // In other slots: still the edge 1-2 first, then 1-3, then 2-3.
    let r = record(&[3, 2, 1, 0]);
    assert_eq!((r.edge, r.marks), (3, [3, 1, 0, 3]));
    let r = record(&[2, 0, 1, 3]);
    assert_eq!((r.edge, r.marks), (1, [5, 1, 2, 1]));
    // Of equal lengths and equal lower number the smaller higher one: 0-1 and 0-2 are longest.
    let coordinates = [0, 0, 96, 32, 0, 0, -32, 0, 0, 0, 32, 32];
    let r = decode(&build_vec(7, &coordinates, &[3, 2, 1, 0]).unwrap()).records[0];
    assert_eq!((r.edge, r.marks), (5, [5, 5, 4, 3]));
    let r = decode(&build_vec(7, &coordinates, &[1, 2, 0, 3]).unwrap()).records[0];
    assert_eq!((r.edge, r.marks), (1, [3, 1, 0, 1]));
    // The lower number decides before the higher: 0-3 comes before 1-2.
    let coordinates = [0, 0, 0, 64, -64, 32, 64, 64, 32, 128, 0, 0];
    let r = decode(&build_vec(7, &coordinates, &[0, 1, 3, 2]).unwrap()).records[0];
    assert_eq!((r.edge, r.marks), (1, [4, 1, 4, 1]));
}

#[test]
fn marks_of_lengths_beyond_32_bits() {
    // Squared lengths around 3 · 65,472², far above 2^32; the last bits decide.
    let coordinates = [
        -32_736, -32_736, -32_736, 32_736, 32_736, 32_736, 32_736, 32_704, 32_736, -32_736, 32_736,
        -32_704,
    ];
    let r = decode(&build_vec(7, &coordinates, &[0, 1, 3, 2]).unwrap()).records[0];
    // 0-1 is longest (3 · 65,472²), then 0-2; 1-3 and 2-3 differ in y only: 2-3 is longer.
    assert_eq!(r.corners, [0, 1, 3, 2]);
    assert_eq!((r.edge, r.marks), (0, [5, 2, 0, 0]));
}

/// Every order of the four slots, and whether it takes an odd number of exchanges.
fn orders() -> Vec<([u16; 4], bool)> {
    let mut orders = Vec::new();
    for number in 0..256u16 {
        let order = [0, 2, 4, 6].map(|shift| number >> shift & 3);
        let falling = CODES.iter().filter(|(i, j)| order[*i] > order[*j]);
        if CODES.iter().all(|(i, j)| order[*i] != order[*j]) {
            orders.push((order, falling.count() % 2 == 1));
        }
    }
    assert_eq!(orders.len(), 24);
    orders
}

/// The refinement edge and each face with its mark, by vertices.
fn marked_edges(r: &Record) -> (Pair, BTreeMap<[u16; 3], Pair>) {
    let faces = (0..4).map(|i| (face_set(r.corners, i), ends(r, r.marks[i])));
    (ends(r, r.edge), faces.collect())
}

/// "Build takes a left-handed piece by exchanging its last two corners before marking": K in every order
/// of its corners.
#[test]
fn a_left_handed_piece() {
    let mut exchanged = 0;
    for (given, left) in orders() {
        let mesh = build_vec(7, &K_COORDINATES, &given).unwrap();
        let stored = decode(&mesh);
        let r = stored.records[0];
        let [a, b, c, d] = given;
        assert_eq!(r.corners, if left { [a, b, d, c] } else { given });
        exchanged += left as u32;
        assert_eq!(stored.signed(0), 262_144);
        assert_eq!(check(&mesh), check(&k()));
        // The same edges are marked, in whatever codes.
        assert_eq!(marked_edges(&r), marked_edges(&decode(&k()).records[0]));
        // Exchanged after marking, the codes would be those of other edges.
        if left {
            let late = Record {
                corners: r.corners,
                ..turned(&r, 2, 3)
            };
            assert_ne!(marked_edges(&late), marked_edges(&r));
        }
    }
    assert_eq!(exchanged, 12);
    // K itself keeps its row.
    assert_eq!(build_vec(7, &K_COORDINATES, &[0, 1, 3, 2]), Ok(k()));
}

/// Left- and right-handed pieces mixed: each keeps its place in the list, whatever its neighbours are.
#[test]
fn left_handed_pieces_among_others() {
    let right = decode(&cube());
    assert_eq!(right_handed_by_halves(&right), 6);
    for bits in 0..64 {
        let mut corners: Vec<u16> = right.records.iter().flat_map(|r| r.corners).collect();
        for n in (0..6).filter(|n| bits >> n & 1 == 1) {
            corners.swap(4 * n + 2, 4 * n + 3);
        }
        let mesh = build_vec(1, &cube_coordinates(64), &corners).unwrap();
        assert_eq!(mesh, cube(), "{bits:06b}");
        // Each place on the other side of the origin: now the others are exchanged.
        let mirrored: Vec<i16> = cube_coordinates(64).iter().map(|x| -x).collect();
        let stored = decode(&build_vec(1, &mirrored, &corners).unwrap());
        assert_eq!(right_handed_by_halves(&stored), 6);
        for (r, other) in stored.records.iter().zip(&right.records) {
            let [a, b, c, d] = other.corners;
            assert_eq!(r.corners, [a, b, d, c]);
            assert_eq!(ends(r, r.edge), (0, 7));
        }
    }
}

/// 7, 8 and 23 don't see the exchange: each number is the same for every hand of every piece.
#[test]
fn refusals_7_8_and_23_in_either_hand() {
    let places: [[i16; 3]; 7] = [
        [0, 0, 0],
        [64, 0, 0],
        [0, 64, 0],
        [0, 0, 64],
        [0, 32, -64],
        [32, 0, -64],
        [640, 640, 640],
    ];
    let cases: [(&[[u16; 4]], usize, u32); 4] = [
        (&[[0, 1, 2, 3], [0, 1, 2, 4], [2, 5, 1, 0]], 6, 7),
        (&[[0, 1, 2, 3], [0, 1, 2, 4], [3, 1, 0, 2]], 5, 7),
        (&[[0, 1, 2, 3], [0, 1, 2, 4], [5, 1, 4, 0]], 6, 0),
        (&[[0, 1, 2, 3], [0, 1, 2, 4], [5, 1, 4, 0]], 7, 8),
    ];
    let in_either_hand = |places: &[[i16; 3]], pieces: &[[u16; 4]], number: u32| {
        for bits in 0..8 {
            let mut pieces = pieces.to_vec();
            for n in (0..3).filter(|n| bits >> n & 1 == 1) {
                pieces[n].swap(bits % 3, 3);
            }
            let mut out = vec![0xAA; FULL];
            let given = build(7, &places.concat(), &pieces.concat(), &mut out);
            assert_eq!(given, number, "{pieces:?}");
        }
    };
    for (pieces, vertices, number) in cases {
        in_either_hand(&places[..vertices], pieces, number);
    }
    // Two pieces on a face, and a third with its corner 8 on an edge, in a face, inside, or outside.
    let pieces = [[0, 1, 2, 3], [0, 1, 2, 4], [5, 6, 7, 8]];
    let mut places = [
        [0, 0, 0],
        [128, 0, 0],
        [0, 128, 0],
        [0, 0, 128],
        [32, 32, -128],
        [640, 640, 576],
        [576, 640, 640],
        [640, 576, 640],
        [0, 0, 0],
    ];
    for (corner, number) in [
        ([64, 0, 0], 23),
        ([64, 64, 0], 23),
        ([0, 64, 64], 23),
        ([32, 32, 0], 23),
        ([32, 32, 32], 23),
        ([32, 32, -32], 23),
        ([64, -32, 0], 0),
        ([64, 64, 32], 0),
        ([96, 96, 0], 0),
        ([160, 0, 0], 0),
    ] {
        places[8] = corner;
        in_either_hand(&places, &pieces, number);
    }
}
