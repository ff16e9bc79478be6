//! "The first rule broken, in the order of the numbers, names the refusal": every subset.

mod common;
use common::*;
use second::{build_vec, check, refine, selection};

/// The rules of a stored mesh, as they are tried: 22 "after 5 and before 6", 23 "after 8 and before 9".
const OF_A_MESH: [u32; 12] = [1, 2, 3, 4, 5, 22, 6, 7, 8, 23, 9, 10];

/// A mesh that breaks exactly the given rules of 1 to 10, 22 and 23.
fn breaking(broken: &[u32]) -> Vec<u8> {
    let breaks = |number: u32| broken.contains(&number);
    let block = |x: i16| [[x, 0, 0], [x + 64, 0, 0], [x + 64, 64, 0], [x + 64, 64, 64]];
    let mut places = [block(0), block(128), block(256), block(384)].concat();
    // 16 lies across the face 12 13 14; 17 to 22 are two pieces with one edge in common.
    places.push([448, 0, -64]);
    places.extend([[512, 0, 0], [608, 0, 0], [512, 32, 0], [512, 0, 32]]);
    places.extend([[512, -32, 0], [512, 0, -32]]);
    places.extend(block(640));
    places.extend(block(768));
    if breaks(23) {
        // 27, the corner of a piece that shares nothing, in the middle of the edge 23-26.
        places[27] = [672, 32, 32];
    }
    if breaks(8) {
        places.push([0, 0, 640]);
    }
    let a = (2, [4, 2, 2, 1]);
    let o = (0, [5, 5, 0, 0]);
    let piece = |corners, (edge, marks): (u8, [u8; 4])| (corners, edge, marks);
    let mut stored = marked(
        &places,
        &[
            piece([0, 1, 2, 3], a),
            piece([4, 5, 6, 7], a),
            piece([8, 9, 10, 11], a),
            piece([12, 13, 14, 15], a),
            // The common face is marked with 12-14 in both.
            piece([12, 14, 13, 16], (2, [5, 2, 2, 0])),
            piece([17, 18, 19, 20], o),
            piece([17, 18, 21, 22], o),
            piece([23, 24, 25, 26], a),
            piece([27, 28, 29, 30], a),
        ],
    );
    cut_one(&mut stored, 0, Way::Right);
    cut_one(&mut stored, 5, Way::Right);
    if !breaks(10) {
        cut_one(&mut stored, 6, Way::Right);
    }
    if breaks(9) {
        stored.records[9].flag = 1;
    }
    if breaks(7) {
        stored.records[4].marks[3] = 1;
    }
    if breaks(6) {
        stored.records[2].marks[0] = 6;
    }
    if breaks(22) {
        stored.records[7] = turned(&stored.records[7], 2, 3);
    }
    if breaks(5) {
        stored.records[1].generation = 1;
    }
    if breaks(4) {
        stored.vertices[4].place[1] = 16;
    }
    let mut bytes = stored.bytes();
    if breaks(3) {
        bytes[15..17].copy_from_slice(&[0, 0]);
    }
    if breaks(2) {
        bytes[3] = 2;
    }
    if breaks(1) {
        bytes.pop();
    }
    bytes
}

fn subset(bits: u32, rules: &[u32]) -> Vec<u32> {
    let broken = (0..).zip(rules).filter(|(i, _)| bits >> i & 1 == 1);
    broken.map(|(_, &number)| number).collect()
}

#[test]
fn every_subset_of_1_to_10_and_22_and_23() {
    for bits in 0..4096 {
        let broken = subset(bits, &OF_A_MESH);
        let report = check(&breaking(&broken));
        let least = broken.first().copied().unwrap_or(0);
        assert_eq!(report.number, least as u64, "{broken:?}");
        // Record 6 is the leaf that hangs, on its edge 17-18.
        let place = if least == 10 { (6, 0) } else { (0, 0) };
        assert_eq!((report.record, report.edge), place, "{broken:?}");
        let figures = (report.leaves, report.deepest, report.sixfold);
        assert_eq!(figures == (0, 0, 0), least != 0, "{broken:?}");
    }
}

/// 23 "after 8 and before 9", by every service that reads a mesh.
#[test]
fn refusal_23_in_its_place() {
    for (broken, number) in [
        (&[23][..], 23),
        (&[23, 9], 23),
        (&[23, 10], 23),
        (&[23, 9, 10], 23),
        (&[8, 23], 8),
        (&[7, 23], 7),
        (&[6, 23], 6),
        (&[22, 23], 22),
        (&[5, 23], 5),
        (&[4, 23], 4),
        (&[7, 8, 23, 9, 10], 7),
    ] {
        mesh_refused(&format!("{broken:?}"), &breaking(broken), number);
    }
    // Vertex 27 in record 7 is all that is wrong.
    let found = vertices_in_pieces(&decode(&breaking(&[23])));
    assert_eq!(found, [(27, 7)]);
    assert_eq!(vertices_in_pieces(&decode(&breaking(&[]))), []);
    mesh_accepted("none", &breaking(&[]));
}

/// Pieces that share nothing, the first refined to generation 15 at one place; as many as make
/// 1,024 vertices if the tables are to be full. Also the number of a leaf of generation 15.
fn deep_and_many(full: bool) -> (Stored, u16) {
    let pieces = |count: u16| {
        let (coordinates, corners) = separate(count);
        build_vec(7, &coordinates, &corners).unwrap()
    };
    let alone = decode(&deepen(pieces(1), 15)).vertices.len();
    let mut mesh = deepen(pieces(((1_024 - (alone - 4)) / 4) as u16), 15);
    if full {
        let missing = (1_024 - decode(&mesh).vertices.len()) as u16;
        mesh = refined(&mesh, &(1..=missing).collect::<Vec<_>>());
        assert_eq!(decode(&mesh).vertices.len(), 1_024);
    } else {
        mesh = deepen(pieces(4), 15);
    }
    let leaf = deepest_leaf(&mesh);
    (decode(&mesh), leaf)
}

#[test]
fn every_subset_of_11_to_20() {
    let meshes = [deep_and_many(false), deep_and_many(true)];
    let mut accepted = 0;
    for bits in 0..1024 {
        let broken = subset(bits, &[11, 12, 13, 14, 15, 16, 17, 18, 19, 20]);
        let breaks = |number: u32| broken.contains(&number);
        let (stored, of_15) = &meshes[breaks(19) as usize];
        let mut stored = stored.clone();
        stored.round = if breaks(18) { 65_535 } else { 20 };
        let lone_leaf = stored.base_records - 1;
        let mut numbers = vec![lone_leaf];
        if breaks(16) {
            numbers.insert(0, 0);
        }
        if breaks(17) {
            numbers.push(*of_15);
        }
        if breaks(15) {
            numbers.push(*numbers.last().unwrap());
        }
        let round = if breaks(14) { 19 } else { stored.round };
        let job = if breaks(13) { 8 } else { 7 };
        let mut chosen = selection(job, round, &numbers);
        if breaks(12) {
            chosen[3] = 2;
        }
        if breaks(11) {
            chosen.push(0);
        }
        let mesh = stored.bytes();
        let length = mesh.len() + 10 + 2 * 17;
        let mut out = vec![0xAA; if breaks(20) { length - 1 } else { length }];
        let number = refine(&mesh, &chosen, &mut out);
        assert_eq!(number, broken.first().copied().unwrap_or(0), "{broken:?}");
        assert_eq!(out.iter().all(|&byte| byte == 0), number != 0, "{broken:?}");
        accepted += (number == 0) as u32;
        // A mesh that is refused itself comes before all of these.
        if bits % 64 == 0 {
            let mut wrong = mesh.clone();
            wrong[19] = 1;
            assert_eq!(refine(&wrong, &chosen, &mut out), 2);
        }
    }
    assert_eq!(accepted, 1);
}

#[test]
fn a_leaf_of_14_where_the_tables_have_no_room() {
    // The same with a leaf of generation 14 and 1,024 vertices: 19, not 17.
    let (coordinates, corners) = separate(1);
    let alone = deepen(build_vec(7, &coordinates, &corners).unwrap(), 14);
    let made = decode(&alone).vertices.len() - 4;
    let pieces = ((1_024 - made) / 4) as u16;
    let (coordinates, corners) = separate(pieces);
    let mut mesh = deepen(build_vec(7, &coordinates, &corners).unwrap(), 14);
    let missing = (1_024 - decode(&mesh).vertices.len()) as u16;
    mesh = refined(&mesh, &(1..=missing).collect::<Vec<_>>());
    let leaf = deepest_leaf(&mesh);
    assert_eq!(decode(&mesh).vertices.len(), 1_024);
    assert_eq!(decode(&mesh).records[leaf as usize].generation, 14);
    refine_refused(
        "a leaf of 14, tables full",
        &mesh,
        &choose(&mesh, &[leaf]),
        19,
    );
}

#[test]
fn every_number_has_words() {
    let words: Vec<&str> = (0..=23).chain([30]).map(second::reason).collect();
    assert!(words.iter().all(|words| words.len() > 5));
    for (n, one) in words.iter().enumerate() {
        assert!(words[..n].iter().all(|other| other != one));
    }
    assert_eq!(
        second::reason(14),
        "another round: the selection has expired"
    );
    assert_eq!(second::reason(22), "a base record with a negative value");
    assert_eq!(
        second::reason(23),
        "a base vertex that lies in a closed base piece and isn't one of its corners"
    );
    assert_eq!(second::reason(30), "a named record that is uncut");
    assert_eq!(second::reason(24), "no such number");
    assert_eq!(second::reason(u32::MAX), "no such number");
}
