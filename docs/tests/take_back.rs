//! Request nine: the rows worked on K, the ring of three pieces, each refusal, every length of buffer.

mod common;
use common::*;
use second::{build_vec, check, refine_vec, selection, take_back, take_back_vec};

/// K, select 0: the second row of "A piece worked by hand".
fn k1() -> Vec<u8> {
    refined(&k(), &[0])
}

/// "Then select 1 and 2": 7 vertices, 7 records, round 2.
fn k2() -> Vec<u8> {
    refined(&k1(), &[1, 2])
}

/// "Select 3 to 6 instead": 10 vertices, 15 records, round 3.
fn k3() -> Vec<u8> {
    refined(&k2(), &[3, 4, 5, 6])
}

/// The same bytes but for the round.
fn of_round(mesh: &[u8], round: u16) -> Vec<u8> {
    let mut stored = decode(mesh);
    stored.round = round;
    stored.bytes()
}

fn counts(mesh: &[u8]) -> (usize, usize, usize) {
    let stored = decode(mesh);
    let leaves = stored.leaves().len();
    (stored.vertices.len(), stored.records.len(), leaves)
}

/// Check accepts it, with the volume that was there; refine takes it as any other mesh.
fn stands(mesh: &[u8], before: &[u8]) {
    mesh_accepted("taken back", mesh);
    assert_eq!(check(mesh).sixfold, check(before).sixfold);
    assert_eq!(decode(mesh).round, decode(before).round + 1);
    let open = decode(mesh).leaves();
    mesh_accepted("and refined", &refined(mesh, &open[..1]));
}

#[test]
fn both_cuts_of_the_second_round() {
    let result = taken_back(&k2(), &[1, 2]);
    assert_eq!(result, of_round(&k1(), 3));
    stands(&result, &k2());
    // And from there the first: K itself.
    assert_eq!(taken_back(&result, &[0]), of_round(&k(), 4));
}

#[test]
fn the_first_cut_alone_stays() {
    // Its children are cut.
    assert_eq!(taken_back(&k2(), &[0]), of_round(&k2(), 3));
    assert_eq!(taken_back(&k3(), &[0, 1, 2]), of_round(&k3(), 4));
}

#[test]
fn one_cut_of_the_second_round() {
    let result = taken_back(&k2(), &[1]);
    assert_eq!(counts(&result), (6, 5, 3));
    stands(&result, &k2());
    // By hand: vertex 5, between 0 and 2, and records 3 and 4 are gone; 6 is 5, and 5 and 6 are 3 and 4.
    let mut wanted = decode(&k2());
    wanted.round = 3;
    wanted.vertices.remove(5);
    wanted.records.drain(3..5);
    wanted.records[1].first_child = NONE;
    wanted.records[2].first_child = 3;
    wanted.records[3].corners = [4, 1, 2, 5];
    wanted.records[4].corners = [4, 5, 2, 3];
    assert_eq!(decode(&result), wanted);
    // The other cut: nothing has to move up.
    let result = taken_back(&k2(), &[2]);
    assert_eq!(counts(&result), (6, 5, 3));
    let mut wanted = decode(&k2());
    wanted.round = 3;
    wanted.vertices.truncate(6);
    wanted.records.truncate(5);
    wanted.records[2].first_child = NONE;
    assert_eq!(decode(&result), wanted);
}

#[test]
fn two_records_cut_at_one_vertex() {
    let mesh = k3();
    assert_eq!(counts(&mesh), (10, 15, 8));
    // 4 and 5 are cut at one vertex: one of them alone keeps it.
    for number in [4, 5] {
        assert_eq!(taken_back(&mesh, &[number]), of_round(&mesh, 4));
        assert_eq!(taken_back(&mesh, &[0, 1, 2, number]), of_round(&mesh, 4));
    }
    let result = taken_back(&mesh, &[4, 5]);
    assert_eq!(counts(&result), (9, 11, 6));
    stands(&result, &mesh);
    // One of them and another cut: the other goes.
    assert_eq!(counts(&taken_back(&mesh, &[3, 4])), (9, 13, 7));
    assert_eq!(counts(&taken_back(&mesh, &[3, 4, 6])), (8, 11, 6));
    assert_eq!(taken_back(&mesh, &[3, 4, 5, 6]), of_round(&k2(), 4));
}

#[test]
fn one_call_is_one_step() {
    // A record named together with its cut children stays cut in this call.
    let all = decode(&k3()).cut_records();
    assert_eq!(all, [0, 1, 2, 3, 4, 5, 6]);
    let two = taken_back(&k3(), &all);
    assert_eq!(two, of_round(&k2(), 4));
    let one = taken_back(&two, &decode(&two).cut_records());
    assert_eq!(one, of_round(&k1(), 5));
    let none = taken_back(&one, &[0]);
    assert_eq!(none, of_round(&k(), 6));
    assert_eq!(taken_back(&none, &[]), of_round(&k(), 7));
}

#[test]
fn an_empty_request() {
    for mesh in [k(), k1(), k2(), k3(), cube()] {
        let round = decode(&mesh).round + 1;
        assert_eq!(taken_back(&mesh, &[]), of_round(&mesh, round));
    }
}

/// The cube's six pieces are cut at one vertex: five of them don't do.
#[test]
fn six_records_cut_at_one_vertex() {
    let mesh = refined(&cube(), &[2]);
    let all = [0, 1, 2, 3, 4, 5];
    assert_eq!(taken_back(&mesh, &all), of_round(&cube(), 2));
    for left_out in 0..6 {
        let mut five = all.to_vec();
        five.remove(left_out);
        assert_eq!(taken_back(&mesh, &five), of_round(&mesh, 2));
    }
}

/// Three rungs and between each two a piece, marked so that a piece is cut at its own rung first and
/// then at the next: abcd at ab, cdef at cd, efab at ef, all of type O.
fn ring() -> Vec<u8> {
    let places = [
        [0, 0, 0],
        [0, 0, 64],
        [640, 0, 0],
        [640, 64, 0],
        [320, 640, 0],
        [384, 640, 64],
    ];
    let pieces = [[0, 1, 2, 3], [2, 3, 4, 5], [4, 5, 1, 0]];
    marked(&places, &pieces.map(|corners| (corners, 0, [5, 5, 0, 0]))).bytes()
}

/// "No promise to reach the base": each vertex has a record cut at it whose children are cut.
#[test]
fn the_ring_of_three_pieces() {
    mesh_accepted("the ring", &ring());
    let mesh = refined(&ring(), &[0]);
    let stored = decode(&mesh);
    // Each piece is cut at its own rung, and both children at the next.
    assert_eq!(counts(&mesh), (9, 21, 12));
    for vertex in 6..9 {
        let cut = stored.cut_at(vertex);
        assert_eq!(cut.len(), 3);
        let not_ready: Vec<u16> = cut.into_iter().filter(|&n| !stored.ready(n)).collect();
        assert_eq!(not_ready.len(), 1);
        assert!(not_ready[0] < 3, "a base record");
    }
    // Whatever is named, nothing goes: now and for ever.
    let mut stuck = mesh.clone();
    for round in 2..10 {
        stuck = taken_back(&stuck, &decode(&stuck).cut_records());
        assert_eq!(stuck, of_round(&mesh, round));
    }
    // What was cut after that goes again.
    let finer = refined(&mesh, &decode(&mesh).leaves());
    let mut back = finer;
    while counts(&back) != counts(&mesh) {
        let before = counts(&back);
        back = taken_back(&back, &decode(&back).cut_records());
        assert!(counts(&back) < before, "a step at least");
    }
    assert_eq!(back, of_round(&mesh, decode(&back).round));
}

/// Build's own marks can hold each other too: three pieces round an edge, every leaf named in three
/// rounds.
#[test]
fn a_ring_with_builds_marks() {
    let places: [[i16; 3]; 5] = [
        [32, 64, 96],
        [32, 32, 192],
        [0, 128, 0],
        [96, 0, 32],
        [96, 96, 0],
    ];
    let pieces: [[u16; 4]; 3] = [[0, 1, 2, 3], [0, 1, 3, 4], [0, 1, 4, 2]];
    let base = build_vec(7, &places.concat(), &pieces.concat()).unwrap();
    let all_leaves = |mesh: &[u8]| refined(mesh, &decode(mesh).leaves());
    let mut mesh = all_leaves(&all_leaves(&base));
    // Two rounds can be taken back to the base.
    assert_eq!(
        left_of(&mesh),
        of_round(&base, decode(&left_of(&mesh)).round)
    );
    mesh = all_leaves(&mesh);
    assert_eq!(check(&mesh).deepest, 5);
    let left = left_of(&mesh);
    assert_eq!(counts(&left), (17, 77, 40));
    stands(&left, &of_round(&left, decode(&left).round - 1));
}

/// What is left when all cut records are named again and again.
fn left_of(mesh: &[u8]) -> Vec<u8> {
    let coarser = taken_back(mesh, &decode(mesh).cut_records());
    match counts(&coarser) == counts(mesh) {
        true => coarser,
        false => left_of(&coarser),
    }
}

/// 11 to 15 are refine's, as they stand.
#[test]
fn refusals_11_to_15() {
    let mesh = k2();
    let good = choose(&mesh, &[1, 2]);
    let poked = |at: usize, byte: u8| {
        let mut request = good.clone();
        request[at] = byte;
        request
    };
    let named = |numbers: &[u16]| choose(&mesh, numbers);
    let many: Vec<u16> = (0..65_535).collect();
    for (name, request, number) in [
        ("empty", vec![], 11),
        ("12 bytes", good[..12].to_vec(), 11),
        ("a byte short", good[..16].to_vec(), 11),
        ("a number short", good[..15].to_vec(), 11),
        ("a byte long", [&good[..], &[0]].concat(), 11),
        ("a count of 3", poked(11, 3), 11),
        ("a count of 258", poked(12, 1), 11),
        ("a mesh", mesh.clone(), 11),
        ("a mesh's mark", poked(2, b'B'), 12),
        ("version 2", poked(3, 2), 12),
        ("version 257", poked(4, 1), 12),
        ("another job", selection(8, 2, &[1]), 13),
        ("another job and round", selection(8, 1, &[1]), 13),
        ("an earlier round", selection(7, 1, &[1]), 14),
        ("a later round", selection(7, 3, &[1]), 14),
        ("another round, not rising", selection(7, 1, &[2, 1]), 14),
        ("falling", named(&[2, 1]), 15),
        ("twice", named(&[1, 1]), 15),
        ("the record count", named(&[7]), 15),
        ("a leaf, then falling", named(&[3, 2]), 15),
        ("a leaf, then too great", named(&[3, 65_535]), 15),
        ("65,535 numbers", named(&many), 15),
    ] {
        take_back_refused(name, &mesh, &request, number);
        refine_refused(name, &mesh, &request, number);
    }
    assert!(take_back_vec(&mesh, &good).is_ok());
}

/// 23 is the mesh's own, as in refine: before 11 to 15, 30, 18 and 20, whatever is cut and named.
#[test]
fn refusal_23() {
    let mut stored = on_an_edge_of_k([0; 3]);
    take_back_refused("nothing cut", &stored.bytes(), &choose(&k(), &[]), 23);
    cut_one(&mut stored, 0, Way::Right);
    cut_one(&mut stored, 1, Way::Right);
    for round in [0, 65_535] {
        let mesh = of_round(&stored.bytes(), round);
        for (name, request) in [
            ("an empty request", choose(&mesh, &[])),
            ("both cuts", choose(&mesh, &[0, 1])),
            ("a leaf (30)", choose(&mesh, &[2])),
            ("not rising (15)", choose(&mesh, &[1, 0])),
            ("another round (14)", selection(7, 9, &[0])),
            ("another job (13)", selection(8, round, &[0])),
            ("no bytes (11)", vec![]),
        ] {
            take_back_refused(name, &mesh, &request, 23);
        }
    }
    // One step off the edge the same cuts go.
    let base = on_an_edge_of_k([0, 32, 0]).bytes();
    let mesh = refined(&base, &[0, 1]);
    assert_eq!(taken_back(&mesh, &[0, 1]), of_round(&base, 2));
    stands(&taken_back(&mesh, &[1]), &mesh);
}

#[test]
fn refusal_30() {
    let mesh = k2();
    for numbers in [&[3][..], &[6], &[0, 3], &[1, 2, 6], &[3, 4, 5, 6]] {
        take_back_refused("a leaf", &mesh, &choose(&mesh, numbers), 30);
    }
    let all: Vec<u16> = (0..7).collect();
    take_back_refused("all records", &mesh, &choose(&mesh, &all), 30);
    take_back_refused("K", &k(), &choose(&k(), &[0]), 30);
    // Not earned.
    for numbers in [&[][..], &[0], &[1], &[2], &[0, 1, 2]] {
        assert!(take_back_vec(&mesh, &choose(&mesh, numbers)).is_ok());
    }
    // In 16's place: before 18. What refine refuses with 16 is what this takes.
    let last = of_round(&mesh, 65_535);
    take_back_refused("30 and 18", &last, &choose(&last, &[1, 3]), 30);
    refine_refused("cut", &mesh, &choose(&mesh, &[1]), 16);
}

/// 17 isn't tried: a leaf of generation 15 is uncut, and a cut record whose children have it goes.
#[test]
fn generation_15() {
    let mesh = deepen(k(), 15);
    let leaf = deepest_leaf(&mesh);
    take_back_refused("a leaf of 15", &mesh, &choose(&mesh, &[leaf]), 30);
    let stored = decode(&mesh);
    let parent = |n: &u16| [leaf, leaf - 1].contains(&stored.records[*n as usize].first_child);
    let parent = stored.cut_records().into_iter().find(parent).unwrap();
    assert_eq!(stored.records[parent as usize].generation, 14);
    let [p, q] = stored.refinement_ends(parent as usize).into();
    let at = stored.vertices.iter().position(|v| v.parents == [p, q]);
    let cut = stored.cut_at(at.unwrap() as u16);
    let result = taken_back(&mesh, &cut);
    assert!(counts(&result) < counts(&mesh));
    stands(&result, &mesh);
}

#[test]
fn refusal_18() {
    let last = of_round(&k2(), 65_535);
    for numbers in [&[][..], &[0], &[1, 2]] {
        take_back_refused("the last round", &last, &choose(&last, numbers), 18);
    }
    take_back_refused("an old request", &last, &selection(7, 65_534, &[1]), 14);
    let result = taken_back(&of_round(&k2(), 65_534), &[1, 2]);
    assert_eq!(result, of_round(&k1(), 65_535));
}

/// By the result: shorter than the mesh where something goes.
#[test]
fn refusal_20() {
    let mesh = k2();
    for (numbers, length) in [(&[][..], 209), (&[0], 209), (&[1], 165), (&[1, 2], 121)] {
        let request = choose(&mesh, numbers);
        let result = take_back_vec(&mesh, &request).unwrap();
        assert_eq!(result.len(), length);
        for room in (0..300).chain([FULL - 1, FULL, FULL + 1, 100_000]) {
            for filled in [0x00, 0x55, 0xFF] {
                let mut out = vec![filled; room];
                let number = take_back(&mesh, &request, &mut out);
                let mut wanted = vec![0; room];
                if room < length {
                    assert_eq!(number, 20);
                } else {
                    assert_eq!(number, 0);
                    wanted[..length].copy_from_slice(&result);
                }
                assert_eq!(out, wanted);
            }
        }
    }
}

/// "The first rule broken": every subset of 11 to 15, 30, 18 and 20, in that order.
#[test]
fn every_subset_of_the_requests_own() {
    const ORDER: [u32; 8] = [11, 12, 13, 14, 15, 30, 18, 20];
    let mut accepted = 0;
    for bits in 0..256 {
        let broken: Vec<u32> = (0..8)
            .filter(|i| bits >> i & 1 == 1)
            .map(|i| ORDER[i])
            .collect();
        let breaks = |number: u32| broken.contains(&number);
        let mesh = of_round(&k2(), if breaks(18) { 65_535 } else { 20 });
        let mut numbers = vec![1, 2];
        if breaks(30) {
            numbers.push(5);
        }
        if breaks(15) {
            numbers.push(7);
        }
        let round = if breaks(14) { 19 } else { decode(&mesh).round };
        let job = if breaks(13) { 8 } else { 7 };
        let mut request = selection(job, round, &numbers);
        if breaks(12) {
            request[3] = 2;
        }
        if breaks(11) {
            request.push(0);
        }
        let mut out = vec![0xAA; if breaks(20) { 120 } else { 121 }];
        let number = take_back(&mesh, &request, &mut out);
        assert_eq!(number, broken.first().copied().unwrap_or(0), "{broken:?}");
        assert_eq!(out.iter().all(|&byte| byte == 0), number != 0, "{broken:?}");
        accepted += (number == 0) as u32;
        // A mesh that is refused itself comes before all of these.
        let mut wrong = mesh.clone();
        wrong[19] = 1;
        assert_eq!(take_back(&wrong, &request, &mut out), 2);
    }
    assert_eq!(accepted, 1);
}

/// Used in one service, a request or a selection is dead in both.
#[test]
fn a_used_request_has_expired() {
    let request = choose(&k2(), &[1, 2]);
    let after = take_back_vec(&k2(), &request).unwrap();
    take_back_refused("again", &after, &request, 14);
    refine_refused("in refine", &after, &request, 14);
    let empty = choose(&after, &[]);
    let later = refine_vec(&after, &empty).unwrap();
    take_back_refused("used in refine", &later, &empty, 14);
}

/// Pieces apart: some cuts go and others stay, all over the tables.
#[test]
fn every_other_piece() {
    let (coordinates, corners) = separate(204);
    let base = build_vec(7, &coordinates, &corners).unwrap();
    let all: Vec<u16> = (0..204).collect();
    let mesh = refined(&base, &all);
    assert_eq!(counts(&mesh), (1_020, 612, 408));
    let even: Vec<u16> = (0..204).step_by(2).collect();
    let result = taken_back(&mesh, &even);
    assert_eq!(counts(&result), (918, 408, 306));
    let odd: Vec<u16> = (1..204).step_by(2).collect();
    let wanted = refined(&base, &odd);
    assert_eq!(result, of_round(&wanted, 2));
}
