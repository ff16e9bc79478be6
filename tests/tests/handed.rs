//! Handedness: what build does with left-handed pieces, and what check, list, refine and take-back say of
//! left-handed base records. The proved services, through their C functions, compared with the second program
//! on pieces of either hand: every number, figure and length, and every byte of the output buffers. The signed
//! value of every record of an accepted mesh is looked at, down to generation 15. COMPARED_SEED in the
//! environment gives another seed.

use compared::answers::{any_selections, compared, tell, Answers, Given, Numbers, Part, Tallied};
use compared::damage::{damaged, hang_a_piece, KINDS};
use compared::inside::hanging_piece;
use compared::meshes::{
    any_mesh, cubes, cut_alone, cut_records, filled, full_base, in_slots, joined, orders, refined,
    separate, signed, single_pieces, thinned, turned, with_turned, Plain, K,
};
use compared::named::{k, read, seed, sum};
use compared::random::Random;
use compared::tmb_check;
use second::mesh::{Mesh, Record, Vertex, NO_NUMBER};
use second::piece::{ends, EDGES};
use second::{check, selection, LARGEST_MESH, MOST_RECORDS};

/// The fewest inputs, the fewest of them that are random, and the fewest given 22.
const FEWEST: u64 = 25_000;
const FEWEST_RANDOM: u64 = 24_000;
const FEWEST_LEFT_HANDED: u64 = 5_000;

/// What was compared.
#[derive(Default)]
struct Tally {
    answers: Answers,
    /// Accepted pieces that were given right-handed and left-handed.
    hands: [u64; 2],
    /// Accepted plain meshes with pieces of both hands.
    mixed: u64,
    /// Plain meshes with a left-handed piece, by the number given.
    with_left_handed: Numbers,
    /// Meshes given 22 whose first left-handed base record is the first of all, the last, another.
    places: [u64; 3],
    /// Meshes given 22 in which something is cut.
    cut: u64,
    /// Meshes given 22, by the number that they would get if every base record were right-handed.
    instead: Numbers,
    /// Meshes given 5 with a left-handed base record before the one that breaks it, and after.
    given_5: [u64; 2],
    /// Records of accepted meshes that were looked at, by generation; and children.
    looked: [u64; 16],
    halves: u64,
}

impl Tally {
    /// A plain mesh. Gives the mesh that is built, or the number.
    fn build(&mut self, name: &str, given: &Given, random: &mut Random) -> Result<Mesh, u32> {
        let built = self.answers.build(name, given, random);
        let left = left_handed_pieces(given);
        let number = built.as_ref().err().copied().unwrap_or(0);
        self.with_left_handed[number as usize] += u64::from(left > 0);
        if let Ok(mesh) = &built {
            self.mixed += u64::from(left > 0 && left < mesh.records.len());
            self.judge(name, given, mesh);
        }
        built
    }

    /// "Build takes a left-handed piece by exchanging its last two corners before marking": each piece in its
    /// place, its hand right, and the volume that was given.
    fn judge(&mut self, name: &str, given: &Given, mesh: &Mesh) {
        let report = tmb_check(&mesh.bytes());
        assert_eq!((report.number, report.deepest), (0, 0), "{name}");
        let mut volume = 0;
        assert_eq!(mesh.records.len(), given.corners.len() / 4, "{name}");
        for (record, corners) in mesh.records.iter().zip(given.corners.chunks_exact(4)) {
            let [a, b, c, d] = [0, 1, 2, 3].map(|slot| corners[slot]);
            let places = [a, b, c, d].map(|corner| given.place(corner).expect("a place"));
            let left = signed(places) < 0;
            let wanted = if left { [a, b, d, c] } else { [a, b, c, d] };
            assert_eq!(record.corners, wanted, "{name}");
            self.hands[usize::from(left)] += 1;
            volume += signed(places).unsigned_abs();
        }
        assert_eq!(report.sixfold, volume, "{name}");
        self.look(name, mesh);
    }

    /// An accepted mesh, record by record: "positive for right-handed", and "a child's signed value is exactly
    /// half of its parent's".
    fn look(&mut self, name: &str, mesh: &Mesh) {
        let value = |record: &Record| mesh.signed(record).expect("four corners");
        for record in &mesh.records {
            let whole = value(record);
            assert!(whole > 0, "{name}: {record:?}");
            self.looked[usize::from(record.generation)] += 1;
            if record.is_leaf() {
                continue;
            }
            let first = usize::from(record.first_child);
            for child in &mesh.records[first..first + 2] {
                assert_eq!(2 * value(child), whole, "{name}: {record:?}");
                self.halves += 1;
            }
        }
    }

    /// A stored mesh, with a selection for refine and a request for take-back, by all four services. Gives
    /// check's number.
    fn stored(
        &mut self,
        name: &str,
        mesh: &[u8],
        selection: &[u8],
        request: &[u8],
        random: &mut Random,
    ) -> u32 {
        let answered = self.answers.stored(name, mesh, selection, request, random);
        for result in answered.results.into_iter().flatten() {
            self.look(name, &read(&result));
        }
        match answered.number {
            0 => self.look(name, &read(mesh)),
            22 => self.count_22(&read(mesh)),
            _ => {}
        }
        answered.number
    }

    /// Where the left-handed base record stands, and what it hides.
    fn count_22(&mut self, mesh: &Mesh) {
        let base = &mesh.records[..mesh.base_records];
        let first = base.iter().position(|record| mesh.is_left_handed(record));
        let first = first.expect("a left-handed base record");
        let place = match first {
            0 => 0,
            _ if first + 1 == mesh.base_records => 1,
            _ => 2,
        };
        self.places[place] += 1;
        self.cut += u64::from(mesh.records.iter().any(|record| !record.is_leaf()));
        let mut right = mesh.clone();
        for number in 0..mesh.base_records {
            let record = mesh.records[number];
            if mesh.is_left_handed(&record) {
                right.records[number] = turned(&record, [2, 3]).unwrap_or_else(|| {
                    let [a, b, c, d] = record.corners;
                    Record {
                        corners: [a, b, d, c],
                        ..record
                    }
                });
            }
        }
        self.instead[check(&right.bytes()).number as usize] += 1;
    }

    /// The mesh must get that number, whatever the selection and the request.
    fn given(&mut self, name: &str, mesh: &Mesh, number: u32, random: &mut Random) {
        let [selection, request] = any_selections(mesh, random);
        let given = self.stored(name, &mesh.bytes(), &selection, &request, random);
        assert_eq!(given, number, "{name}");
    }
}

impl Tallied for Tally {
    fn answers(&mut self) -> &mut Answers {
        &mut self.answers
    }

    fn add(&mut self, other: &Tally) {
        self.answers.add(&other.answers);
        self.mixed += other.mixed;
        self.cut += other.cut;
        self.halves += other.halves;
        for (mine, theirs) in [
            (&mut self.hands[..], &other.hands[..]),
            (&mut self.with_left_handed, &other.with_left_handed),
            (&mut self.places, &other.places),
            (&mut self.instead, &other.instead),
            (&mut self.given_5, &other.given_5),
            (&mut self.looked, &other.looked),
        ] {
            sum(mine, theirs);
        }
    }
}

/// How many of the pieces have four places and a negative value.
fn left_handed_pieces(given: &Given) -> usize {
    let left = |corners: &&[u16]| {
        let places: Option<Vec<_>> = corners.iter().map(|&c| given.place(c)).collect();
        places.is_some_and(|p| signed([p[0], p[1], p[2], p[3]]) < 0)
    };
    given.corners.chunks_exact(4).filter(left).count()
}

/// The parts that go through a list of inputs, and each part of random inputs with the times it is done, each
/// time with numbers of its own.
const LISTED: [Part<Tally>; 8] = [
    full_tables,
    full_vertices,
    three_thousand_pieces,
    every_order_of_k,
    the_cube_in_every_hand,
    smallest_and_largest,
    before_and_after,
    beyond_the_base,
];
const RANDOM: [(Part<Tally>, usize); 9] = [
    (plain_meshes, 1_400),
    (wrong_plain_meshes, 1_400),
    (corners_in_others, 200),
    (signs_damaged, 420),
    (flat_and_left_handed, 420),
    (left_handed_and_more, 420),
    (to_generation_15, 60),
    (any_damage, 400),
    (bytes_replaced, 200),
];

/// The same mesh with two corners of a record exchanged, and nothing else.
fn with_exchanged(mesh: &Mesh, number: usize, [one, other]: [usize; 2]) -> Mesh {
    let mut mesh = mesh.clone();
    mesh.records[number].corners.swap(one, other);
    mesh
}

fn any_slots(random: &mut Random) -> [usize; 2] {
    EDGES[random.below(6)]
}

/// The first base record, the last and one between; as many as there are.
fn first_last_between(mesh: &Mesh, random: &mut Random) -> Vec<usize> {
    let last = mesh.base_records - 1;
    let mut numbers = vec![0, last, random.below(mesh.base_records)];
    numbers.sort_unstable();
    numbers.dedup();
    numbers
}

/// K in every order of its corners: given to build, and stored, cut or not.
fn every_order_of_k(tally: &mut Tally, random: &mut Random) {
    let k = k();
    let mut chain = vec![k.clone()];
    for numbers in [&[0][..], &[1, 2], &[3, 4, 5, 6]] {
        chain.push(refined(&chain[chain.len() - 1], numbers).expect("there is room"));
    }
    for (order, left) in orders() {
        let plain = Plain {
            places: K.to_vec(),
            pieces: vec![order.map(|slot| slot as u16)],
        };
        let given = Given {
            job: 7,
            ..Given::new(&plain, random)
        };
        let built = tally.build("K in an order", &given, random);
        let built = built.expect("K");
        let [a, b, c, d] = plain.pieces[0];
        let corners = if left { [a, b, d, c] } else { [a, b, c, d] };
        assert_eq!(built.records[0].corners, corners);
        assert_eq!(built.signed(&built.records[0]), Some(262_144));
        assert_eq!(ends(&built.records[0], built.records[0].edge), Some((0, 3)));
        // Stored as it stands, with its marks along, and cut in up to three rounds.
        for mesh in &chain {
            let mut other = mesh.clone();
            for record in &mut other.records {
                *record = in_slots(record, order).expect("a piece");
            }
            let number = if left { 22 } else { 0 };
            tally.given("K in an order, stored", &other, number, random);
            // The corners alone: where something is cut the children no longer fit, and in an even order
            // that is what is wrong.
            let corners = other.records[0].corners;
            other.records[0] = Record {
                corners,
                ..mesh.records[0]
            };
            let [selection, request] = any_selections(&other, random);
            let bytes = other.bytes();
            let number = tally.stored("K's corners", &bytes, &selection, &request, random);
            assert_eq!(number == 22, left, "K's corners");
        }
    }
    let mirrored = Plain {
        places: K.to_vec(),
        pieces: vec![[0, 1, 3, 2]],
    };
    let given = Given {
        job: 7,
        ..Given::new(&mirrored, random)
    };
    assert_eq!(tally.build("K left-handed", &given, random), Ok(k));
}

/// Each set of the cube's six pieces in the other hand: build makes one mesh of them all; stored they get 22.
fn the_cube_in_every_hand(tally: &mut Tally, random: &mut Random) {
    let plain = cubes([1, 1, 1], 64).right_handed(|| [2, 3]);
    let cube = plain.built(1);
    let cut = refined(&cube, &[2]).expect("there is room");
    for bits in 0..64 {
        let mut other = plain.clone();
        let (mut stored, mut stored_cut) = (cube.clone(), cut.clone());
        for piece in (0..6).filter(|piece| bits >> piece & 1 == 1) {
            other.pieces[piece].swap(2, 3);
            stored = with_turned(&stored, piece, any_slots(random));
            stored_cut = with_turned(&stored_cut, piece, any_slots(random));
        }
        let given = Given {
            job: 1,
            ..Given::new(&other, random)
        };
        let built = tally.build("the cube in some hands", &given, random);
        assert_eq!(built.as_ref(), Ok(&cube));
        let number = if bits == 0 { 0 } else { 22 };
        tally.given("the cube in some hands", &stored, number, random);
        tally.given("the cube in some hands, cut", &stored_cut, number, random);
    }
}

/// The values nearest to 0 and furthest from it, of either sign.
fn smallest_and_largest(tally: &mut Tally, random: &mut Random) {
    let far = 32_736;
    let boxes = [
        [[0, 32], [0, 32], [0, 32]],
        [[far - 32, far], [far - 32, far], [far - 32, far]],
        [[-far, 32 - far], [-far, 32 - far], [far - 32, far]],
        [[-far, far], [0, 32], [0, 32]],
        [[0, 32], [-far, far], [far - 32, far]],
        [[-far, far], [-far, far], [-32, 0]],
        [[-far, far], [-far, far], [-far, far]],
    ];
    for [x, y, z] in boxes {
        let corner = |bits: [usize; 3]| [x[bits[0]], y[bits[1]], z[bits[2]]];
        let plain = Plain {
            places: [[0, 0, 0], [1, 0, 0], [1, 1, 0], [1, 1, 1]]
                .map(corner)
                .to_vec(),
            pieces: vec![[0, 1, 2, 3]],
        };
        let size = |side: [i16; 2]| i64::from(side[1]) - i64::from(side[0]);
        let value = size(x) * size(y) * size(z);
        assert_eq!(plain.signed([0, 1, 2, 3]), value);
        for (order, left) in orders() {
            let piece = order.map(|slot| slot as u16);
            assert_eq!(plain.signed(piece), if left { -value } else { value });
            let other = Plain {
                pieces: vec![piece],
                ..plain.clone()
            };
            let given = Given::new(&other, random);
            let built = tally.build("a box's piece", &given, random);
            let built = built.expect("a piece");
            assert_eq!(built.signed(&built.records[0]), Some(value));
            let stored = other.marked(1, &[(0, [3, 1, 0, 0])]);
            let number = if left { 22 } else { 0 };
            tally.given("a box's piece", &stored, number, random);
        }
    }
}

/// A left-handed base record beside each other rule broken, at every place of either: 1 to 5 come before 22, 6
/// to 10 after it.
fn before_and_after(tally: &mut Tally, random: &mut Random) {
    let cube = cubes([1, 1, 1], 64).built(1);
    let cut = refined(&cube, &[0]).expect("there is room");
    // The four corners below lie in a plane.
    let below = (0..8).filter(|&corner| cube.vertices[usize::from(corner)].place[2] == 0);
    let below: [u16; 4] = below.collect::<Vec<_>>().try_into().expect("four corners");
    for left in 0..6 {
        for bad in (0..6).filter(|&bad| bad != left) {
            let slots = any_slots(random);
            let mut left_handed = |change: &dyn Fn(&mut Mesh), number: u32| {
                let mut mesh = with_turned(&cube, left, slots);
                change(&mut mesh);
                tally.given("22 and another", &mesh, number, random);
            };
            left_handed(&|mesh| mesh.base_records = 7, 3);
            left_handed(&|mesh| mesh.vertices[bad].place[1] = 16, 4);
            left_handed(&|mesh| mesh.records[bad].corners = below, 5);
            left_handed(
                &|mesh| mesh.records[bad].corners[0] = cube.records[bad].corners[1],
                5,
            );
            left_handed(&|mesh| mesh.records[bad].corners[1] = 8, 5);
            left_handed(&|mesh| mesh.records[bad].flag = 1, 5);
            left_handed(&|mesh| mesh.records[bad].generation = 1, 5);
            left_handed(&|mesh| mesh.records[left].flag = 1, 5);
            left_handed(&|mesh| mesh.records[bad].edge = 6, 22);
            left_handed(&|mesh| mesh.records[bad].marks[0] = 0, 22);
            left_handed(&|mesh| mesh.records[left].marks[3] = 255, 22);
            left_handed(&|mesh| mesh.records[bad] = cube.records[left], 22);
            left_handed(&|mesh| mesh.records[bad] = mesh.records[left], 22);
            left_handed(&|mesh| unused_vertex(mesh), 22);
            left_handed(&|mesh| mesh.records[bad].first_child = 6, 22);
            left_handed(&|mesh| assert!(cut_alone(mesh, bad)), 22);
            tally.given_5[usize::from(left > bad)] += 5;
        }
        // Of a cut mesh the children aren't what cutting gives either.
        let other = with_turned(&cut, left, any_slots(random));
        tally.given("22 and 9", &other, 22, random);
        let bytes = other.bytes();
        let [selection, request] = any_selections(&other, random);
        for (at, change, number) in [(0, 1, 2), (3, 2, 2), (19, 1, 2), (17, 1, 1)] {
            let mut bytes = bytes.clone();
            bytes[at] ^= change;
            let given = tally.stored("22 and a byte", &bytes, &selection, &request, random);
            assert_eq!(given, number, "22 and a byte");
        }
        for length in [0, 19, 20, bytes.len() - 1] {
            let short = &bytes[..length];
            let given = tally.stored("22 and short", short, &selection, &request, random);
            assert_eq!(given, 1, "22 and short");
        }
    }
}

/// 8: a base vertex in no base record, and the made ones one number up.
fn unused_vertex(mesh: &mut Mesh) {
    let at = mesh.base_vertices as u16;
    let up = |number: &mut u16| *number += u16::from(*number != NO_NUMBER && *number >= at);
    let parents = mesh.vertices.iter_mut().flat_map(|v| &mut v.parents);
    let corners = mesh.records.iter_mut().flat_map(|r| &mut r.corners);
    parents.chain(corners).for_each(up);
    let place = [-32_736, 32_736, -32_736];
    let parents = [NO_NUMBER; 2];
    mesh.vertices
        .insert(usize::from(at), Vertex { place, parents });
    mesh.base_vertices += 1;
}

/// "Base records only": a later record in the other hand isn't what cutting gives, and gets 9.
fn beyond_the_base(tally: &mut Tally, random: &mut Random) {
    let mut mesh = k();
    for numbers in [&[0][..], &[1, 2], &[3, 4, 5, 6]] {
        mesh = refined(&mesh, numbers).expect("there is room");
    }
    for number in 1..mesh.records.len() {
        for slots in EDGES {
            let other = with_turned(&mesh, number, slots);
            tally.given("a later record", &other, 9, random);
        }
    }
    // All of them with the base record: cut as it stands, and left-handed throughout.
    for slots in EDGES {
        let mut other = with_turned(&k(), 0, slots);
        for number in 0..7 {
            assert!(cut_alone(&mut other, number));
            assert!(other.records.iter().all(|r| other.is_left_handed(r)));
            tally.given("left-handed throughout", &other, 22, random);
        }
    }
}

/// 1,024 vertices and 3,072 base records, one of them left-handed: the first, the last, others.
fn full_tables(tally: &mut Tally, random: &mut Random) {
    let mesh = full_base(random).built(9);
    assert_eq!(mesh.bytes().len(), LARGEST_MESH);
    tally.given("full tables", &mesh, 0, random);
    for number in [0, 1, 1_535, 1_536, 3_070, 3_071] {
        let left = with_turned(&mesh, number, any_slots(random));
        tally.given("full tables, one left-handed", &left, 22, random);
        let mut bad = left.clone();
        bad.records[3_071 - number].marks[0] = 6;
        tally.given("full tables, and a bad mark", &bad, 22, random);
        let mut flat = left;
        let [a, b, c, _] = flat.records[3_071 - number].corners;
        flat.records[3_071 - number].corners = [a, b, c, a];
        tally.given("full tables, and a flat one", &flat, 5, random);
        tally.given_5[usize::from(number > 1_535)] += 1;
    }
    // Both tables full by cuts.
    let cut = filled(separate(48).built(1), random);
    assert_eq!(cut.bytes().len(), LARGEST_MESH);
    tally.given("full by cuts", &cut, 0, random);
    for number in [0, 20, 47] {
        let left = with_turned(&cut, number, any_slots(random));
        tally.given("full by cuts, one left-handed", &left, 22, random);
    }
}

/// 1,024 base vertices: no leaf has room to be cut, 19; one of them left-handed, 22.
fn full_vertices(tally: &mut Tally, random: &mut Random) {
    let mesh = separate(256).built(2);
    for number in (0..256).step_by(8) {
        let selection = selection(mesh.job, mesh.round, &[number]);
        let left = with_turned(&mesh, 255 - usize::from(number), any_slots(random));
        for (mesh, wanted) in [(&mesh, 0), (&left, 22)] {
            let bytes = mesh.bytes();
            let given = tally.stored("full vertices", &bytes, &selection, &selection, random);
            assert_eq!(given, wanted, "full vertices");
        }
    }
}

/// 3,072 pieces of either hand for build.
fn three_thousand_pieces(tally: &mut Tally, random: &mut Random) {
    for plain in [cubes([8, 8, 8], 64), full_base(random)] {
        let mut plain = plain;
        for piece in &mut plain.pieces {
            if random.one_in(2) {
                let [one, other] = any_slots(random);
                piece.swap(one, other);
            }
        }
        assert_eq!(plain.pieces.len(), MOST_RECORDS);
        let given = Given::new(&plain, random);
        assert!(tally.build("3,072 pieces", &given, random).is_ok());
        let mut more = given;
        more.corners.extend([0, 1, 2, 3]);
        assert_eq!(tally.build("3,073 pieces", &more, random), Err(3));
    }
}

/// An accepted plain mesh, its pieces of either hand.
fn any_plain(random: &mut Random) -> Plain {
    match random.below(4) {
        0 => thinned(cubes([2, 1, 2], 64), random, 60).mixed(random),
        1 => cubes([1, 1, 1], 32).mixed(random),
        _ => {
            let pieces = 1 + random.below(8);
            joined(random, pieces)
        }
    }
}

/// The refinement edge of each piece and the mark of each of its faces, by vertices.
fn marked_edges(mesh: &Mesh) -> Vec<Vec<Option<(u16, u16)>>> {
    let edges = |record: &Record| {
        let marks = record.marks.into_iter().zip(record.corners);
        let mut marks: Vec<_> = marks.map(|(mark, corner)| (corner, mark)).collect();
        // By the corner that the face is without.
        marks.sort_unstable();
        let codes = [record.edge]
            .into_iter()
            .chain(marks.into_iter().map(|(_, mark)| mark));
        codes.map(|code| ends(record, code)).collect()
    };
    mesh.records.iter().map(edges).collect()
}

/// Left- and right-handed pieces mixed; then some of them in the other hand: the same edges are marked. Stored as
/// they are given they get 22 where one is left-handed.
fn plain_meshes(tally: &mut Tally, random: &mut Random) {
    let plain = any_plain(random);
    let given = Given::new(&plain, random);
    let built = tally.build("either hand", &given, random).expect("a mesh");
    let mut others = plain.clone();
    for piece in &mut others.pieces {
        if random.one_in(2) {
            let [one, other] = any_slots(random);
            piece.swap(one, other);
        }
    }
    let given = Given {
        job: given.job,
        ..Given::new(&others, random)
    };
    let other = tally.build("other hands", &given, random).expect("a mesh");
    assert_eq!(marked_edges(&built), marked_edges(&other));
    assert_eq!(built.vertices, other.vertices);
    for (plain, mesh) in [(&plain, &built), (&others, &other)] {
        // In the slots given, its marks along: undo what build has exchanged.
        let mut stored = mesh.clone();
        for (record, piece) in stored.records.iter_mut().zip(&plain.pieces) {
            if record.corners != *piece {
                *record = turned(record, [2, 3]).expect("a piece");
            }
            assert_eq!(record.corners, *piece);
        }
        let left = plain.pieces.iter().any(|&piece| plain.signed(piece) < 0);
        let number = if left { 22 } else { 0 };
        tally.given("as given", &stored, number, random);
    }
}

/// Something wrong with a plain mesh: its number is the same whatever the hands are, and never 22.
fn wrong_plain_meshes(tally: &mut Tally, random: &mut Random) {
    let plain = any_plain(random);
    let mut given = Given::new(&plain, random);
    let pieces = plain.pieces.len();
    let (at, one) = (4 * random.below(pieces), random.below(4));
    let number = match random.below(9) {
        0 => {
            given
                .corners
                .truncate(given.corners.len() - 1 - random.below(3));
            21
        }
        1 => {
            given.coordinates.push(0);
            21
        }
        2 => {
            given.coordinates.truncate(9);
            3
        }
        3 => {
            let at = random.below(given.coordinates.len());
            given.coordinates[at] += [1, -1, 16][random.below(3)];
            4
        }
        // Equal corners, or one that is not in the base.
        4 => {
            given.corners[at + one] = given.corners[at + (one + 1) % 4];
            5
        }
        5 => {
            given.corners[at + one] = plain.places.len() as u16 + random.below(3) as u16;
            5
        }
        // A flat piece before the others or after them.
        6 => {
            let [a, b, c, _] = plain.pieces[at / 4];
            let flat = [a, b, c, [a, b, c][random.below(3)]];
            let place = [0, given.corners.len(), at][random.below(3)];
            given.corners.splice(place..place, flat);
            5
        }
        7 => {
            let mut again = plain.pieces[at / 4];
            random.shuffle(&mut again);
            let place = [0, given.corners.len(), at][random.below(3)];
            given.corners.splice(place..place, again);
            7
        }
        _ => {
            given.coordinates.extend([32_736, -32_736, 32_736]);
            let place = [32_736, -32_736, 32_736];
            if plain.places.contains(&place) {
                4
            } else {
                8
            }
        }
    };
    in_any_hands(tally, given, number, random);
}

/// A piece more with a corner in another: 23, whatever the hands are.
fn corners_in_others(tally: &mut Tally, random: &mut Random) {
    let plain = any_plain(random);
    let piece = plain.pieces[random.below(plain.pieces.len())];
    let corners = piece.map(|corner| plain.places[usize::from(corner)]);
    let free = |place| !plain.places.contains(&place);
    let Some(places) = hanging_piece(corners, free, random) else {
        return;
    };
    let mut given = Given::new(&plain, random);
    let first = plain.places.len() as u16;
    given.coordinates.extend(places.as_flattened());
    let at = 4 * random.below(plain.pieces.len() + 1);
    given
        .corners
        .splice(at..at, [0, 1, 2, 3].map(|slot| first + slot));
    in_any_hands(tally, given, 23, random);
}

/// Build must give that number, four times with some of the pieces in the other hand.
fn in_any_hands(tally: &mut Tally, mut given: Given, number: u32, random: &mut Random) {
    for _ in 0..4 {
        assert_eq!(tally.build("wrong", &given, random), Err(number));
        for piece in given.corners.chunks_exact_mut(4) {
            if random.one_in(2) {
                let [one, other] = any_slots(random);
                piece.swap(one, other);
            }
        }
    }
}

/// The sign of one base record damaged, the first, the last or one between, or of all: 22.
fn signs_damaged(tally: &mut Tally, random: &mut Random) {
    let mesh = any_mesh(random, 5);
    tally.given("before damage", &mesh, 0, random);
    for number in first_last_between(&mesh, random) {
        let slots = any_slots(random);
        let other = with_turned(&mesh, number, slots);
        tally.given("in the other hand", &other, 22, random);
        let other = with_exchanged(&mesh, number, slots);
        tally.given("two corners exchanged", &other, 22, random);
        // Twice is once too many: right-handed again, in other slots.
        let again = with_turned(
            &with_turned(&mesh, number, slots),
            number,
            any_slots(random),
        );
        match mesh.records[number].is_leaf() {
            true => tally.given("turned twice", &again, 0, random),
            false => {
                let [selection, request] = any_selections(&again, random);
                let bytes = again.bytes();
                let given = tally.stored("turned twice", &bytes, &selection, &request, random);
                assert!([0, 9].contains(&given), "turned twice: {given}");
            }
        }
    }
    let mut mirrored = mesh.clone();
    let axis = random.below(3);
    for vertex in &mut mirrored.vertices {
        vertex.place[axis] = -vertex.place[axis];
    }
    tally.given("in a mirror", &mirrored, 22, random);
    let mut all = mesh.clone();
    for number in 0..mesh.base_records {
        all = with_turned(&all, number, any_slots(random));
    }
    tally.given("all in the other hand", &all, 22, random);
}

/// A flat base record before a left-handed one or after it: 5.
fn flat_and_left_handed(tally: &mut Tally, random: &mut Random) {
    let mesh = loop {
        let mesh = any_mesh(random, 4);
        if mesh.base_records > 1 {
            break mesh;
        }
    };
    for _ in 0..4 {
        let left = random.below(mesh.base_records);
        let flat = (left + 1 + random.below(mesh.base_records - 1)) % mesh.base_records;
        let mut other = with_turned(&mesh, left, any_slots(random));
        let record = &mut other.records[flat];
        let [a, b, c, d] = record.corners;
        match random.below(5) {
            0 => record.corners = [a, b, c, a],
            1 => record.corners = [a, b, b, d],
            2 => record.corners[random.below(4)] = mesh.base_vertices as u16,
            3 => record.flag = 1,
            _ => record.generation = 1 + random.below(255) as u8,
        }
        tally.given("5 and 22", &other, 5, random);
        tally.given_5[usize::from(left > flat)] += 1;
    }
    // Four different corners in one plane.
    let plain = flat_and_solid(random);
    let markings = vec![(0, [3, 1, 0, 0]); plain.pieces.len()];
    let stored = plain.marked(random.number() as u32, &markings);
    tally.given("in a plane, and 22", &stored, 5, random);
    let flat = plain
        .pieces
        .iter()
        .position(|&piece| plain.signed(piece) == 0);
    let left = plain
        .pieces
        .iter()
        .position(|&piece| plain.signed(piece) < 0);
    tally.given_5[usize::from(left > flat)] += 1;
    let given = Given::new(&plain, random);
    assert_eq!(tally.build("in a plane", &given, random), Err(5));
}

/// Two pieces that share nothing, one left-handed and one flat, in either order.
fn flat_and_solid(random: &mut Random) -> Plain {
    let mut plain = separate(2).right_handed(|| [2, 3]);
    let [one, other] = any_slots(random);
    plain.pieces[0].swap(one, other);
    // The fourth corner of a parallelogram.
    let [a, b, c] = [4, 5, 6].map(|n| plain.places[n]);
    plain.places[7] = [0, 1, 2].map(|axis| a[axis] + c[axis] - b[axis]);
    random.shuffle(&mut plain.pieces[1]);
    random.shuffle(&mut plain.pieces);
    plain
}

/// A left-handed base record and something that is tried after it: 22.
fn left_handed_and_more(tally: &mut Tally, random: &mut Random) {
    let mesh = any_mesh(random, 4);
    for number in first_last_between(&mesh, random) {
        let left = with_turned(&mesh, number, any_slots(random));
        let any = random.below(mesh.base_records);
        // 6: bad marks, in this record or another.
        let mut other = left.clone();
        match random.below(3) {
            0 => other.records[any].edge = 6 + random.below(250) as u8,
            1 => other.records[any].marks[random.below(4)] = 6 + random.below(250) as u8,
            _ => {
                let face = random.below(4);
                other.records[any].marks[face] = (other.records[any].marks[face] + 3) % 6;
            }
        }
        tally.given("22 and 6", &other, 22, random);
        // 7: the same four corners again, in the right hand.
        if any != number {
            let mut other = left.clone();
            other.records[any] = Record {
                first_child: mesh.records[any].first_child,
                ..mesh.records[number]
            };
            tally.given("22 and 7", &other, 22, random);
        }
        let mut other = left.clone();
        unused_vertex(&mut other);
        let places = mesh.vertices[..mesh.base_vertices].iter();
        let there = places.filter(|v| v.place == [-32_736, 32_736, -32_736]);
        let wanted = if there.count() > 0 { 4 } else { 22 };
        tally.given("22 and 8", &other, wanted, random);
        // 23: a corner of another piece in this one or another.
        let mut other = left.clone();
        if hang_a_piece(&mut other, any, random) {
            tally.given("22 and 23", &other, 22, random);
        }
        // 9: a first child where there is none, or none where there is one.
        let mut other = left.clone();
        let last = mesh.records.len() as u16 - 1;
        let child = &mut other.records[random.below(mesh.records.len())].first_child;
        *child = if *child == NO_NUMBER { last } else { NO_NUMBER };
        tally.given("22 and 9", &other, 22, random);
        // 10: a cut that isn't closed, in another base record that shares the edge.
        let uncut = mesh.records.len() == mesh.base_records;
        if uncut && any != number {
            let mut other = left;
            if cut_alone(&mut other, any) {
                tally.given("22 and 10", &other, 22, random);
            }
        }
    }
}

/// Round after round, a deepest leaf named each time, until one has generation 15; the sign of each record is
/// looked at in each round, and a base record is left-handed in each.
fn to_generation_15(tally: &mut Tally, random: &mut Random) {
    let mut mesh = match random.below(4) {
        0 => k(),
        1 => {
            let mut singles = single_pieces(random);
            singles.swap_remove(random.below(singles.len()))
        }
        _ => {
            let pieces = 1 + random.below(3);
            joined(random, pieces).marked_anyhow(random)
        }
    };
    loop {
        let deepest = mesh.leaves().map(|(_, leaf)| leaf.generation).max();
        let leaves = mesh.leaves();
        let leaves = leaves.filter(|(_, leaf)| Some(leaf.generation) == deepest);
        let leaves: Vec<u16> = leaves.map(|(number, _)| number as u16).collect();
        let named = random.pick(&leaves).expect("a leaf");
        let chosen = selection(mesh.job, mesh.round, &[named]);
        let mut cut = cut_records(&mesh);
        random.shuffle(&mut cut);
        cut.truncate(3);
        cut.sort_unstable();
        let request = selection(mesh.job, mesh.round, &cut);
        let bytes = mesh.bytes();
        let number = tally.stored("a deepest leaf", &bytes, &chosen, &request, random);
        assert_eq!(number, 0, "a deepest leaf");
        for number in first_last_between(&mesh, random) {
            let left = match random.one_in(2) {
                true => with_turned(&mesh, number, any_slots(random)),
                false => with_exchanged(&mesh, number, any_slots(random)),
            };
            tally.given("a deepest leaf, left-handed", &left, 22, random);
        }
        mesh = match refined(&mesh, &[named]) {
            Ok(finer) => finer,
            Err(number) => return assert!([17, 19].contains(&number), "a deepest leaf"),
        };
    }
}

/// Damage of any kind, some of it to signs.
fn any_damage(tally: &mut Tally, random: &mut Random) {
    let mesh = any_mesh(random, 4);
    for _ in 0..8 {
        let (name, other) = match random.one_in(2) {
            true => damaged(&mesh, random),
            false => {
                let mut other = mesh.clone();
                let (name, kind) = KINDS[random.below(KINDS.len())];
                kind(&mut other, random);
                (name.to_string(), other)
            }
        };
        let [selection, request] = any_selections(&mesh, random);
        let bytes = other.bytes();
        tally.stored(&name, &bytes, &selection, &request, random);
    }
}

/// Bytes of a mesh replaced, taken or added, its sign damaged or not.
fn bytes_replaced(tally: &mut Tally, random: &mut Random) {
    let mut mesh = any_mesh(random, 3);
    if random.one_in(2) {
        let number = random.below(mesh.base_records);
        mesh = with_turned(&mesh, number, any_slots(random));
    }
    let [selection, request] = any_selections(&mesh, random);
    for _ in 0..8 {
        let mut bytes = mesh.bytes();
        match random.below(8) {
            0 => bytes.truncate(random.below(bytes.len())),
            1 => bytes.push(random.number() as u8),
            // The mark, the version, byte 19; a count.
            2 => bytes[[0, 1, 2, 3, 4, 19][random.below(6)]] ^= 1 << random.below(8),
            3 => bytes[[11, 12, 15, 16][random.below(4)]] = random.number() as u8,
            _ => {
                for _ in 0..1 + random.below(3) {
                    let at = random.below(bytes.len());
                    bytes[at] =
                        [bytes[at] ^ 1 << random.below(8), random.number() as u8][random.below(2)];
                }
            }
        }
        tally.stored("bytes replaced", &bytes, &selection, &request, random);
    }
}

#[test]
fn the_proved_services_and_the_second_agree_on_either_hand() {
    let seed = seed();
    let tally: Tally = compared(seed, &LISTED, &RANDOM);
    let hidden = [0, 6, 7, 8, 23, 9, 10].map(|number| tally.instead[number]);
    let mut lines = tally.answers.lines(seed);
    lines.extend([
        format!(
            "pieces built, given right-handed and left-handed {:?}; both in {} meshes",
            tally.hands, tally.mixed
        ),
        format!(
            "22 at the first base record, the last, another {:?}; in {} of them something is cut; were they \
             right-handed, 0, 6, 7, 8, 23, 9, 10 in {hidden:?}",
            tally.places, tally.cut
        ),
        format!(
            "5 with a left-handed base record before and after it {:?}",
            tally.given_5
        ),
        format!(
            "{} children are half of their parents; records looked at by generation {:?}",
            tally.halves, tally.looked
        ),
    ]);
    tell("hands", &lines);

    tally.answers.suffice(FEWEST, FEWEST_RANDOM);
    assert!(tally.answers.check[22] >= FEWEST_LEFT_HANDED);
    assert!(tally.hands.iter().all(|&times| times >= 5_000));
    assert!(tally.mixed >= 1_000);
    // Build gives each of its numbers but 3 and 21 to left-handed pieces too; with too few places none is.
    for number in [0, 4, 5, 7, 8, 23] {
        assert!(tally.with_left_handed[number] >= 100, "build: {number}");
    }
    assert!(tally.places.iter().all(|&times| times >= 500));
    assert!(tally.cut >= 1_000);
    assert!(hidden.iter().all(|&times| times >= 50), "{hidden:?}");
    assert!(tally.given_5.iter().all(|&times| times >= 200));
    assert!(tally.looked.iter().all(|&times| times >= 1_000));
    assert!(tally.halves >= 50_000);
}
