//! The proved build, through `tmb_build`, compared with the second program's on many inputs: number
//! and every byte of the output buffer. COMPARED_SEED in the environment gives another seed.

use compared::buffers::both;
use compared::inside::hanging_piece;
use compared::meshes::{cubes, full_base, joined, separate, signed, thinned, Plain, K};
use compared::random::Random;
use compared::{tmb_build, tmb_check};
use second::mesh::Mesh;
use second::{build, check, LARGEST_MESH, MOST_RECORDS, MOST_VERTICES};
use std::io::Write;
use std::sync::atomic::{AtomicUsize, Ordering};

/// The fewest random inputs, and the fewest answers of each number that build can give.
const FEWEST: u64 = 20_000;
const FEWEST_OF_EACH: u64 = 1_000;
/// In the order in which build tries them, then acceptance.
const NUMBERS: [u32; 9] = [21, 3, 4, 5, 7, 8, 23, 20, 0];

/// What build takes, but for the output buffer.
#[derive(Clone, Debug, PartialEq)]
struct Input {
    job: u32,
    coordinates: Vec<i16>,
    corners: Vec<u16>,
}

impl Input {
    fn new(plain: &Plain, random: &mut Random) -> Input {
        Input {
            job: random.number() as u32,
            coordinates: plain.places.concat(),
            corners: plain.pieces.concat(),
        }
    }

    fn vertices(&self) -> usize {
        self.coordinates.len() / 3
    }

    fn pieces(&self) -> usize {
        self.corners.len() / 4
    }

    /// The length of the result, if there is one.
    fn length(&self) -> usize {
        20 + 10 * self.vertices() + 17 * self.pieces()
    }

    fn place(&self, vertex: usize) -> Option<[i16; 3]> {
        self.coordinates
            .chunks_exact(3)
            .nth(vertex)?
            .try_into()
            .ok()
    }

    fn piece(&self, number: usize) -> Option<[u16; 4]> {
        self.corners.chunks_exact(4).nth(number)?.try_into().ok()
    }

    fn any_piece(&self, random: &mut Random) -> Option<[u16; 4]> {
        self.piece(random.below(self.pieces().max(1)))
    }

    /// The places of some corners; nothing if one is not in the base.
    fn places_of<const N: usize>(&self, corners: [u16; N]) -> Option<[[i16; 3]; N]> {
        let mut places = [[0; 3]; N];
        for (place, corner) in places.iter_mut().zip(corners) {
            *place = self.place(usize::from(corner))?;
        }
        Some(places)
    }

    fn is_free(&self, place: [i16; 3]) -> bool {
        self.coordinates.chunks_exact(3).all(|other| other != place)
    }

    /// A vertex more, at a place on the grid where none stands: its number.
    fn with_vertex(&mut self, random: &mut Random) -> u16 {
        loop {
            let place = [0; 3].map(|_: i16| 32 * (random.below(2_047) as i16 - 1_023));
            if self.is_free(place) {
                self.coordinates.extend(place);
                return self.vertices() as u16 - 1;
            }
        }
    }
}

/// What was compared.
#[derive(Default)]
struct Tally {
    inputs: u64,
    /// Those of them that are random.
    random: u64,
    calls: u64,
    /// Calls by the number given.
    numbers: [u64; 24],
    /// Inputs by the number given where the output buffer is long enough.
    by_input: [u64; 24],
    /// Calls by output buffer: 0, one less than the result, the result, full-size, longer.
    rooms: [u64; 5],
    /// Accepted inputs of 1,024 vertices, and of 3,072 pieces.
    full: [u64; 2],
    /// Accepted pieces, given right-handed and left-handed.
    hands: [u64; 2],
}

impl Tally {
    /// Compares the two builds with one output buffer. Gives the number and the buffer.
    fn call(
        &mut self,
        name: &str,
        input: &Input,
        room: usize,
        random: &mut Random,
    ) -> (u32, Vec<u8>) {
        let given = input.clone();
        let answer = both(
            room,
            random,
            |out| tmb_build(given.job, &given.coordinates, &given.corners, out),
            |out| build(input.job, &input.coordinates, &input.corners, out),
        );
        assert!(given == *input, "{name}: inputs are only read");
        let (number, out) = answer.unwrap_or_else(|different| {
            let file = format!("{}/differs.txt", env!("CARGO_TARGET_TMPDIR"));
            std::fs::write(&file, format!("{room} {input:?}\n")).expect("the input is written");
            panic!("{name}, {different}; the input is in {file}");
        });
        let written = if number == 0 { input.length() } else { 0 };
        assert!(out[written..].iter().all(|&byte| byte == 0), "{name}: zero");
        self.calls += 1;
        self.numbers[number as usize] += 1;
        (number, out)
    }

    /// One input with output buffers of 0, one less than the result, the result, full-size and longer.
    /// Gives the number where the buffer is long enough.
    fn compare(&mut self, name: &str, input: &Input, random: &mut Random) -> u32 {
        let longer = LARGEST_MESH + 1 + random.below(2_000);
        self.compare_in(name, input, [true; 5], longer, random)
    }

    fn compare_in(
        &mut self,
        name: &str,
        input: &Input,
        chosen: [bool; 5],
        longer: usize,
        random: &mut Random,
    ) -> u32 {
        let length = input.length();
        let rooms = [0, length - 1, length, LARGEST_MESH, longer];
        let mut answer = None;
        for kind in (0..5).filter(|&kind| chosen[kind]) {
            let room = rooms[kind];
            let (number, out) = self.call(name, input, room, random);
            self.rooms[kind] += 1;
            if room >= length || number != 20 {
                let earlier = *answer.get_or_insert(number);
                assert_eq!(number, earlier, "{name}: one number in every long buffer");
            }
            if number == 0 && kind == 2 {
                self.judge(name, input, &out);
            }
        }
        let answer = answer.expect("a buffer that is long enough");
        self.inputs += 1;
        self.by_input[answer as usize] += 1;
        answer
    }

    /// Whatever build accepts, check accepts, with as many leaves as pieces and depth 0. Each piece is in
    /// its place, right-handed: of a left-handed one the last two corners are exchanged.
    fn judge(&mut self, name: &str, input: &Input, result: &[u8]) {
        let report = tmb_check(result);
        assert_eq!(report, check(result), "{name}");
        assert_eq!((report.number, report.deepest), (0, 0), "{name}");
        assert_eq!(report.leaves, input.pieces() as u64, "{name}");
        let mesh = Mesh::read(result).expect("a stored mesh");
        for (number, record) in mesh.records.iter().enumerate() {
            let given = input.piece(number).expect("a piece");
            let places = input.places_of(given).expect("four places");
            let left = signed(places) < 0;
            let [a, b, c, d] = given;
            let wanted = if left { [a, b, d, c] } else { given };
            assert_eq!(record.corners, wanted, "{name}: {number}");
            self.hands[usize::from(left)] += 1;
        }
        self.full[0] += u64::from(input.vertices() == MOST_VERTICES);
        self.full[1] += u64::from(input.pieces() == MOST_RECORDS);
    }

    /// The input must get that number, from both.
    fn given(&mut self, name: &str, input: &Input, number: u32, random: &mut Random) {
        assert_eq!(self.compare(name, input, random), number, "{name}");
    }

    fn add(&mut self, other: &Tally) {
        let sum = |mine: &mut [u64], theirs: &[u64]| {
            mine.iter_mut()
                .zip(theirs)
                .for_each(|(mine, theirs)| *mine += theirs);
        };
        self.inputs += other.inputs;
        self.random += other.random;
        self.calls += other.calls;
        sum(&mut self.numbers, &other.numbers);
        sum(&mut self.by_input, &other.by_input);
        sum(&mut self.rooms, &other.rooms);
        sum(&mut self.full, &other.full);
        sum(&mut self.hands, &other.hands);
    }
}

/// Changes an accepted input; false if it has nothing to be changed so.
type Damage = fn(&mut Input, &mut Random) -> bool;

/// Each kind of damage by name, with the number that it gets alone. Lengths come last: they leave no
/// whole vertices and pieces.
const KINDS: [(&str, Damage, u32); 14] = [
    ("off the grid", off_the_grid, 4),
    ("out of range", out_of_range, 4),
    ("two at one place", two_at_one_place, 4),
    ("face in three", face_in_three, 7),
    ("same four corners", same_four_corners, 7),
    ("unused vertex", unused_vertex, 8),
    ("a corner in another piece", corner_in_another, 23),
    ("flat piece", flat_piece, 5),
    ("equal corners", equal_corners, 5),
    ("corner not in the base", corner_not_in_base, 5),
    ("too few vertices", too_few_vertices, 3),
    ("no piece", no_piece, 3),
    ("coordinates not three a vertex", not_three_a_vertex, 21),
    ("corners not four a piece", not_four_a_piece, 21),
];

fn off_the_grid(input: &mut Input, random: &mut Random) -> bool {
    let at = random.below(input.coordinates.len());
    let coordinate = &mut input.coordinates[at];
    *coordinate = match random.below(4) {
        0 => 16,
        1 => -16,
        2 => *coordinate + [1, -1, 16, -16, 31][random.below(5)],
        _ => 32 * (random.below(2_047) as i16 - 1_023) + 1 + random.below(31) as i16,
    };
    true
}

fn out_of_range(input: &mut Input, random: &mut Random) -> bool {
    let at = random.below(input.coordinates.len());
    input.coordinates[at] = [32_752, -32_768, 32_767, 32_737, -32_737, -32_752][random.below(6)];
    true
}

fn two_at_one_place(input: &mut Input, random: &mut Random) -> bool {
    let (one, other) = (
        random.below(input.vertices()),
        random.below(input.vertices()),
    );
    let from = 3 * other..3 * other + 3;
    input.coordinates.copy_within(from, 3 * one);
    one != other
}

/// Pieces set on a face until it is in three at least.
fn face_in_three(input: &mut Input, random: &mut Random) -> bool {
    let Some(mut corners) = input.any_piece(random) else {
        return false;
    };
    random.shuffle(&mut corners);
    let [a, b, c, _] = corners;
    for _ in 0..2 {
        let mut piece = [a, b, c, input.with_vertex(random)];
        if input
            .places_of(piece)
            .is_none_or(|places| signed(places) == 0)
        {
            return false;
        }
        random.shuffle(&mut piece);
        let at = 4 * random.below(input.pieces() + 1);
        input.corners.splice(at..at, piece);
    }
    true
}

/// The same piece again, its corners in other slots.
fn same_four_corners(input: &mut Input, random: &mut Random) -> bool {
    let Some(mut piece) = input.any_piece(random) else {
        return false;
    };
    random.shuffle(&mut piece);
    let at = 4 * random.below(input.pieces() + 1);
    input.corners.splice(at..at, piece);
    true
}

/// The number of the unused vertex is any.
fn unused_vertex(input: &mut Input, random: &mut Random) -> bool {
    let last = input.with_vertex(random);
    let number = random.below(input.vertices()) as u16;
    for axis in 0..3 {
        let (one, other) = (3 * usize::from(number), 3 * usize::from(last));
        input.coordinates.swap(one + axis, other + axis);
    }
    for corner in &mut input.corners {
        if *corner == number {
            *corner = last;
        }
    }
    true
}

/// A piece more that shares nothing, one of its corners in another: on an edge, in a face or inside.
fn corner_in_another(input: &mut Input, random: &mut Random) -> bool {
    let corners = input.any_piece(random);
    let Some(places) = corners.and_then(|corners| input.places_of(corners)) else {
        return false;
    };
    let Some(places) = hanging_piece(places, |place| input.is_free(place), random) else {
        return false;
    };
    let first = input.vertices() as u16;
    input.coordinates.extend(places.as_flattened());
    let mut piece = [0, 1, 2, 3].map(|slot| first + slot);
    random.shuffle(&mut piece);
    let at = 4 * random.below(input.pieces() + 1);
    input.corners.splice(at..at, piece);
    true
}

/// A piece more: three corners of another and the fourth of their parallelogram.
fn flat_piece(input: &mut Input, random: &mut Random) -> bool {
    let Some(mut corners) = input.any_piece(random) else {
        return false;
    };
    random.shuffle(&mut corners);
    let Some([a, b, c, _]) = input.places_of(corners) else {
        return false;
    };
    let place = [0, 1, 2].map(|axis| i32::from(a[axis]) + i32::from(b[axis]) - i32::from(c[axis]));
    if place.iter().any(|coordinate| coordinate.abs() > 32_736) {
        return false;
    }
    let place = place.map(|coordinate| coordinate as i16);
    let known = (0..input.vertices()).find(|&vertex| input.place(vertex) == Some(place));
    corners[3] = known.unwrap_or(input.vertices()) as u16;
    if known.is_none() {
        input.coordinates.extend(place);
    }
    random.shuffle(&mut corners);
    let at = 4 * random.below(input.pieces() + 1);
    input.corners.splice(at..at, corners);
    true
}

fn equal_corners(input: &mut Input, random: &mut Random) -> bool {
    let first = 4 * random.below(input.pieces());
    let (one, other) = (random.below(4), random.below(4));
    input.corners[first + one] = input.corners[first + other];
    one != other
}

fn corner_not_in_base(input: &mut Input, random: &mut Random) -> bool {
    let vertices = input.vertices() as u16;
    let beyond = vertices + random.below(usize::from(u16::MAX - vertices)) as u16;
    let numbers = [vertices, vertices + 1, 1_024, 65_534, 65_535, beyond];
    let at = random.below(input.corners.len());
    input.corners[at] = numbers[random.below(6)];
    true
}

fn too_few_vertices(input: &mut Input, random: &mut Random) -> bool {
    input.coordinates.truncate(3 * random.below(4));
    true
}

fn no_piece(input: &mut Input, _: &mut Random) -> bool {
    input.corners.clear();
    true
}

fn not_three_a_vertex(input: &mut Input, random: &mut Random) -> bool {
    for _ in 0..1 + random.below(2) {
        input.coordinates.push(random.number() as i16);
    }
    true
}

fn not_four_a_piece(input: &mut Input, random: &mut Random) -> bool {
    for _ in 0..1 + random.below(3) {
        input.corners.push(random.number() as u16);
    }
    true
}

/// One part of the comparison.
type Part = fn(&mut Tally, &mut Random);

/// The parts that go through a list of inputs, and each part of random inputs with the times it is done,
/// each time with numbers of its own.
const LISTED: [Part; 8] = [
    full_tables,
    limits,
    eight_cubes,
    beyond_the_limits,
    worked,
    bounds,
    largest_pieces,
    short_lists,
];
const RANDOM: [(Part, usize); 7] = [
    (blocks, 150),
    (fans, 300),
    (damaged_once, 600),
    (corners_in_others, 500),
    (damaged_often, 4_000),
    (small_sets, 7_000),
    (any_lists, 1_500),
];

/// The first row of "A piece worked by hand", and the cube of side 64.
fn worked(tally: &mut Tally, random: &mut Random) {
    let k = Input {
        job: 7,
        coordinates: K.concat(),
        corners: vec![0, 1, 2, 3],
    };
    tally.given("K", &k, 0, random);
    let (number, out) = tally.call("K", &k, 77, random);
    assert_eq!((number, &out[68..73]), (0, &[2, 4, 2, 2, 1][..]));
    assert_eq!(tally.call("K", &k, 76, random), (20, vec![0; 76]));
    for room in 0..200 {
        let number = if room < 77 { 20 } else { 0 };
        assert_eq!(tally.call("K", &k, room, random).0, number);
    }
    for job in [0, 1, 255, 256, 65_535, 65_536, u32::MAX] {
        tally.given("K, another job", &Input { job, ..k.clone() }, 0, random);
    }
    let cube = Input::new(&cubes([1, 1, 1], 64), random);
    tally.given("the cube", &cube, 0, random);
}

/// Each coordinate of K at the bounds, beyond them and off the grid.
fn bounds(tally: &mut Tally, random: &mut Random) {
    let k = Input::new(
        &Plain {
            places: K.to_vec(),
            pieces: vec![[0, 1, 2, 3]],
        },
        random,
    );
    let good = [32_736, -32_736, 32_704, -32_704, 32, -32];
    let bad = [
        32_752, -32_768, 16, -16, 1, -1, 31, -31, 33, 32_735, 32_737, -32_735, -32_737, 32_767,
        -32_767, -32_752,
    ];
    for at in 0..12 {
        for value in good {
            let mut input = k.clone();
            input.coordinates[at] = value;
            let places = input.places_of([0, 1, 2, 3]).expect("four places");
            let number = if signed(places) == 0 { 5 } else { 0 };
            tally.given("a coordinate at a bound", &input, number, random);
        }
        for value in bad {
            let mut input = k.clone();
            input.coordinates[at] = value;
            tally.given("a coordinate off the grid", &input, 4, random);
        }
    }
}

/// Four corners of the largest cube of the grid, in every order: the largest squared lengths.
fn largest_pieces(tally: &mut Tally, random: &mut Random) {
    let mut solid = 0;
    for tuple in 0..4_096 {
        let places = [0, 3, 6, 9].map(|shift| {
            let corner = tuple >> shift & 7;
            [0, 1, 2].map(|axis| [-32_736, 32_736][corner >> axis & 1])
        });
        let input = Input {
            job: tuple as u32,
            coordinates: places.concat(),
            corners: vec![0, 1, 2, 3],
        };
        // Not full-size each time: these are many.
        let chosen = [true, true, true, random.one_in(8), random.one_in(8)];
        let longer = LARGEST_MESH + 1 + random.below(100);
        let number = tally.compare_in("a largest piece", &input, chosen, longer, random);
        assert!([0, 4, 5].contains(&number), "a largest piece");
        solid += u32::from(number == 0);
    }
    // 58 of the 70 sets of four corners lie in no plane, each in 24 orders.
    assert_eq!(solid, 58 * 24);
}

/// Every pair of short lengths: 21, then 3, and no coordinate is looked at before 3.
fn short_lists(tally: &mut Tally, random: &mut Random) {
    for coordinates in 0..20 {
        for corners in 0..14 {
            let input = Input {
                job: random.number() as u32,
                coordinates: (0..coordinates).map(|_| random.number() as i16).collect(),
                corners: (0..corners).map(|_| random.number() as u16).collect(),
            };
            let number = tally.compare("short lists", &input, random);
            if coordinates % 3 != 0 || corners % 4 != 0 {
                assert_eq!(number, 21, "{coordinates} coordinates, {corners} corners");
            } else if coordinates < 12 || corners < 4 {
                assert_eq!(number, 3, "{coordinates} coordinates, {corners} corners");
            }
        }
    }
}

/// Equal lengths everywhere: blocks of cubes, whole and with pieces left out.
fn blocks(tally: &mut Tally, random: &mut Random) {
    let sides = [0; 3].map(|_: usize| 1 + random.below(3));
    let side = 32 * [1, 2, 5, 100, 300][random.below(5)];
    let block = cubes(sides, side);
    tally.given("a block", &Input::new(&block, random), 0, random);
    let block = block.mixed(random);
    tally.given("a block, mixed", &Input::new(&block, random), 0, random);
    let percent = 20 + random.below(80);
    let thin = thinned(block, random, percent).mixed(random);
    tally.given("a block, thinned", &Input::new(&thin, random), 0, random);
    // The cube as five pieces: the one in the middle has six equal edges, and the face between it and
    // each of the others has three, so that vertex numbers decide.
    let five = Plain {
        places: (0..8)
            .map(|corner| [0, 1, 2].map(|axis| side * (corner >> axis & 1)))
            .collect(),
        pieces: vec![
            [0, 3, 5, 6],
            [0, 1, 3, 5],
            [0, 2, 3, 6],
            [0, 4, 5, 6],
            [3, 5, 6, 7],
        ],
    };
    for _ in 0..4 {
        let input = Input::new(&five.clone().mixed(random), random);
        tally.given("a cube as five pieces", &input, 0, random);
    }
}

/// Pieces round one edge, all the way round or not: the ring is the rim of a square, so many lengths are
/// equal. A piece more at the edge puts a face in three.
fn fans(tally: &mut Tally, random: &mut Random) {
    let half = 1 + random.below(6) as i16;
    let step = 32 * [1, 3, 50, 170][random.below(4)];
    let mut rim = Vec::new();
    for along in -half..half {
        rim.extend([
            [along, -half],
            [half, along],
            [-along, half],
            [-half, -along],
        ]);
    }
    rim.sort_by(|one, other| {
        let angle = |[x, y]: [i16; 2]| f64::from(y).atan2(f64::from(x));
        angle(*one).total_cmp(&angle(*other))
    });
    let count = rim.len();
    let height = step * (1 + random.below(6) as i16);
    let mut places = vec![[0, 0, -height], [0, 0, height]];
    places.extend(rim.iter().map(|&[x, y]| [x * step, y * step, 0]));
    let number = |at: usize| 2 + (at % count) as u16;
    let mut plain = Plain {
        places,
        pieces: Vec::new(),
    };
    let pieces = if random.one_in(2) { count } else { count - 1 };
    for at in 0..pieces {
        plain.pieces.push([0, 1, number(at), number(at + 1)]);
    }
    tally.given("a fan", &Input::new(&plain, random), 0, random);
    let mut more = plain.clone();
    let between = number(1 + random.below(pieces - 1));
    more.pieces.push([0, 1, between, more.places.len() as u16]);
    more.places.push([32, 64, height + 32]);
    let last = more.pieces[pieces].map(|corner| more.places[usize::from(corner)]);
    let number = if signed(last) == 0 { 5 } else { 7 };
    let input = Input::new(&more.mixed(random), random);
    tally.given("a fan and a piece more", &input, number, random);
    let mixed = plain.mixed(random);
    tally.given("a fan, mixed", &Input::new(&mixed, random), 0, random);
}

fn accepted(random: &mut Random) -> Plain {
    match random.below(5) {
        0 => thinned(cubes([2, 1, 2], 64), random, 60).mixed(random),
        1 => cubes([1, 1, 1], 32).mixed(random),
        _ => {
            let pieces = 1 + random.below(8);
            joined(random, pieces)
        }
    }
}

/// Each kind of damage alone.
fn damaged_once(tally: &mut Tally, random: &mut Random) {
    let input = Input::new(&accepted(random), random);
    tally.given("accepted", &input, 0, random);
    for (name, damage, number) in KINDS {
        let mut other = input.clone();
        if damage(&mut other, random) {
            tally.given(name, &other, number, random);
        }
    }
}

/// A corner of one piece in another, and of more pieces in others.
fn corners_in_others(tally: &mut Tally, random: &mut Random) {
    let mut input = Input::new(&accepted(random), random);
    for _ in 0..2 {
        if corner_in_another(&mut input, random) {
            tally.given("a corner in another piece", &input, 23, random);
        }
    }
}

/// Several kinds together: the first rule broken, in the order that build tries, names the refusal.
fn damaged_often(tally: &mut Tally, random: &mut Random) {
    let mut input = Input::new(&accepted(random), random);
    let mut names = String::from("damaged");
    let most = [10, 10, 10, KINDS.len()][random.below(4)];
    for (name, damage, _) in &KINDS[..most] {
        if random.one_in(5) && damage(&mut input, random) {
            names = format!("{names}, {name}");
        }
    }
    tally.compare(&names, &input, random);
}

/// Few places close together, pieces of any of them.
fn small_sets(tally: &mut Tally, random: &mut Random) {
    let vertices = 4 + random.below(5);
    let span = 2 + random.below(4);
    let mut plain = Plain::default();
    while plain.places.len() < vertices {
        let place = [0; 3].map(|_: i16| 32 * random.below(span) as i16);
        if !plain.places.contains(&place) || random.one_in(40) {
            plain.places.push(place);
        }
        // A span of 2 has eight places: none is waited for longer than this.
        if random.one_in(200) {
            break;
        }
    }
    let numbers: Vec<u16> = (0..plain.places.len() as u16).collect();
    for _ in 0..1 + random.below(5) {
        let mut order = numbers.clone();
        random.shuffle(&mut order);
        order.resize(order.len().max(4), 0);
        let mut piece = [order[0], order[1], order[2], order[3]];
        if random.one_in(40) {
            piece[random.below(4)] = random.below(vertices + 2) as u16;
        }
        plain.pieces.push(piece);
    }
    tally.compare("a small set", &Input::new(&plain, random), random);
}

/// Lists of any numbers, some of them small.
fn any_lists(tally: &mut Tally, random: &mut Random) {
    let (vertices, pieces) = (random.below(30), random.below(20));
    let most = 1 << random.below(17);
    let rough = random.one_in(2);
    let rest = |random: &mut Random| if random.one_in(6) { random.below(4) } else { 0 };
    let (more, others) = (rest(random), rest(random));
    let coordinate = |random: &mut Random| match rough {
        true => random.number() as i16,
        false => random.number() as i16 & !31,
    };
    let input = Input {
        job: random.number() as u32,
        coordinates: (0..3 * vertices + more)
            .map(|_| coordinate(random))
            .collect(),
        corners: (0..4 * pieces + others)
            .map(|_| random.below(most) as u16)
            .collect(),
    };
    tally.compare("any lists", &input, random);
}

/// The limits themselves: 1,024 vertices and 3,072 pieces, "The largest mesh is 62,484 bytes."
fn full_tables(tally: &mut Tally, random: &mut Random) {
    let input = Input::new(&full_base(random), random);
    assert_eq!(input.length(), LARGEST_MESH);
    let number = tally.compare("full tables", &input, random);
    assert_eq!(number, 0, "full tables");
    let mut other = input.clone();
    other.corners.swap(0, 4);
    tally.compare("full tables, corners exchanged", &other, random);
}

fn eight_cubes(tally: &mut Tally, random: &mut Random) {
    let input = Input::new(&cubes([8, 8, 8], 64), random);
    assert_eq!(input.pieces(), MOST_RECORDS);
    tally.given("8 by 8 by 8 cubes", &input, 0, random);
}

/// 1,024 vertices; 3,072 pieces, each limit alone and passed by one.
fn limits(tally: &mut Tally, random: &mut Random) {
    let full = Input::new(&separate(256).mixed(random), random);
    assert_eq!(full.vertices(), MOST_VERTICES);
    tally.given("1,024 vertices", &full, 0, random);
    let mut more = full.clone();
    more.with_vertex(random);
    tally.given("1,025 vertices", &more, 3, random);
    more.coordinates.push(0);
    tally.given("1,025 vertices and a coordinate", &more, 21, random);
    let mut unused = full.clone();
    unused.corners.truncate(4 * 255);
    tally.given("1,024 vertices, four unused", &unused, 8, random);
    let mut last = full.clone();
    last.corners[1_023] = 1_024;
    tally.given("corner 1,024", &last, 5, random);
    let mut more = Input::new(&cubes([8, 8, 8], 64), random);
    more.corners.extend([0, 1, 2, 3]);
    tally.given("3,073 pieces", &more, 3, random);
    // As many pieces, each of the same four corners.
    let mut same = full;
    same.corners = [0, 1, 2, 3].repeat(MOST_RECORDS);
    same.coordinates = K.concat();
    tally.given("3,072 times K", &same, 7, random);
}

/// Counts are natural numbers: none is wrapped.
fn beyond_the_limits(tally: &mut Tally, random: &mut Random) {
    let k = Input::new(
        &Plain {
            places: K.to_vec(),
            pieces: vec![[0, 1, 2, 3]],
        },
        random,
    );
    for vertices in [1_025, 2_048, 65_535, 65_536, 65_540, 70_000, 131_076] {
        let mut input = k.clone();
        input.coordinates.resize(3 * vertices, 0);
        tally.given("vertices beyond the limit", &input, 3, random);
        input.coordinates.pop();
        tally.given("vertices beyond the limit, not three", &input, 21, random);
    }
    for pieces in [3_073, 4_096, 65_535, 65_536, 65_537, 131_073] {
        let mut input = k.clone();
        input.corners = [0, 1, 2, 3].repeat(pieces);
        tally.given("pieces beyond the limit", &input, 3, random);
        input.corners.pop();
        tally.given("pieces beyond the limit, not four", &input, 21, random);
    }
}

fn seed() -> u64 {
    match std::env::var("COMPARED_SEED") {
        Ok(text) => text.parse().expect("COMPARED_SEED is a number"),
        Err(_) => 20_261_115,
    }
}

#[test]
fn the_proved_build_and_the_second_agree() {
    let seed = seed();
    let random_parts = RANDOM
        .into_iter()
        .flat_map(|(part, times)| vec![part; times]);
    let tasks: Vec<Part> = LISTED.into_iter().chain(random_parts).collect();
    let next = AtomicUsize::new(0);
    let work = || {
        let mut tally = Tally::default();
        loop {
            let number = next.fetch_add(1, Ordering::Relaxed);
            let Some(part) = tasks.get(number) else {
                return tally;
            };
            // The same numbers whichever thread takes the task.
            let mut random = Random::new(seed ^ (number as u64 + 1) << 32);
            let before = tally.inputs;
            part(&mut tally, &mut random);
            if number >= LISTED.len() {
                tally.random += tally.inputs - before;
            }
        }
    };
    let mut tally = Tally::default();
    std::thread::scope(|scope| {
        let threads = [scope.spawn(work), scope.spawn(work)];
        for thread in threads {
            match thread.join() {
                Ok(part) => tally.add(&part),
                Err(panic) => std::panic::resume_unwind(panic),
            }
        }
    });

    // Not by println, which a passing test keeps to itself.
    let mut out = std::io::stdout().lock();
    let mut line = |text: String| writeln!(out, "build compared: {text}").expect("a line");
    line(format!(
        "seed {seed} (COMPARED_SEED), {} inputs, {} of them random, {} calls",
        tally.inputs, tally.random, tally.calls
    ));
    for number in NUMBERS {
        let (calls, inputs) = (
            tally.numbers[number as usize],
            tally.by_input[number as usize],
        );
        line(format!("number {number}: {calls} calls, {inputs} inputs"));
    }
    line(format!(
        "buffers of 0, one less, the result, full-size, longer {:?}",
        tally.rooms
    ));
    line(format!("1,024 vertices, 3,072 pieces in {:?}", tally.full));
    line(format!("right-handed, left-handed {:?}", tally.hands));

    assert!(tally.random >= FEWEST);
    for number in NUMBERS {
        let (calls, inputs) = (
            tally.numbers[number as usize],
            tally.by_input[number as usize],
        );
        assert!(calls >= FEWEST_OF_EACH, "number {number}: {calls} calls");
        assert!(
            inputs >= FEWEST_OF_EACH || number == 20,
            "number {number}: {inputs} inputs"
        );
    }
    assert_eq!(
        tally.numbers.iter().sum::<u64>(),
        NUMBERS
            .iter()
            .map(|&number| tally.numbers[number as usize])
            .sum::<u64>(),
        "no other number is given"
    );
    assert!(tally.rooms.iter().all(|&times| times >= FEWEST_OF_EACH));
    assert!(tally.full.iter().all(|&times| times >= 2));
    assert!(tally.hands.iter().all(|&times| times >= 20_000));
}
