//! The proved refine, through `tmb_refine`, compared with the second program's on many inputs: number
//! and every byte of the output buffer. COMPARED_SEED in the environment gives another seed.

use compared::damage::{damaged, hang_a_piece};
use compared::meshes::{
    beside, block, chosen_anyhow, cubes, cut_alone, deepened, filled, joined, ladder, open_leaves,
    random_base, scattered, separate, single_pieces, LADDER,
};
use compared::named::{
    also_named, built, counts, greatest, k, read, same_records, seed, sum, wrong_jobs_and_rounds,
    wrong_lengths, wrong_marks, Case, Compared, Input, REFINE,
};
use compared::random::Random;
use compared::renumber::renumbered;
use compared::tmb_check;
use second::mesh::{Mesh, Record, Vertex, NO_NUMBER};
use second::{check, LARGEST_MESH, MOST_RECORDS, MOST_VERTICES};
use std::io::Write;
use std::sync::atomic::{AtomicUsize, Ordering};

/// The numbers that refine can give, in the order in which their rules are tried; 0 last.
const NUMBERS: [usize; 23] = [
    1, 2, 3, 4, 5, 22, 6, 7, 8, 23, 9, 10, 11, 12, 13, 14, 15, 16, 17, 18, 19, 20, 0,
];

/// The fewest inputs, the fewest of them that are random, the fewest that are accepted, and the fewest of
/// each number that refine can give.
const FEWEST: u64 = 25_000;
const FEWEST_RANDOM: u64 = 24_000;
const FEWEST_ACCEPTED: u64 = 10_000;
const FEWEST_OF_EACH: u64 = 100;

/// "1,024 vertices or 3,072 records".
const MOST: [usize; 2] = [MOST_VERTICES, MOST_RECORDS];

/// What was compared.
#[derive(Default)]
struct Tally {
    both: Compared,
    /// Those of the inputs that are random.
    random: u64,
    /// Inputs that break several of the rules 11 to 19.
    at_once: u64,
    /// Accepted inputs in which more was cut than was named.
    closed: u64,
    /// Results deeper than both the deepest piece before and the children of the selected ones.
    deeper: u64,
    /// Results with a leaf of generation 15.
    deepest: u64,
    /// Accepted inputs that were accepted in another numbering too, with the same cuts: those of them
    /// in whose mesh something is cut.
    renumbered: u64,
    /// Inputs given 19 whose mesh is a result of earlier rounds.
    rounds_to_19: u64,
    /// Results of 1,024 vertices, and of 3,072 records.
    full: [u64; 2],
    /// Closings that reach 1,024 vertices, one more and two more, and 3,072 records, one more and two
    /// more. The selected alone would have room.
    closings: [[u64; 3]; 2],
}

impl Tally {
    /// One input with one output buffer.
    fn call(
        &mut self,
        name: &str,
        input: &Input,
        room: usize,
        random: &mut Random,
    ) -> (u32, Vec<u8>) {
        self.both.call(&REFINE, name, input, room, random)
    }

    /// One input with several output buffers. Gives the result, or the number where the buffer is long
    /// enough.
    fn compare(&mut self, name: &str, input: &Input, random: &mut Random) -> Result<Vec<u8>, u32> {
        let answer = self.both.compare(&REFINE, name, input, random);
        match &answer {
            Ok(result) => self.judge(name, input, result),
            Err(19) => self.rounds_to_19 += u64::from(read(&input.mesh).round > 0),
            Err(_) => {}
        }
        answer
    }

    /// Whatever refine accepts, check accepts, with the volume that was there and no deeper than may be;
    /// what was named is cut, the round is one higher, and nothing else that was there is changed but by
    /// being cut.
    fn judge(&mut self, name: &str, input: &Input, result: &[u8]) {
        let (before, report) = (check(&input.mesh), tmb_check(result));
        assert_eq!(report, check(result), "{name}");
        assert_eq!(report.number, 0, "{name}");
        assert_eq!(report.sixfold, before.sixfold, "{name}");
        let (old, new) = (read(&input.mesh), read(result));
        assert_eq!((new.job, new.round), (old.job, old.round + 1), "{name}");
        assert_eq!(new.base_vertices, old.base_vertices, "{name}");
        assert_eq!(new.base_records, old.base_records, "{name}");
        assert!(new.vertices.starts_with(&old.vertices), "{name}: vertices");
        let named: Vec<usize> = input.numbers().into_iter().map(usize::from).collect();
        // "No piece is deeper than the least multiple of three that reaches both the deepest piece
        // before and the children of the selected ones."
        let generations = named.iter().map(|&number| old.records[number].generation);
        let children = generations.map(|generation| u64::from(generation) + 1);
        let both = children.fold(before.deepest, u64::max);
        let deepest = both.next_multiple_of(3);
        assert!(report.deepest <= deepest, "{name}: too deep");
        let mut cut = 0;
        for (number, (old, new)) in old.records.iter().zip(&new.records).enumerate() {
            let first_child = old.first_child;
            assert_eq!(
                *old,
                Record {
                    first_child,
                    ..*new
                },
                "{name}: {number}"
            );
            assert!(old.is_leaf() || first_child == new.first_child, "{name}");
            assert!(!named.contains(&number) || !new.is_leaf(), "{name}: named");
            cut += usize::from(first_child != new.first_child);
        }
        assert!(
            !named.is_empty() || new.records.len() == old.records.len(),
            "{name}: an empty selection cuts nothing"
        );
        self.closed += u64::from(cut > named.len());
        self.deeper += u64::from(report.deepest > both);
        self.deepest += u64::from(report.deepest == 15);
        self.full[0] += u64::from(new.vertices.len() == MOST_VERTICES);
        self.full[1] += u64::from(new.records.len() == MOST_RECORDS);
    }

    /// The input must get that number, from both.
    fn given(&mut self, name: &str, input: &Input, number: u32, random: &mut Random) {
        let answer = self.compare(name, input, random).err().unwrap_or(0);
        assert_eq!(answer, number, "{name}");
    }

    /// So must each of these.
    fn all_given(&mut self, cases: Vec<Case>, random: &mut Random) {
        for (name, input, number) in cases {
            self.given(name, &input, number, random);
        }
    }

    /// The input must be accepted, by both: the refined mesh.
    fn accepted(&mut self, name: &str, input: &Input, random: &mut Random) -> Mesh {
        match self.compare(name, input, random) {
            Ok(bytes) => read(&bytes),
            Err(number) => panic!("{name}: refused {number}"),
        }
    }

    /// What was accepted is accepted in another numbering too, with the parents below made vertices and
    /// the children in adjacent pairs above their parent, else in no order of refine's. The same is cut.
    fn also_renumbered(&mut self, mesh: &Mesh, numbers: &[u16], finer: &Mesh, random: &mut Random) {
        let other = renumbered(mesh, random);
        let Some(others) = also_named(mesh, numbers, &other) else {
            return;
        };
        let other = self.accepted("renumbered", &Input::new(&other, &others), random);
        assert!(
            same_records(finer, &other),
            "renumbered: something else is cut"
        );
        self.renumbered += u64::from(mesh.records.len() > mesh.base_records);
    }

    /// Record 0 alone could be cut, and closing that would reach those counts of vertices and records:
    /// accepted with just those if neither is beyond its limit, else 19.
    fn closing(&mut self, mesh: &Mesh, reached: [usize; 2], random: &mut Random) {
        let [vertices, records] = counts(mesh);
        let room = vertices < MOST_VERTICES && records + 2 <= MOST_RECORDS;
        assert!(room && records + 2 < reached[1], "closing decides");
        let fits = (0..2).all(|table| reached[table] <= MOST[table]);
        match self.compare("a closing", &Input::new(mesh, &[0]), random) {
            Ok(bytes) => assert_eq!((counts(&read(&bytes)), true), (reached, fits), "a closing"),
            Err(number) => assert_eq!((number, fits), (19, false), "a closing"),
        }
        for (table, closings) in self.closings.iter_mut().enumerate() {
            let past = reached[table].checked_sub(MOST[table]);
            if let Some(times) = past.and_then(|past| closings.get_mut(past)) {
                *times += 1;
            }
        }
    }

    fn add(&mut self, other: &Tally) {
        self.both.add(&other.both);
        self.random += other.random;
        self.at_once += other.at_once;
        self.closed += other.closed;
        self.deeper += other.deeper;
        self.deepest += other.deepest;
        self.renumbered += other.renumbered;
        self.rounds_to_19 += other.rounds_to_19;
        sum(&mut self.full, &other.full);
        for (mine, theirs) in self.closings.iter_mut().zip(&other.closings) {
            sum(mine, theirs);
        }
    }
}

/// One part of the comparison.
type Part = fn(&mut Tally, &mut Random);

/// The parts that go through a list of inputs, and each part of random inputs with the times it is done,
/// each time with numbers of its own.
const LISTED: [Part; 16] = [
    long_ladder,
    records_by_ladders,
    records_by_other_parts,
    largest_by_closing,
    vertices_by_closing,
    full_records,
    full_tables,
    full_vertices,
    worked,
    worked_cube,
    selection_lengths,
    greatest_selections,
    selection_marks,
    jobs_and_rounds,
    named_records,
    refused_meshes,
];
const RANDOM: [(Part, usize); 8] = [
    (to_full_tables, 3),
    (wrong_on_full_tables, 6),
    (to_generation_15, 40),
    (jobs, 240),
    (other_meshes, 240),
    (singles, 18),
    (wrong_selections, 110),
    (damaged_meshes, 300),
];

/// The rows of "A piece worked by hand" that refine K.
fn worked(tally: &mut Tally, random: &mut Random) {
    let k = k();
    let select_0 = Input::new(&k, &[0]);
    let cut = tally.accepted("K, select 0", &select_0, random);
    let mut by_hand = k.clone();
    by_hand.round = 1;
    by_hand.vertices.push(Vertex {
        place: [32, 32, 32],
        parents: [0, 3],
    });
    by_hand.records[0].first_child = 1;
    let child = |corners, edge, marks| Record {
        corners,
        edge,
        marks,
        flag: 0,
        generation: 1,
        first_child: NO_NUMBER,
    };
    by_hand.records.push(child([0, 1, 2, 4], 1, [3, 1, 0, 1]));
    by_hand.records.push(child([4, 1, 2, 3], 4, [4, 5, 4, 3]));
    assert_eq!(cut, by_hand);
    assert_eq!(cut.bytes().len(), 121);
    for room in 0..=121 {
        let (number, out) = tally.call("K, select 0", &select_0, room, random);
        let (wanted, bytes) = match room {
            121 => (0, by_hand.bytes()),
            _ => (20, vec![0; room]),
        };
        assert_eq!((number, out), (wanted, bytes), "{room} bytes");
    }

    let two = tally.accepted("then select 1 and 2", &Input::new(&cut, &[1, 2]), random);
    assert_eq!(two.records.len(), 7);
    let from_there = |numbers| Input::new(&two, numbers);
    let counts = |mesh: &Mesh| (counts(mesh), mesh.leaves().count());
    let four = tally.accepted("select 4 alone", &from_there(&[4]), random);
    assert_eq!(counts(&four), ([8, 11], 6));
    assert!(!four.records[5].is_leaf(), "5 is cut too");
    let all = tally.accepted("select 3 to 6", &from_there(&[3, 4, 5, 6]), random);
    assert_eq!(counts(&all), ([10, 15], 8));
    for (_, leaf) in all.leaves() {
        assert_eq!(all.signed(leaf), Some(32_768));
    }

    let empty = tally.accepted("empty selection", &Input::new(&k, &[]), random);
    assert_eq!(empty, Mesh { round: 1, ..k });
    tally.given(
        "round 0 on round 1",
        &Input::of(&cut, 7, 0, &[1]),
        14,
        random,
    );
    tally.given("and another job", &Input::of(&cut, 8, 0, &[1]), 13, random);
}

/// "The cube of side 64 as six pieces round the diagonal, select one: all six are cut".
fn worked_cube(tally: &mut Tally, random: &mut Random) {
    let cube = built(&cubes([1, 1, 1], 64), 3);
    for number in 0..6 {
        let cut = tally.accepted("the cube", &Input::new(&cube, &[number]), random);
        assert_eq!(counts(&cut), [9, 18]);
        let report = tmb_check(&cut.bytes());
        assert_eq!((report.leaves, report.sixfold), (12, 1_572_864));
    }
}

/// 11: every length but 13 + 2n, and every count but that of the numbers.
fn selection_lengths(tally: &mut Tally, random: &mut Random) {
    let cube = built(&cubes([1, 1, 1], 64), 3);
    let good = Input::new(&cube, &[0, 2]);
    tally.accepted("two numbers", &good, random);
    tally.all_given(wrong_lengths(&good), random);
    tally.accepted("none", &Input::new(&cube, &[]), random);
    let other = Input::new(&cube, &[]).poked(0, b"xxx");
    tally.given("a wrong mark", &other, 12, random);
}

/// The greatest count, with as many numbers and without, and the greatest number.
fn greatest_selections(tally: &mut Tally, random: &mut Random) {
    let cube = built(&cubes([1, 1, 1], 64), 3);
    let cut = tally.accepted("the cube", &Input::new(&cube, &[0]), random);
    for mesh in [&cube, &cut] {
        tally.all_given(greatest(mesh), random);
    }
}

/// 12: each byte of the mark and of the version.
fn selection_marks(tally: &mut Tally, random: &mut Random) {
    tally.all_given(wrong_marks(&Input::new(&k(), &[0])), random);
}

/// 13 and 14, each byte of the job and of the round; 18.
fn jobs_and_rounds(tally: &mut Tally, random: &mut Random) {
    let mut mesh = k();
    for round in [0, 1, 255, 256, 65_534] {
        mesh.round = round;
        tally.all_given(wrong_jobs_and_rounds(&mesh, &[0]), random);
        let finer = tally.accepted("its own", &Input::new(&mesh, &[0]), random);
        assert_eq!(finer.round, round + 1);
    }
    mesh.round = 65_535;
    for numbers in [&[0][..], &[]] {
        for job in 0..16 {
            mesh.job = job;
            let last = Input::new(&mesh, numbers);
            tally.given("the last round", &last, 18, random);
        }
    }
    let old = Input::of(&mesh, mesh.job, 65_534, &[0]);
    tally.given("the last round, an old selection", &old, 14, random);
    tally.given("the last round, 1", &Input::new(&mesh, &[1]), 15, random);
}

/// 15, 16 and 17, each tried over the whole selection before the next.
fn named_records(tally: &mut Tally, random: &mut Random) {
    let cube = built(&cubes([1, 1, 1], 64), 3);
    for numbers in [
        &[1, 0][..],
        &[0, 0],
        &[0, 1, 2, 2],
        &[0, 1, 3, 2],
        &[4, 1, 2, 3],
        &[6],
        &[0, 1, 6],
        &[65_535],
        &[0, 256],
        &[7, 6],
    ] {
        tally.given("the cube", &Input::new(&cube, numbers), 15, random);
    }
    let cut = tally.accepted("the cube", &Input::new(&cube, &[5]), random);
    for number in 0..6 {
        tally.given("cut", &Input::new(&cut, &[number]), 16, random);
        tally.given(
            "cut, then a leaf",
            &Input::new(&cut, &[number, 6]),
            16,
            random,
        );
        tally.given(
            "a leaf, then cut",
            &Input::new(&cut, &[6, number]),
            15,
            random,
        );
    }

    let deep = deepened(k());
    let of = |generation| {
        let leaves = deep.leaves();
        let leaves = leaves.filter(move |(_, leaf)| leaf.generation == generation);
        leaves.map(|(number, _)| number as u16).collect::<Vec<_>>()
    };
    let (last, before) = (of(15), of(14));
    assert!(!last.is_empty() && !before.is_empty());
    for &number in &last {
        tally.given("of 15", &Input::new(&deep, &[number]), 17, random);
        tally.given(
            "cut and of 15",
            &Input::new(&deep, &[0, number]),
            16,
            random,
        );
    }
    tally.given("all of 15", &Input::new(&deep, &last), 17, random);
    for &number in before.iter().take(8) {
        let finer = tally.accepted("of 14", &Input::new(&deep, &[number]), random);
        assert_eq!(tmb_check(&finer.bytes()).deepest, 15);
    }
}

/// 10, and each other refusal of check's, whatever the selection.
fn refused_meshes(tally: &mut Tally, random: &mut Random) {
    let k = k();
    let good = Input::new(&k, &[0]);
    for length in 0..good.mesh.len() {
        let mut other = good.clone();
        other.mesh.truncate(length);
        tally.given("K's first bytes", &other, 1, random);
    }
    for at in [0, 1, 2, 3, 4, 19] {
        for bit in 0..8 {
            let mut other = good.clone();
            other.mesh[at] ^= 1 << bit;
            tally.given("K's mark, version or byte 19", &other, 2, random);
            other.selection.clear();
            tally.given("and no selection", &other, 2, random);
        }
    }
    // The version, the count of base vertices, a coordinate, the generation, a mark.
    for (at, byte, number) in [(3, 2, 2), (12, 4, 3), (20, 16, 4), (74, 1, 5), (70, 0, 6)] {
        for selection in [good.selection.clone(), Vec::new()] {
            let mut other = Input {
                mesh: good.mesh.clone(),
                selection,
            };
            other.mesh[at] = byte;
            tally.given("a byte of K's", &other, number, random);
        }
    }
    // One of the cube's six cut alone.
    for number in 0..6 {
        let mut open = built(&cubes([1, 1, 1], 64), 3);
        assert!(cut_alone(&mut open, number));
        tally.given("not closed", &Input::new(&open, &[6]), 10, random);
        tally.given(
            "not closed, another job",
            &Input::of(&open, 4, 0, &[6]),
            10,
            random,
        );
        open.round = 65_535;
        tally.given(
            "not closed, the last round",
            &Input::new(&open, &[]),
            10,
            random,
        );
    }
    // A corner of another piece in one of the cube's six.
    for number in 0..6 {
        let mut hung = built(&cubes([1, 1, 1], 64), 3);
        assert!(hang_a_piece(&mut hung, number, random));
        for input in [
            Input::new(&hung, &[number as u16]),
            Input::of(&hung, 4, 0, &[]),
            Input::new(&hung, &[7]),
        ] {
            tally.given("a vertex hangs", &input, 23, random);
        }
    }
}

/// Pieces apart: the vertices are full after four cuts, or from the start.
fn full_vertices(tally: &mut Tally, random: &mut Random) {
    let mesh = built(&separate(255), 2);
    let full = tally.accepted("four cuts", &Input::new(&mesh, &[9, 20, 30, 254]), random);
    assert_eq!(full.vertices.len(), MOST_VERTICES);
    tally.given("five", &Input::new(&mesh, &[0, 1, 2, 3, 4]), 19, random);
    tally.given("all", &Input::new(&mesh, &open_leaves(&mesh)), 19, random);
    tally.given("one more", &Input::new(&full, &[0]), 19, random);
    tally.accepted("nothing more", &Input::new(&full, &[]), random);
    let mesh = built(&separate(256), 2);
    for number in (0..256).step_by(3) {
        tally.given(
            "1,024 base vertices",
            &Input::new(&mesh, &[number]),
            19,
            random,
        );
    }
    let mut last = mesh.clone();
    last.round = 65_535;
    tally.given("18 before 19", &Input::new(&last, &[0]), 18, random);
}

/// A ladder, marked so that cutting its first piece cuts each one after it.
fn marked_ladder(pieces: u16) -> Mesh {
    ladder(pieces).marked(7, &vec![LADDER; usize::from(pieces)])
}

/// What cutting the first of a ladder's pieces gives: each rung but the lowest is halved, and every
/// piece but the first is cut into four.
fn ladder_cut(pieces: u16) -> [usize; 2] {
    let pieces = usize::from(pieces);
    [3 * pieces + 2, 7 * pieces - 4]
}

/// A ladder of 340 pieces: cutting the first closes in 341 passes.
fn long_ladder(tally: &mut Tally, random: &mut Random) {
    let input = Input::new(&marked_ladder(340), &[0]);
    let cut = tally.accepted("the ladder", &input, random);
    assert_eq!(counts(&cut), ladder_cut(340));
    assert_eq!(counts(&cut), [1_022, 2_376]);
}

/// Vertices and records of a part that is closed alone, its record 0 named.
fn closed_alone(tally: &mut Tally, part: &Mesh, random: &mut Random) -> [usize; 2] {
    let closed = tally.accepted("the part alone", &Input::new(part, &[0]), random);
    tally.also_renumbered(part, &[0], &closed, random);
    counts(&closed)
}

/// Closing a ladder fills the vertices, or would take one or two more than there may be: other pieces
/// stand apart, and stay as they are.
fn vertices_by_closing(tally: &mut Tally, random: &mut Random) {
    for pieces in [3, 4, 10, 20, 40] {
        let part = marked_ladder(pieces);
        let [vertices, records] = closed_alone(tally, &part, random);
        assert_eq!([vertices, records], ladder_cut(pieces));
        for past in 0..3 {
            let apart = scattered(MOST_VERTICES + past - vertices);
            let reached = [vertices + apart.places.len(), records + apart.pieces.len()];
            assert_eq!(reached[0], MOST_VERTICES + past);
            assert!(reached[1] < MOST_RECORDS, "the records have room");
            let mesh = beside(&part, &apart.built(9));
            tally.closing(&mesh, reached, random);
        }
    }
}

/// Closing the part fills the records, or would take one or two more than there may be: before the last
/// cut there is room for two, for one or for none. A block stands apart, and stays as it is.
fn records_by_closing(tally: &mut Tally, part: &Mesh, random: &mut Random) {
    let [vertices, records] = closed_alone(tally, part, random);
    for past in 0..3 {
        let apart = block(MOST_RECORDS + past - records);
        let reached = [vertices + apart.places.len(), records + apart.pieces.len()];
        assert!(reached[0] < MOST_VERTICES, "the vertices have room");
        assert_eq!(reached[1], MOST_RECORDS + past);
        let mesh = beside(part, &apart.built(9));
        tally.closing(&mesh, reached, random);
    }
}

fn records_by_ladders(tally: &mut Tally, random: &mut Random) {
    for pieces in [3, 10] {
        records_by_closing(tally, &marked_ladder(pieces), random);
    }
}

/// The cube, and pieces joined and marked anyhow.
fn records_by_other_parts(tally: &mut Tally, random: &mut Random) {
    let cube = built(&cubes([1, 1, 1], 64).mixed(random), 3);
    records_by_closing(tally, &cube, random);
    let part = loop {
        let mesh = random_base(random, 6);
        let [_, records] = closed_alone(tally, &mesh, random);
        if records > mesh.records.len() + 4 {
            break mesh;
        }
    };
    records_by_closing(tally, &part, random);
}

/// Closing a ladder fills both tables: the largest mesh. Or it would fill one, and take one more than the
/// other may have.
fn largest_by_closing(tally: &mut Tally, random: &mut Random) {
    for (pieces, others, past) in [
        (2_603, 209, [0, 0]),
        (2_602, 210, [1, 0]),
        (2_604, 209, [0, 1]),
    ] {
        let apart = [block(pieces), scattered(others)];
        let mut reached = ladder_cut(60);
        let mut mesh = marked_ladder(60);
        for plain in apart {
            reached[0] += plain.places.len();
            reached[1] += plain.pieces.len();
            mesh = beside(&mesh, &plain.built(9));
        }
        assert_eq!(reached, [MOST[0] + past[0], MOST[1] + past[1]]);
        tally.closing(&mesh, reached, random);
    }
}

/// A block but for a few pieces, and a piece apart: cutting that makes two records more.
fn full_records(tally: &mut Tally, random: &mut Random) {
    for (pieces, number) in [(MOST_RECORDS - 2, 0), (MOST_RECORDS - 1, 19)] {
        let mesh = beside(&block(pieces - 1).built(5), &k());
        let input = Input::new(&mesh, &[pieces as u16 - 1]);
        tally.given("a block and a piece apart", &input, number, random);
    }
}

/// Both tables full: "The largest mesh is 62,484 bytes."
fn full_tables(tally: &mut Tally, random: &mut Random) {
    let mesh = filled(built(&separate(48), 1), random);
    assert_eq!(mesh.bytes().len(), LARGEST_MESH);
    let none = Input::new(&mesh, &[]);
    tally.accepted("full tables, nothing named", &none, random);
    let (number, out) = tally.call("full tables", &none, LARGEST_MESH - 1, random);
    assert_eq!((number, out), (20, vec![0; LARGEST_MESH - 1]));
    let named = random.pick(&open_leaves(&mesh)).expect("a leaf");
    tally.given("full tables", &Input::new(&mesh, &[named]), 19, random);
}

/// Round after round, a deepest leaf named each time, until one has generation 15: the first of them, or
/// any, which cuts more.
fn to_generation_15(tally: &mut Tally, random: &mut Random) {
    let mut mesh = match random.below(12) {
        0 => cubes([1, 1, 1], 64).mixed(random).marked_anyhow(random),
        1..=3 => k(),
        _ => {
            let pieces = 1 + random.below(4);
            joined(random, pieces).marked_anyhow(random)
        }
    };
    let any = random.one_in(2);
    loop {
        let deepest = mesh.leaves().map(|(_, leaf)| leaf.generation).max();
        let leaves = mesh.leaves();
        let leaves = leaves.filter(|(_, leaf)| Some(leaf.generation) == deepest);
        let mut leaves: Vec<u16> = leaves.map(|(number, _)| number as u16).collect();
        if !any {
            leaves.truncate(1);
        }
        let numbers = [random.pick(&leaves).expect("a leaf")];
        let input = Input::new(&mesh, &numbers);
        if deepest == Some(15) {
            return tally.given("of 15", &input, 17, random);
        }
        let finer = match tally.compare("a deepest leaf", &input, random) {
            Ok(bytes) => read(&bytes),
            Err(number) => return assert_eq!(number, 19, "a deepest leaf"),
        };
        if random.one_in(4) {
            tally.also_renumbered(&mesh, &numbers, &finer, random);
        }
        // Some chains go on in another numbering.
        mesh = match random.one_in(8) {
            true => renumbered(&finer, random),
            false => finer,
        };
    }
}

/// Round after round until the tables are full: half of the leaves are named at first, and after each 19
/// a quarter as many, down to very few.
fn to_full_tables(tally: &mut Tally, random: &mut Random) {
    let mut mesh = match random.below(3) {
        0 => k(),
        1 => built(&separate(40 + random.below(60)), 4),
        _ => random_base(random, 6),
    };
    let mut refused = 0;
    while refused < 5 {
        let mut numbers = open_leaves(&mesh);
        random.shuffle(&mut numbers);
        numbers.truncate((numbers.len() >> (2 * refused + 1)).max(1));
        numbers.sort_unstable();
        match tally.compare("towards full tables", &Input::new(&mesh, &numbers), random) {
            Ok(bytes) => mesh = read(&bytes),
            Err(number) => {
                assert_eq!(number, 19, "towards full tables");
                refused += 1;
            }
        }
    }
}

/// Refined round after round by random selections; each result is the next round's mesh. Bytes of the
/// mesh and of the selection are damaged on the way.
fn rounds(tally: &mut Tally, mut mesh: Mesh, random: &mut Random) {
    for _ in 0..3 + random.below(4) {
        let numbers = match random.below(10) {
            0 => Vec::new(),
            _ => chosen_anyhow(&mesh, random),
        };
        let input = Input::new(&mesh, &numbers);
        for _ in 0..4 {
            tally
                .compare("bytes replaced", &input.bytes_replaced(random), random)
                .ok();
        }
        match tally.compare("a round", &input, random) {
            Ok(bytes) => {
                let finer = read(&bytes);
                if random.one_in(2) {
                    tally.also_renumbered(&mesh, &numbers, &finer, random);
                }
                mesh = finer;
            }
            Err(number) => return assert_eq!(number, 19, "a round"),
        }
        let again = Input {
            mesh: mesh.bytes(),
            selection: input.selection,
        };
        tally.given("the same selection again", &again, 14, random);
        if mesh.records.len() > 300 {
            return;
        }
    }
}

/// K and cubes, built by the proved build and refined.
fn jobs(tally: &mut Tally, random: &mut Random) {
    let job = random.number() as u32;
    let mesh = match random.below(4) {
        0 => Mesh { job, ..k() },
        1 => built(&cubes([1, 1, 1], 64), job),
        2 => built(&cubes([1, 1, 1], 32).mixed(random), job),
        _ => built(&cubes([2, 1, 1], 96).mixed(random), job),
    };
    rounds(tally, mesh, random);
}

/// Pieces joined and marked anyhow, half of them numbered otherwise than refine numbers.
fn other_meshes(tally: &mut Tally, random: &mut Random) {
    let mut mesh = random_base(random, 6);
    if random.one_in(2) {
        for _ in 0..2 {
            let input = Input::new(&mesh, &chosen_anyhow(&mesh, random));
            mesh = tally.accepted("before another numbering", &input, random);
        }
        mesh = renumbered(&mesh, random);
    }
    rounds(tally, mesh, random);
}

/// A piece of each marking, and so of each type: all leaves cut until generation 4, the flag set and
/// unset, or some leaves in more rounds.
fn singles(tally: &mut Tally, random: &mut Random) {
    for mut mesh in single_pieces(random) {
        let all = random.one_in(2);
        for _ in 0..if all { 4 } else { 8 } {
            let numbers = match all {
                true => open_leaves(&mesh),
                false => chosen_anyhow(&mesh, random),
            };
            let finer = tally.accepted("a single piece", &Input::new(&mesh, &numbers), random);
            if random.one_in(4) {
                tally.also_renumbered(&mesh, &numbers, &finer, random);
            }
            mesh = finer;
        }
    }
}

/// Selections wrong in several ways together: the first rule broken names the refusal.
fn wrong_selections(tally: &mut Tally, random: &mut Random) {
    let mesh = deepened(k());
    for _ in 0..20 {
        wrong_selection(tally, mesh.clone(), random);
    }
}

/// Wrong selections of a mesh whose vertices are full: no cut has room.
fn wrong_on_full_tables(tally: &mut Tally, random: &mut Random) {
    let apart = MOST_VERTICES - deepened(k()).vertices.len();
    let mesh = deepened(beside(&k(), &built(&scattered(apart), 7)));
    assert_eq!(mesh.vertices.len(), MOST_VERTICES);
    for _ in 0..20 {
        wrong_selection(tally, mesh.clone(), random);
    }
}

/// Each of 11 to 18 broken or not, at random; 19 too, if the mesh has no room.
fn wrong_selection(tally: &mut Tally, mut mesh: Mesh, random: &mut Random) {
    let mut broken = [false; 8].map(|_| random.one_in(12));
    // One at least, most of the time.
    broken[random.below(8)] |= !random.one_in(8);
    let [length, mark, job, round, order, cut, last, rounds] = broken;
    let mut numbers = open_leaves(&mesh);
    random.shuffle(&mut numbers);
    numbers.truncate(1 + random.below(3));
    let any = |random: &mut Random, wanted: &dyn Fn(&Record) -> bool| {
        let found = (0..mesh.records.len()).filter(|&number| wanted(&mesh.records[number]));
        let found = random.pick(&found.collect::<Vec<_>>());
        found.expect("a record") as u16
    };
    if last {
        let deepest = |record: &Record| record.is_leaf() && record.generation == 15;
        numbers.push(any(random, &deepest));
    }
    if cut {
        numbers.push(any(random, &|record| !record.is_leaf()));
    }
    numbers.sort_unstable();
    if order {
        match random.below(4) {
            0 => numbers.push(mesh.records.len() as u16 + random.below(2) as u16),
            1 => numbers.push(65_535),
            2 => numbers.push(numbers[numbers.len() - 1]),
            _ => numbers.insert(0, mesh.records.len() as u16 - 1),
        }
    }
    if rounds {
        mesh.round = 65_535;
    }
    let mut input = Input::of(
        &mesh,
        if job {
            mesh.job ^ 1 << random.below(32)
        } else {
            mesh.job
        },
        if round {
            mesh.round ^ 1 << random.below(16)
        } else {
            mesh.round
        },
        &numbers,
    );
    if mark {
        input.selection[random.below(5)] ^= 1 << random.below(8);
    }
    if length {
        match random.below(4) {
            0 => input.selection.push(0),
            1 => input.selection.truncate(input.selection.len() - 2),
            2 => input.selection[11..13].fill(255),
            _ => input.selection[11] ^= 1 << random.below(8),
        }
    }
    // The places are in the order of the numbers 11 to 18, and 19 comes after them.
    let full = mesh.vertices.len() == MOST_VERTICES;
    let rules = (11..).zip(broken.into_iter().chain([full]));
    let rules: Vec<u32> = rules
        .filter_map(|(number, broken)| broken.then_some(number))
        .collect();
    let number = rules.first().copied().unwrap_or(0);
    tally.given("a wrong selection", &input, number, random);
    tally.at_once += u64::from(rules.len() > 1);
}

/// Damaged meshes: refine's number is check's, whatever the selection; where check accepts the mesh all
/// the same, the selection decides.
fn damaged_meshes(tally: &mut Tally, random: &mut Random) {
    let mut mesh = random_base(random, 4);
    for _ in 0..random.below(4) {
        let input = Input::new(&mesh, &chosen_anyhow(&mesh, random));
        mesh = tally.accepted("before damage", &input, random);
    }
    for _ in 0..20 {
        let (name, other) = damaged(&mesh, random);
        let mut input = Input::new(&other, &chosen_anyhow(&mesh, random));
        if random.one_in(3) {
            input = Input {
                selection: input.bytes_replaced(random).selection,
                ..input
            };
        }
        let number = tmb_check(&input.mesh).number as u32;
        let answer = tally.compare(&name, &input, random);
        if number != 0 {
            assert_eq!(answer, Err(number), "{name}");
        }
    }
}

#[test]
fn the_proved_refine_and_the_second_agree() {
    let seed = seed();
    let random_parts = RANDOM
        .into_iter()
        .flat_map(|(part, times)| vec![part; times]);
    let tasks: Vec<Part> = LISTED.into_iter().chain(random_parts).collect();
    let next = AtomicUsize::new(0);
    let work = || {
        let mut tally = Tally::default();
        loop {
            let number = next.fetch_add(1, Ordering::Relaxed);
            let Some(part) = tasks.get(number) else {
                return tally;
            };
            // The same numbers whichever thread takes the task.
            let mut random = Random::new(seed ^ (number as u64 + 1) << 32);
            let before = tally.both.inputs;
            part(&mut tally, &mut random);
            if number >= LISTED.len() {
                tally.random += tally.both.inputs - before;
            }
        }
    };
    let mut tally = Tally::default();
    std::thread::scope(|scope| {
        let threads = [scope.spawn(work), scope.spawn(work)];
        for thread in threads {
            match thread.join() {
                Ok(part) => tally.add(&part),
                Err(panic) => std::panic::resume_unwind(panic),
            }
        }
    });

    let both = &tally.both;
    // Not by println, which a passing test keeps to itself.
    let mut out = std::io::stdout().lock();
    let mut line = |text: String| writeln!(out, "refine compared: {text}").expect("a line");
    line(format!(
        "seed {seed} (COMPARED_SEED), {} inputs, {} of them random, {} calls",
        both.inputs, tally.random, both.calls
    ));
    for number in NUMBERS {
        line(format!("number {number}: {}", both.numbers[number]));
    }
    line(format!(
        "buffers of 0, one less, the result, full-size, longer {:?}",
        both.rooms
    ));
    line(format!(
        "buffers shorter than any result, and 11 to 19: {}",
        both.before_20
    ));
    line(format!("several of 11 to 19 broken in {}", tally.at_once));
    line(format!("more cut than named in {}", tally.closed));
    line(format!(
        "deeper than what was there and what was named in {}, generation 15 in {}",
        tally.deeper, tally.deepest
    ));
    line(format!(
        "the same cuts in another numbering in {}",
        tally.renumbered
    ));
    line(format!("1,024 vertices, 3,072 records in {:?}", tally.full));
    line(format!(
        "closings to 1,024 vertices, one and two past, {:?}; to 3,072 records {:?}",
        tally.closings[0], tally.closings[1]
    ));
    line(format!("19 after earlier rounds: {}", tally.rounds_to_19));

    assert!(both.inputs >= FEWEST);
    assert!(tally.random >= FEWEST_RANDOM);
    assert!(both.numbers[0] >= FEWEST_ACCEPTED);
    let mut others = both.numbers;
    for number in NUMBERS {
        let times = std::mem::take(&mut others[number]);
        assert!(times >= FEWEST_OF_EACH, "number {number}: {times} times");
    }
    assert_eq!(others, [0; 31], "no other number");
    assert!(both.rooms.iter().all(|&times| times >= 1_000));
    assert!(both.before_20 >= 1_000);
    assert!(tally.at_once >= 500);
    assert!(tally.closed >= 3_000);
    assert!(tally.deeper >= 500);
    assert!(tally.deepest >= 50);
    assert!(tally.renumbered >= 1_000);
    assert!(tally.rounds_to_19 >= 15);
    assert!(tally.full.iter().all(|&times| times >= 5));
    assert!(tally
        .closings
        .as_flattened()
        .iter()
        .all(|&times| times >= 4));
}
