//! The proved take-back, through `tmb_take_back`, compared with the second program's on many inputs:
//! number and every byte of the output buffer. COMPARED_SEED in the environment gives another seed.

use compared::damage::{damaged, hang_a_piece};
use compared::meshes::{
    chosen_anyhow, cubes, cut_alone, cut_records, deepened, filled, joined, ladder, open_leaves,
    random_base, refined, ring, round_an_edge, separate, single_pieces, LADDER, RING,
};
use compared::named::{
    also_named, built, counts, greatest, k, read, same_records, seed, wrong_jobs_and_rounds,
    wrong_lengths, wrong_marks, Case, Compared, Input, REFINE, TAKE_BACK,
};
use compared::random::Random;
use compared::renumber::renumbered;
use compared::tmb_check;
use second::mesh::{Mesh, Record, NO_NUMBER};
use second::piece::ends;
use second::{check, LARGEST_MESH};
use std::collections::BTreeMap;
use std::io::Write;
use std::sync::atomic::{AtomicUsize, Ordering};

/// The numbers that take-back can give, in the order in which their rules are tried; 0 last.
const NUMBERS: [usize; 21] = [
    1, 2, 3, 4, 5, 22, 6, 7, 8, 23, 9, 10, 11, 12, 13, 14, 15, 30, 18, 20, 0,
];

/// The fewest inputs, the fewest of them that are random, the fewest that are accepted, and the fewest of
/// each number that take-back can give.
const FEWEST: u64 = 25_000;
const FEWEST_RANDOM: u64 = 23_000;
const FEWEST_ACCEPTED: u64 = 8_000;
const FEWEST_OF_EACH: u64 = 100;

/// The made vertices, each with the records that are cut at it.
fn cut_at(mesh: &Mesh) -> BTreeMap<usize, Vec<usize>> {
    let made = mesh.vertices.iter().enumerate().skip(mesh.base_vertices);
    let numbers: BTreeMap<[u16; 2], usize> = made
        .map(|(number, vertex)| (vertex.parents, number))
        .collect();
    let mut cut: BTreeMap<usize, Vec<usize>> = BTreeMap::new();
    for number in all_cut(mesh) {
        let record = &mesh.records[number];
        let (p, q) = ends(record, record.edge).expect("an edge code");
        cut.entry(numbers[&[p, q]]).or_default().push(number);
    }
    cut
}

fn all_cut(mesh: &Mesh) -> Vec<usize> {
    cut_records(mesh).into_iter().map(usize::from).collect()
}

/// Whether both children of a cut record are leaves.
fn is_ready(mesh: &Mesh, number: usize) -> bool {
    let first = usize::from(mesh.records[number].first_child);
    mesh.records[first].is_leaf() && mesh.records[first + 1].is_leaf()
}

/// As a request names them.
fn in_order(mut numbers: Vec<usize>) -> Vec<u16> {
    numbers.sort_unstable();
    numbers.dedup();
    numbers.into_iter().map(|number| number as u16).collect()
}

/// A random request of cut records: none, all, those with leaves as children, those cut at some vertices,
/// all but one of those, one with a child that is cut, or any.
fn named_anyhow(mesh: &Mesh, random: &mut Random) -> Vec<u16> {
    let all = all_cut(mesh);
    let vertices: Vec<Vec<usize>> = cut_at(mesh).into_values().collect();
    if vertices.is_empty() {
        return Vec::new();
    }
    let some = |random: &mut Random| {
        let mut some = Vec::new();
        for _ in 0..1 + random.below(3) {
            some.extend(&vertices[random.below(vertices.len())]);
        }
        some
    };
    in_order(match random.below(12) {
        0 => Vec::new(),
        1..=2 => all,
        3 => {
            let mut ready = all;
            ready.retain(|&number| is_ready(mesh, number));
            ready
        }
        4..=5 => some(random),
        6..=7 => {
            let mut some = some(random);
            some.swap_remove(random.below(some.len()));
            some
        }
        8..=9 => {
            let mut nested = all;
            nested.retain(|&number| !is_ready(mesh, number));
            let Some(number) = random.pick(&nested) else {
                return in_order(some(random));
            };
            let first = usize::from(mesh.records[number].first_child);
            let children = [first, first + 1];
            let cut = children
                .iter()
                .find(|&&child| !mesh.records[child].is_leaf());
            let cut = cut.expect("a child that is cut");
            // With all that are cut where the child is, or without.
            let mut named = match random.one_in(2) {
                true => Vec::new(),
                false => {
                    let with = vertices.iter().find(|cuts| cuts.contains(cut));
                    with.expect("its vertex").clone()
                }
            };
            named.extend([number, *cut]);
            named
        }
        _ => {
            let mut any = all;
            let share = 1 + random.below(3);
            any.retain(|_| random.below(4) < share);
            any
        }
    })
}

/// What was compared.
#[derive(Default)]
struct Tally {
    both: Compared,
    /// Those of the inputs that are random.
    random: u64,
    /// Inputs that break several of the rules 11 to 15, 30 and 18.
    at_once: u64,
    /// Accepted inputs in which a vertex goes, in which a named record stays cut all the same, and in
    /// which records are named and no vertex goes.
    gone: u64,
    partly: u64,
    nothing: u64,
    /// Accepted inputs that name a record together with a child of its that is cut; those of them in which
    /// the child becomes a leaf.
    nested: u64,
    nested_gone: u64,
    /// Accepted inputs in which a vertex stays only because a record that is cut at it is not named, while
    /// another is.
    not_all: u64,
    /// Accepted inputs in which a vertex goes at which several records are cut.
    several: u64,
    /// Accepted inputs in which a piece of generation 15 goes.
    deepest: u64,
    /// Accepted inputs in which all cut records are named, there are some, and no vertex goes: rings.
    stuck: u64,
    /// Results that were refined again, by both programs alike.
    refined: u64,
    /// Accepted inputs that were accepted in another numbering too, and the same goes, with something
    /// going.
    renumbered: u64,
    /// Refinements undone, to the byte but for the round; and those that a ring keeps from it.
    undone: u64,
    kept_by_a_ring: u64,
    /// Meshes taken back to their base.
    to_base: u64,
}

impl Tally {
    /// One input with several output buffers. Gives the result, or the number where the buffer is long
    /// enough.
    fn compare(&mut self, name: &str, input: &Input, random: &mut Random) -> Result<Vec<u8>, u32> {
        let answer = self.both.compare(&TAKE_BACK, name, input, random);
        if let Ok(result) = &answer {
            self.judge(name, input, result);
            self.refine_again(name, &read(result), random);
        }
        answer
    }

    /// Whatever take-back accepts, check accepts, with the volume that was there. By the request's own
    /// sentence: "A made vertex is taken away exactly when every record cut at it has two leaves as
    /// children and all those records are named; named records that don't meet this stay cut. Records and
    /// vertices that remain close up in their order, and the round rises by 1."
    fn judge(&mut self, name: &str, input: &Input, result: &[u8]) {
        let (before, report) = (check(&input.mesh), tmb_check(result));
        assert_eq!(report, check(result), "{name}");
        assert_eq!(report.number, 0, "{name}");
        assert_eq!(report.sixfold, before.sixfold, "{name}");
        let (old, new) = (read(&input.mesh), read(result));
        assert_eq!((new.job, new.round), (old.job, old.round + 1), "{name}");
        assert_eq!(new.base_vertices, old.base_vertices, "{name}");
        assert_eq!(new.base_records, old.base_records, "{name}");

        let mut is_named = vec![false; old.records.len()];
        for number in input.numbers() {
            is_named[usize::from(number)] = true;
        }
        let cut_at = cut_at(&old);
        let mut vertices: Vec<usize> = (0..old.vertices.len()).collect();
        let mut records: Vec<usize> = (0..old.records.len()).collect();
        let mut uncut = vec![false; old.records.len()];
        for (vertex, cut) in &cut_at {
            if !cut.iter().all(|&n| is_named[n] && is_ready(&old, n)) {
                let ready = cut.iter().all(|&n| is_ready(&old, n));
                self.not_all += u64::from(ready && cut.iter().any(|&n| is_named[n]));
                continue;
            }
            vertices.retain(|other| other != vertex);
            for &number in cut {
                uncut[number] = true;
                let first = usize::from(old.records[number].first_child);
                records.retain(|&other| other != first && other != first + 1);
            }
            self.several += u64::from(cut.len() > 1);
        }

        assert_eq!(counts(&new), [vertices.len(), records.len()], "{name}");
        // Each number that is written is the new one of what was meant before.
        for (now, &was) in new.vertices.iter().zip(&vertices) {
            let was_made = was >= old.base_vertices;
            let was = &old.vertices[was];
            assert_eq!(now.place, was.place, "{name}");
            let parents = match was_made {
                true => now
                    .parents
                    .map(|parent| vertices[usize::from(parent)] as u16),
                false => now.parents,
            };
            assert_eq!(parents, was.parents, "{name}");
        }
        for (now, &number) in new.records.iter().zip(&records) {
            let was = &old.records[number];
            let corners = now
                .corners
                .map(|corner| vertices[usize::from(corner)] as u16);
            let first_child = match now.first_child {
                NO_NUMBER => NO_NUMBER,
                first => records[usize::from(first)] as u16,
            };
            let wanted = match uncut[number] {
                true => NO_NUMBER,
                false => was.first_child,
            };
            assert_eq!(first_child, wanted, "{name}: {number}");
            let again = Record {
                corners,
                first_child: was.first_child,
                ..*now
            };
            assert_eq!(again, *was, "{name}: {number}");
        }
        self.count(&old, &is_named, &uncut);
    }

    fn count(&mut self, old: &Mesh, is_named: &[bool], uncut: &[bool]) {
        let cut = all_cut(old);
        let gone = uncut.iter().any(|&uncut| uncut);
        let some = |of: &dyn Fn(usize) -> bool| cut.iter().any(|&number| of(number));
        self.gone += u64::from(gone);
        self.partly += u64::from(gone && some(&|n| is_named[n] && !uncut[n]));
        self.nothing += u64::from(!gone && some(&|n| is_named[n]));
        self.stuck += u64::from(!gone && !cut.is_empty() && cut.iter().all(|&n| is_named[n]));
        let children = |n: usize| [0, 1].map(|next| usize::from(old.records[n].first_child) + next);
        let nested = |n: usize| is_named[n] && children(n).iter().any(|&child| is_named[child]);
        let nested_gone = |n: usize| nested(n) && children(n).iter().any(|&child| uncut[child]);
        self.nested += u64::from(some(&nested));
        self.nested_gone += u64::from(some(&nested_gone));
        self.deepest += u64::from(some(&|n| uncut[n] && old.records[n].generation == 14));
    }

    /// Refine takes the result as any other mesh, and both programs refine it alike. 18 comes in the last
    /// round, and 19 may, where the tables are nearly full.
    fn refine_again(&mut self, name: &str, mesh: &Mesh, random: &mut Random) {
        let input = Input::new(mesh, &chosen_anyhow(mesh, random));
        let (number, out) = self.refined(name, &input, random);
        match mesh.round {
            65_535 => assert_eq!(number, 18, "{name}, refined"),
            _ => assert!([0, 19].contains(&number), "{name}, refined: {number}"),
        }
        if number == 0 {
            let bytes = finer_bytes(&out);
            assert_eq!(tmb_check(bytes).number, 0, "{name}, refined");
            self.refined += 1;
        }
    }

    /// Refine, with a full-size buffer. This is no input of take-back's.
    fn refined(&mut self, name: &str, input: &Input, random: &mut Random) -> (u32, Vec<u8>) {
        let mut other = Compared::default();
        other.call(&REFINE, name, input, LARGEST_MESH, random)
    }

    /// The input must get that number, from both.
    fn given(&mut self, name: &str, input: &Input, number: u32, random: &mut Random) {
        let answer = self.compare(name, input, random).err().unwrap_or(0);
        assert_eq!(answer, number, "{name}");
    }

    /// So must each of these.
    fn all_given(&mut self, cases: Vec<Case>, random: &mut Random) {
        for (name, input, number) in cases {
            self.given(name, &input, number, random);
        }
    }

    /// The input must be accepted, by both: the mesh without the cuts.
    fn accepted(&mut self, name: &str, input: &Input, random: &mut Random) -> Mesh {
        match self.compare(name, input, random) {
            Ok(bytes) => read(&bytes),
            Err(number) => panic!("{name}: refused {number}"),
        }
    }

    /// The input must be accepted, and only the round be another.
    fn nothing_goes(&mut self, name: &str, mesh: &Mesh, numbers: &[u16], random: &mut Random) {
        let round = mesh.round + 1;
        let same = Mesh {
            round,
            ..mesh.clone()
        };
        let input = Input::new(mesh, numbers);
        assert_eq!(self.accepted(name, &input, random), same, "{name}");
    }

    /// Names all cut records again and again, until nothing goes.
    fn taken_back(&mut self, name: &str, mut mesh: Mesh, random: &mut Random) -> Mesh {
        loop {
            let input = Input::new(&mesh, &cut_records(&mesh));
            let coarser = self.accepted(name, &input, random);
            let same = counts(&coarser) == counts(&mesh);
            mesh = coarser;
            if same {
                self.to_base += u64::from(mesh.records.len() == mesh.base_records);
                return mesh;
            }
        }
    }

    /// What was accepted is accepted in another numbering too, and the same goes.
    fn also_renumbered(
        &mut self,
        mesh: &Mesh,
        numbers: &[u16],
        coarser: &Mesh,
        random: &mut Random,
    ) {
        let other = renumbered(mesh, random);
        let Some(others) = also_named(mesh, numbers, &other) else {
            return;
        };
        let other = self.accepted("renumbered", &Input::new(&other, &others), random);
        assert!(
            same_records(coarser, &other),
            "renumbered: something else goes"
        );
        self.renumbered += u64::from(counts(mesh) != counts(coarser));
    }

    /// Refined by that selection, and then what it cut is named again and again: where nothing of it is
    /// left, the mesh is the one before but for its round.
    fn undo(&mut self, mesh: &Mesh, numbers: &[u16], random: &mut Random) {
        let (number, out) = self.refined("before", &Input::new(mesh, numbers), random);
        if number != 0 {
            return assert_eq!(number, 19, "before");
        }
        let mut finer = read(finer_bytes(&out));
        let was_leaf = |&number: &usize| mesh.records.get(number).is_none_or(Record::is_leaf);
        while counts(&finer) != counts(mesh) {
            let before = counts(&finer);
            let mut named = all_cut(&finer);
            named.retain(was_leaf);
            let input = Input::new(&finer, &in_order(named));
            finer = self.accepted("undone", &input, random);
            if counts(&finer) == before {
                self.kept_by_a_ring += 1;
                return;
            }
        }
        let round = finer.round;
        let same = Mesh {
            round,
            ..mesh.clone()
        };
        assert_eq!(finer, same, "undone");
        self.undone += 1;
    }

    fn add(&mut self, other: &Tally) {
        self.both.add(&other.both);
        self.random += other.random;
        self.at_once += other.at_once;
        self.gone += other.gone;
        self.partly += other.partly;
        self.nothing += other.nothing;
        self.nested += other.nested;
        self.nested_gone += other.nested_gone;
        self.not_all += other.not_all;
        self.several += other.several;
        self.deepest += other.deepest;
        self.stuck += other.stuck;
        self.refined += other.refined;
        self.renumbered += other.renumbered;
        self.undone += other.undone;
        self.kept_by_a_ring += other.kept_by_a_ring;
        self.to_base += other.to_base;
    }
}

/// The mesh at the beginning of a full-size buffer, as long as its header says.
fn finer_bytes(out: &[u8]) -> &[u8] {
    let count = |at: usize| usize::from(u16::from_le_bytes([out[at], out[at + 1]]));
    &out[..20 + 10 * count(13) + 17 * count(17)]
}

/// One part of the comparison.
type Part = fn(&mut Tally, &mut Random);

/// The parts that go through a list of inputs, and each part of random inputs with the times it is done,
/// each time with numbers of its own.
const LISTED: [Part; 14] = [
    ladders,
    full_tables,
    five_cubes,
    rings_of_build,
    rings,
    worked,
    worked_cube,
    of_generation_15,
    request_lengths,
    greatest_requests,
    request_marks,
    jobs_and_rounds,
    named_records,
    refused_meshes,
];
const RANDOM: [(Part, usize); 8] = [
    (ring_rounds, 40),
    (undone, 240),
    (to_the_base, 60),
    (jobs, 200),
    (other_meshes, 220),
    (singles, 4),
    (wrong_requests, 110),
    (damaged_meshes, 300),
];

/// Refined by the second program; there must be room.
fn finer(mesh: &Mesh, numbers: &[u16]) -> Mesh {
    refined(mesh, numbers).expect("there is room")
}

/// K refined by 0, then by 1 and 2; and then by 3 to 6.
fn k_refined() -> [Mesh; 4] {
    let none = k();
    let one = finer(&none, &[0]);
    let two = finer(&one, &[1, 2]);
    let three = finer(&two, &[3, 4, 5, 6]);
    [none, one, two, three]
}

fn of_round(mesh: &Mesh, round: u16) -> Mesh {
    Mesh {
        round,
        ..mesh.clone()
    }
}

/// The rows worked on K.
fn worked(tally: &mut Tally, random: &mut Random) {
    let [none, one, two, three] = k_refined();
    assert_eq!((counts(&two), two.round), ([7, 7], 2));
    let both = Input::new(&two, &[1, 2]);
    assert_eq!(tally.accepted("1 and 2", &both, random), of_round(&one, 3));
    tally.nothing_goes("0", &two, &[0], random);
    let alone = tally.accepted("1", &Input::new(&two, &[1]), random);
    assert_eq!(counts(&alone), [6, 5]);
    assert_eq!((counts(&three), three.round), ([10, 15], 3));
    tally.nothing_goes("4", &three, &[4], random);
    tally.nothing_goes("5", &three, &[5], random);
    let pair = tally.accepted("4 and 5", &Input::new(&three, &[4, 5]), random);
    assert_eq!((counts(&pair), pair.leaves().count()), ([9, 11], 6));
    for leaf in 7..15 {
        tally.given("a leaf", &Input::new(&three, &[leaf]), 30, random);
        let with = Input::new(&three, &[0, 4, 5, leaf]);
        tally.given("cut records and a leaf", &with, 30, random);
    }
    // One call is one step; an empty request changes the round alone.
    let all = Input::new(&three, &[0, 1, 2, 3, 4, 5, 6]);
    assert_eq!(tally.accepted("all", &all, random), of_round(&two, 4));
    for mesh in [&none, &one, &two, &three] {
        tally.nothing_goes("none", mesh, &[], random);
        let base = tally.taken_back("again and again", mesh.clone(), random);
        assert_eq!(base, of_round(&none, base.round));
    }
    for room in 0..=125 {
        let (number, out) = tally.both.call(&TAKE_BACK, "1 and 2", &both, room, random);
        let mut wanted = vec![0; room];
        if room >= 121 {
            wanted[..121].copy_from_slice(&of_round(&one, 3).bytes());
        }
        let accepted = if room < 121 { 20 } else { 0 };
        assert_eq!((number, out), (accepted, wanted), "{room} bytes");
    }
    // A request that was used is dead.
    let used = Input {
        mesh: of_round(&one, 3).bytes(),
        selection: both.selection,
    };
    tally.given("used", &used, 14, random);
}

/// Six records are cut at one vertex: the vertex goes where all are named.
fn worked_cube(tally: &mut Tally, random: &mut Random) {
    let cube = built(&cubes([1, 1, 1], 64), 3);
    let cut = finer(&cube, &[4]);
    for bits in 0..64 {
        let named: Vec<u16> = (0..6).filter(|bit| bits >> bit & 1 == 1).collect();
        if named.len() < 6 {
            tally.nothing_goes("some of six", &cut, &named, random);
        } else {
            let input = Input::new(&cut, &named);
            assert_eq!(
                tally.accepted("all six", &input, random),
                of_round(&cube, 2)
            );
        }
    }
}

/// "Pieces abcd, cdef, efab of type O, refined at ab, cd, ef: none can ever go"; and longer rings.
fn rings(tally: &mut Tally, random: &mut Random) {
    for pieces in 3..=12 {
        let base = marked_ring(pieces);
        assert_eq!(tmb_check(&base.bytes()).number, 0);
        for first in 0..pieces {
            let cut = finer(&base, &[first]);
            let [vertices, records] = [3, 7].map(|times| times * usize::from(pieces));
            assert_eq!(counts(&cut), [vertices, records]);
            tally.nothing_goes("a ring", &cut, &cut_records(&cut), random);
            let mut ready = all_cut(&cut);
            ready.retain(|&number| is_ready(&cut, number));
            tally.nothing_goes("those with leaves", &cut, &in_order(ready), random);
            let again = tally.taken_back("a ring, again and again", cut.clone(), random);
            assert_eq!(again, of_round(&cut, again.round));
        }
        let cut = finer(&base, &[0]);
        tally.undo(&cut, &open_leaves(&cut), random);
    }
}

/// Build's own marks can hold each other too: all leaves named in two rounds go back to the base, in three
/// and more they don't.
fn rings_of_build(tally: &mut Tally, random: &mut Random) {
    let base = built(&round_an_edge(), 7);
    let mut mesh = base.clone();
    for (rounds, left) in [(1, 3), (2, 3), (3, 77), (4, 77), (5, 243)] {
        mesh = finer(&mesh, &open_leaves(&mesh));
        let back = tally.taken_back("build's marks", mesh.clone(), random);
        assert_eq!(back.records.len(), left, "{rounds} rounds");
    }
}

fn marked_ring(pieces: u16) -> Mesh {
    ring(pieces).marked(7, &vec![RING; usize::from(pieces)])
}

/// A ladder's closing goes rung by rung: each midpoint is kept by the piece on its other side until that
/// one's own is gone.
fn ladders(tally: &mut Tally, random: &mut Random) {
    for pieces in [2, 3, 10, 120] {
        let ladder = ladder(pieces).marked(7, &vec![LADDER; usize::from(pieces)]);
        let cut = finer(&ladder, &[0]);
        let base = tally.taken_back("a ladder", cut, random);
        assert_eq!(base, of_round(&ladder, base.round));
        // One step for each rung but the lowest, and one in which nothing goes.
        assert!(base.round > pieces, "{pieces}: {}", base.round);
    }
}

/// Both tables full: "The largest mesh is 62,484 bytes."
fn full_tables(tally: &mut Tally, random: &mut Random) {
    let mesh = filled(built(&separate(48), 1), random);
    assert_eq!(mesh.bytes().len(), LARGEST_MESH);
    let none = Input::new(&mesh, &[]);
    tally.nothing_goes("full tables, nothing named", &mesh, &[], random);
    let room = LARGEST_MESH - 1;
    let (number, out) = tally
        .both
        .call(&TAKE_BACK, "full tables", &none, room, random);
    assert_eq!((number, out), (20, vec![0; room]));
    tally.also_renumbered(&mesh, &[], &of_round(&mesh, mesh.round + 1), random);
    let base = tally.taken_back("full tables, all named", mesh.clone(), random);
    assert_eq!(base.records.len(), 48);
    for _ in 0..12 {
        let input = Input::new(&mesh, &named_anyhow(&mesh, random));
        tally.accepted("full tables, any named", &input, random);
    }
}

/// 5 by 5 by 5 cubes, refined once: the mesh of the benchmark.
fn five_cubes(tally: &mut Tally, random: &mut Random) {
    let base = built(&cubes([5, 5, 5], 64), 1);
    let mesh = finer(&base, &open_leaves(&base));
    let all = Input::new(&mesh, &cut_records(&mesh));
    let back = tally.accepted("5 by 5 by 5 cubes", &all, random);
    assert_eq!(back, of_round(&base, 2));
    for _ in 0..6 {
        let input = Input::new(&mesh, &named_anyhow(&mesh, random));
        tally.accepted("5 by 5 by 5 cubes, any named", &input, random);
    }
}

/// 17 isn't tried: a leaf of generation 15 is uncut as others are, and goes as others do.
fn of_generation_15(tally: &mut Tally, random: &mut Random) {
    let mesh = deepened(k());
    for (number, leaf) in mesh.leaves() {
        if leaf.generation == 15 {
            let input = Input::new(&mesh, &[number as u16]);
            tally.given("a leaf of 15", &input, 30, random);
        }
    }
    let all = Input::new(&mesh, &cut_records(&mesh));
    let coarser = tally.accepted("to generation 15", &all, random);
    assert!(tmb_check(&coarser.bytes()).deepest < 15);
    let base = tally.taken_back("from generation 15", mesh, random);
    assert_eq!(base.records.len(), 1);
}

/// 11: every length but 13 + 2n, and every count but that of the numbers.
fn request_lengths(tally: &mut Tally, random: &mut Random) {
    let [_, _, two, three] = k_refined();
    for (mesh, numbers) in [(&two, [1, 2]), (&three, [4, 5])] {
        let good = Input::new(mesh, &numbers);
        tally.accepted("two numbers", &good, random);
        tally.all_given(wrong_lengths(&good), random);
    }
    let other = Input::new(&two, &[]).poked(0, b"xxx");
    tally.given("a wrong mark", &other, 12, random);
}

/// The greatest count, with as many numbers and without, and the greatest number.
fn greatest_requests(tally: &mut Tally, random: &mut Random) {
    let [_, one, two, _] = k_refined();
    for mesh in [&one, &two] {
        tally.all_given(greatest(mesh), random);
    }
}

/// 12: each byte of the mark and of the version.
fn request_marks(tally: &mut Tally, random: &mut Random) {
    let [_, _, two, three] = k_refined();
    tally.all_given(wrong_marks(&Input::new(&two, &[1])), random);
    tally.all_given(wrong_marks(&Input::new(&three, &[14])), random);
}

/// 13 and 14, each byte of the job and of the round; 18, and 30 before it.
fn jobs_and_rounds(tally: &mut Tally, random: &mut Random) {
    let [_, _, mesh, _] = k_refined();
    for round in [0, 1, 255, 256, 65_534] {
        let mesh = of_round(&mesh, round);
        tally.all_given(wrong_jobs_and_rounds(&mesh, &[1, 2]), random);
        let coarser = tally.accepted("its own", &Input::new(&mesh, &[1, 2]), random);
        assert_eq!(coarser.round, round + 1);
    }
    for job in 0..16 {
        let mut last = of_round(&mesh, 65_535);
        last.job = job;
        for numbers in [&[][..], &[0], &[1], &[1, 2], &[0, 1, 2]] {
            tally.given("the last round", &Input::new(&last, numbers), 18, random);
        }
        for leaf in 3..7 {
            let input = Input::new(&last, &[1, leaf]);
            tally.given("a leaf in the last round", &input, 30, random);
        }
        let old = Input::of(&last, job, 65_534, &[1]);
        tally.given("the last round, an old request", &old, 14, random);
        let past = Input::new(&last, &[1, 7]);
        tally.given("the last round, 7", &past, 15, random);
    }
}

/// 15 and 30, each tried over the whole request before the next.
fn named_records(tally: &mut Tally, random: &mut Random) {
    let [_, _, _, mesh] = k_refined();
    for numbers in [
        &[1, 0][..],
        &[0, 0],
        &[4, 5, 5],
        &[4, 6, 5],
        &[15],
        &[4, 15],
        &[7, 15],
        &[14, 15],
        &[7, 6],
        &[65_535],
        &[0, 256],
    ] {
        tally.given("15", &Input::new(&mesh, numbers), 15, random);
    }
    for leaf in 7..15 {
        for numbers in [&[leaf][..], &[0, leaf], &[4, 5, leaf]] {
            tally.given("30", &Input::new(&mesh, numbers), 30, random);
        }
    }
    let all: Vec<u16> = (0..15).collect();
    tally.given("all records", &Input::new(&mesh, &all), 30, random);
    // Every set of the seven cut records.
    for bits in 0..128 {
        let named: Vec<u16> = (0..7).filter(|bit| bits >> bit & 1 == 1).collect();
        tally.accepted("a set of seven", &Input::new(&mesh, &named), random);
    }
}

/// 10, and each other refusal of check's, whatever the request.
fn refused_meshes(tally: &mut Tally, random: &mut Random) {
    let [_, one, _, _] = k_refined();
    let good = Input::new(&one, &[0]);
    for length in 0..good.mesh.len() {
        let mut other = good.clone();
        other.mesh.truncate(length);
        tally.given("the first bytes", &other, 1, random);
    }
    for at in [0, 1, 2, 3, 4, 19] {
        for bit in 0..8 {
            let mut other = good.clone();
            other.mesh[at] ^= 1 << bit;
            tally.given("mark, version or byte 19", &other, 2, random);
            other.selection.clear();
            tally.given("and no request", &other, 2, random);
        }
    }
    // Base counts below their bounds or above all; then all counts beyond theirs, the length to match.
    for (at, counts) in [
        (11, [0, 1, 2, 3, 6, 7, 255, 256, 1_024, 65_535]),
        (15, [0, 4, 5, 6, 255, 256, 3_072, 3_073, 65_534, 65_535]),
    ] {
        for count in counts {
            let mut other = good.clone();
            other.mesh[at..at + 2].copy_from_slice(&u16::to_le_bytes(count));
            for selection in [good.selection.clone(), vec![0; 13], Vec::new()] {
                other.selection = selection;
                tally.given("a base count", &other, 3, random);
            }
        }
    }
    for (vertices, records) in [(1_025, 3), (5, 3_073), (1_025, 3_073), (3_000, 9_000)] {
        let mut other = good.clone();
        other.mesh[13..15].copy_from_slice(&u16::to_le_bytes(vertices));
        other.mesh[17..19].copy_from_slice(&u16::to_le_bytes(records));
        let length = 20 + 10 * usize::from(vertices) + 17 * usize::from(records);
        other.mesh.resize(length, 0);
        tally.given("all counts", &other, 3, random);
        other.mesh.pop();
        tally.given("all counts, a byte short", &other, 1, random);
    }
    // One of the cube's six cut alone.
    for number in 0..6 {
        let mut open = built(&cubes([1, 1, 1], 64), 3);
        assert!(cut_alone(&mut open, number));
        for numbers in [&[number as u16][..], &[], &[7], &[9]] {
            tally.given("not closed", &Input::new(&open, numbers), 10, random);
        }
        open.round = 65_535;
        let last = Input::new(&open, &[]);
        tally.given("not closed, the last round", &last, 10, random);
    }
    // A corner of another piece in one of the cube's six, all of them cut.
    for number in 0..6 {
        let mut hung = finer(&built(&cubes([1, 1, 1], 64), 3), &[0]);
        assert!(hang_a_piece(&mut hung, number, random));
        for numbers in [&[number as u16][..], &[], &[7], &[99]] {
            let input = Input::new(&hung, numbers);
            tally.given("a vertex hangs", &input, 23, random);
        }
    }
}

/// Rings, numbered anyhow and refined on: what a ring holds stays, whatever else goes.
fn ring_rounds(tally: &mut Tally, random: &mut Random) {
    let pieces = 3 + random.below(6) as u16;
    let base = marked_ring(pieces);
    let mut cut = finer(&base, &[random.below(usize::from(pieces)) as u16]);
    if random.one_in(2) {
        cut = renumbered(&cut, random);
    }
    let mut mesh = cut.clone();
    for _ in 0..1 + random.below(4) {
        mesh = match refined(&mesh, &chosen_anyhow(&mesh, random)) {
            Ok(finer) => finer,
            Err(_) => break,
        };
    }
    let input = Input::new(&mesh, &named_anyhow(&mesh, random));
    mesh = tally.accepted("a ring and more", &input, random);
    if random.one_in(2) {
        mesh = renumbered(&mesh, random);
    }
    let left = tally.taken_back("back to the ring", mesh, random);
    assert!(counts(&left) >= counts(&cut), "the ring stays");
}

/// Refined once and undone.
fn undone(tally: &mut Tally, random: &mut Random) {
    let mut mesh = random_base(random, 5);
    for _ in 0..random.below(4) {
        mesh = match refined(&mesh, &chosen_anyhow(&mesh, random)) {
            Ok(finer) => finer,
            Err(_) => break,
        };
    }
    if random.one_in(2) {
        mesh = renumbered(&mesh, random);
    }
    for _ in 0..2 {
        let numbers = chosen_anyhow(&mesh, random);
        tally.undo(&mesh, &numbers, random);
    }
}

/// All cut records named again and again: the base, or a ring that stays.
fn to_the_base(tally: &mut Tally, random: &mut Random) {
    let mut mesh = match random.below(4) {
        0 => deepened(k()),
        1 => {
            let pieces = 1 + random.below(3);
            deepened(joined(random, pieces).marked_anyhow(random))
        }
        _ => random_base(random, 4),
    };
    for _ in 0..random.below(6) {
        if mesh.records.len() > 400 {
            break;
        }
        mesh = refined(&mesh, &chosen_anyhow(&mesh, random)).unwrap_or(mesh);
    }
    if random.one_in(2) {
        mesh = renumbered(&mesh, random);
    }
    tally.taken_back("towards the base", mesh, random);
}

/// Refined and taken back in turn, by random selections and requests; each result is the next round's
/// mesh. Bytes of the mesh and of the request are damaged on the way.
fn rounds(tally: &mut Tally, mut mesh: Mesh, random: &mut Random) {
    for _ in 0..4 + random.below(5) {
        let numbers = chosen_anyhow(&mesh, random);
        let (number, out) = tally.refined("a round", &Input::new(&mesh, &numbers), random);
        if number != 0 {
            return assert_eq!(number, 19, "a round");
        }
        mesh = read(finer_bytes(&out));
        if random.one_in(4) {
            mesh = renumbered(&mesh, random);
        }
        for _ in 0..1 + random.below(2) {
            let numbers = named_anyhow(&mesh, random);
            let input = Input::new(&mesh, &numbers);
            for _ in 0..2 {
                let other = input.bytes_replaced(random);
                tally.compare("bytes replaced", &other, random).ok();
            }
            let coarser = tally.accepted("taken back", &input, random);
            if random.one_in(3) {
                tally.also_renumbered(&mesh, &numbers, &coarser, random);
            }
            mesh = coarser;
            let again = Input {
                mesh: mesh.bytes(),
                selection: input.selection,
            };
            tally.given("the same request again", &again, 14, random);
        }
        if mesh.records.len() > 300 {
            return;
        }
    }
}

/// K and cubes, built by the proved build.
fn jobs(tally: &mut Tally, random: &mut Random) {
    let job = random.number() as u32;
    let mesh = match random.below(4) {
        0 => Mesh { job, ..k() },
        1 => built(&cubes([1, 1, 1], 64), job),
        2 => built(&cubes([1, 1, 1], 32).mixed(random), job),
        _ => built(&cubes([2, 1, 1], 96).mixed(random), job),
    };
    rounds(tally, mesh, random);
}

/// Pieces joined and marked anyhow.
fn other_meshes(tally: &mut Tally, random: &mut Random) {
    let mesh = random_base(random, 6);
    rounds(tally, mesh, random);
}

/// A piece of each marking, and so of each type: refined in some rounds, and taken back.
fn singles(tally: &mut Tally, random: &mut Random) {
    for mut mesh in single_pieces(random) {
        for _ in 0..1 + random.below(5) {
            let numbers = match random.one_in(2) {
                true => open_leaves(&mesh),
                false => chosen_anyhow(&mesh, random),
            };
            mesh = finer(&mesh, &numbers);
        }
        let numbers = named_anyhow(&mesh, random);
        let coarser = tally.accepted("a single piece", &Input::new(&mesh, &numbers), random);
        tally.also_renumbered(&mesh, &numbers, &coarser, random);
        tally.taken_back("a single piece", coarser, random);
    }
}

/// Requests wrong in several ways together: the first rule broken names the refusal.
fn wrong_requests(tally: &mut Tally, random: &mut Random) {
    let [_, _, _, mesh] = k_refined();
    let deep = deepened(k());
    for _ in 0..20 {
        let mesh = match random.one_in(2) {
            true => mesh.clone(),
            false => deep.clone(),
        };
        wrong_request(tally, mesh, random);
    }
}

/// Each of 11 to 15, 30 and 18 broken or not, at random.
fn wrong_request(tally: &mut Tally, mut mesh: Mesh, random: &mut Random) {
    let mut broken = [false; 7].map(|_| random.one_in(10));
    // One at least, most of the time.
    broken[random.below(7)] |= !random.one_in(8);
    let [length, mark, job, round, order, uncut, rounds] = broken;
    let mut numbers = named_anyhow(&mesh, random);
    if numbers.is_empty() {
        numbers.push(0);
    }
    if uncut {
        for _ in 0..1 + random.below(2) {
            let leaves: Vec<u16> = mesh.leaves().map(|(number, _)| number as u16).collect();
            numbers.extend(random.pick(&leaves));
        }
        numbers.sort_unstable();
        numbers.dedup();
    }
    if order {
        match random.below(4) {
            0 => numbers.push(mesh.records.len() as u16 + random.below(2) as u16),
            1 => numbers.push(65_535),
            2 => numbers.push(numbers[numbers.len() - 1]),
            _ => numbers.insert(0, mesh.records.len() as u16 - 1),
        }
    }
    if rounds {
        mesh.round = 65_535;
    }
    let flipped = |broken: bool, bits: usize, random: &mut Random| match broken {
        true => 1u32 << random.below(bits),
        false => 0,
    };
    let other_job = mesh.job ^ flipped(job, 32, random);
    let other_round = mesh.round ^ flipped(round, 16, random) as u16;
    let mut input = Input::of(&mesh, other_job, other_round, &numbers);
    if mark {
        input.selection[random.below(5)] ^= 1 << random.below(8);
    }
    if length {
        match random.below(4) {
            0 => input.selection.push(0),
            1 => input.selection.truncate(input.selection.len() - 2),
            2 => input.selection[11..13].fill(255),
            _ => input.selection[11] ^= 1 << random.below(8),
        }
    }
    let rules = [11, 12, 13, 14, 15, 30, 18].into_iter().zip(broken);
    let rules: Vec<u32> = rules
        .filter_map(|(number, broken)| broken.then_some(number))
        .collect();
    let number = rules.first().copied().unwrap_or(0);
    tally.given("a wrong request", &input, number, random);
    tally.at_once += u64::from(rules.len() > 1);
}

/// Damaged meshes: take-back's number is check's, whatever the request; where check accepts the mesh all
/// the same, the request decides.
fn damaged_meshes(tally: &mut Tally, random: &mut Random) {
    let mut mesh = random_base(random, 4);
    for _ in 0..1 + random.below(3) {
        mesh = finer(&mesh, &chosen_anyhow(&mesh, random));
    }
    for _ in 0..20 {
        let (name, other) = damaged(&mesh, random);
        let mut input = Input::new(&other, &named_anyhow(&mesh, random));
        if random.one_in(3) {
            input = Input {
                selection: input.bytes_replaced(random).selection,
                ..input
            };
        }
        let number = tmb_check(&input.mesh).number as u32;
        let answer = tally.compare(&name, &input, random);
        if number != 0 {
            assert_eq!(answer, Err(number), "{name}");
        }
    }
}

#[test]
fn the_proved_take_back_and_the_second_agree() {
    let seed = seed();
    let random_parts = RANDOM
        .into_iter()
        .flat_map(|(part, times)| vec![part; times]);
    let tasks: Vec<Part> = LISTED.into_iter().chain(random_parts).collect();
    let next = AtomicUsize::new(0);
    let work = || {
        let mut tally = Tally::default();
        loop {
            let number = next.fetch_add(1, Ordering::Relaxed);
            let Some(part) = tasks.get(number) else {
                return tally;
            };
            // The same numbers whichever thread takes the task.
            let mut random = Random::new(seed ^ (number as u64 + 1) << 32);
            let before = tally.both.inputs;
            part(&mut tally, &mut random);
            if number >= LISTED.len() {
                tally.random += tally.both.inputs - before;
            }
        }
    };
    let mut tally = Tally::default();
    std::thread::scope(|scope| {
        let threads = [scope.spawn(work), scope.spawn(work)];
        for thread in threads {
            match thread.join() {
                Ok(part) => tally.add(&part),
                Err(panic) => std::panic::resume_unwind(panic),
            }
        }
    });

    let both = &tally.both;
    // Not by println, which a passing test keeps to itself.
    let mut out = std::io::stdout().lock();
    let mut line = |text: String| writeln!(out, "take-back compared: {text}").expect("a line");
    line(format!(
        "seed {seed} (COMPARED_SEED), {} inputs, {} of them random, {} calls",
        both.inputs, tally.random, both.calls
    ));
    for number in NUMBERS {
        line(format!("number {number}: {}", both.numbers[number]));
    }
    line(format!(
        "buffers of 0, one less, the result, full-size, longer {:?}",
        both.rooms
    ));
    line(format!(
        "buffers shorter than any result, and 11 to 15, 30 or 18: {}",
        both.before_20
    ));
    line(format!(
        "several of 11 to 15, 30 and 18 broken in {}",
        tally.at_once
    ));
    line(format!(
        "a vertex goes in {}, and another named record stays cut in {} of these; none goes in {}",
        tally.gone, tally.partly, tally.nothing
    ));
    line(format!(
        "a record and its cut child named in {}, and the child's cut goes in {} of these",
        tally.nested, tally.nested_gone
    ));
    line(format!(
        "a vertex of several records goes {} times, one stays for a record that is not named {} times",
        tally.several, tally.not_all
    ));
    line(format!("pieces of generation 15 go in {}", tally.deepest));
    line(format!("rings: all named and none goes in {}", tally.stuck));
    line(format!(
        "refinements undone {}, kept by a ring {}; bases reached {}",
        tally.undone, tally.kept_by_a_ring, tally.to_base
    ));
    line(format!("results refined again: {}", tally.refined));
    line(format!(
        "the same goes in another numbering in {}",
        tally.renumbered
    ));

    assert!(both.inputs >= FEWEST);
    assert!(tally.random >= FEWEST_RANDOM);
    assert!(both.numbers[0] >= FEWEST_ACCEPTED);
    let mut others = both.numbers;
    for number in NUMBERS {
        let times = std::mem::take(&mut others[number]);
        assert!(times >= FEWEST_OF_EACH, "number {number}: {times} times");
    }
    assert_eq!(others, [0; 31], "no other number");
    assert!(both.rooms.iter().all(|&times| times >= 1_000));
    assert!(both.before_20 >= 1_000);
    assert!(tally.at_once >= 500);
    assert!(tally.gone >= 3_000 && tally.partly >= 1_000 && tally.nothing >= 500);
    assert!(tally.nested >= 1_000 && tally.nested_gone >= 1_000);
    assert!(tally.several >= 2_000 && tally.not_all >= 500);
    assert!(tally.deepest >= 20);
    assert!(tally.stuck >= 150);
    assert!(tally.undone >= 300 && tally.to_base >= 200);
    assert!(tally.refined >= 5_000);
    assert!(tally.renumbered >= 500);
}
