//! The proved check, through `tmb_check`, compared with the second program's on many meshes: number,
//! figures and place. COMPARED_SEED in the environment gives another seed.

use compared::damage::{damaged, KINDS};
use compared::meshes::{
    cubes, cut_alone, deepened, filled, full_base, joined, open_leaves, random_base, refined,
    refined_anyhow, separate, signed, single_pieces, thinned, Plain, K,
};
use compared::random::Random;
use compared::renumber::{renumbered, with_any_pair_order, with_any_vertex_order};
use compared::tmb_check;
use second::mesh::Mesh;
use second::piece::{type_of, Type};
use second::{check, Report, LARGEST_MESH, MOST_RECORDS, MOST_VERTICES};
use std::io::Write;
use std::sync::atomic::{AtomicUsize, Ordering};

/// The numbers that check can give, in the order in which their rules are tried; 0 last.
const NUMBERS: [usize; 13] = [1, 2, 3, 4, 5, 22, 6, 7, 8, 23, 9, 10, 0];

/// The fewest meshes, and the fewest answers of each number.
const FEWEST: u64 = 20_000;
const FEWEST_OF_EACH: u64 = 1_000;

/// What was compared.
#[derive(Default)]
struct Tally {
    meshes: u64,
    numbers: [u64; 24],
    renumbered: u64,
    /// Base records of accepted meshes, by type P, A, O, M.
    types: [u64; 4],
    /// Accepted meshes with a leaf of generation 15.
    deepest: u64,
    /// Accepted meshes of 1,024 vertices, and of 3,072 records.
    full: [u64; 2],
    /// Hanging edges by edge code.
    edges: [u64; 6],
}

impl Tally {
    /// Compares the two checks on one mesh. A difference ends the test, with the mesh in a file.
    fn compare(&mut self, name: &str, mesh: &[u8]) -> Report {
        let copy = mesh.to_vec();
        let proved = tmb_check(&copy);
        assert_eq!(copy, mesh, "{name}: inputs are only read");
        let second = check(mesh);
        if proved != second {
            let file = format!("{}/differs.tmb", env!("CARGO_TARGET_TMPDIR"));
            std::fs::write(&file, mesh).expect("the mesh is written");
            panic!("{name}: proved {proved:?}, second {second:?}; the mesh is in {file}");
        }
        self.meshes += 1;
        self.numbers[second.number as usize] += 1;
        match second.number {
            0 => {
                let stored = Mesh::read(mesh).expect("an accepted mesh");
                for record in &stored.records[..stored.base_records] {
                    match type_of(record).expect("a marked piece") {
                        Type::P => self.types[0] += 1,
                        Type::A => self.types[1] += 1,
                        Type::O => self.types[2] += 1,
                        Type::M => self.types[3] += 1,
                    }
                }
                self.deepest += u64::from(second.deepest == 15);
                self.full[0] += u64::from(stored.vertices.len() == MOST_VERTICES);
                self.full[1] += u64::from(stored.records.len() == MOST_RECORDS);
            }
            10 => self.edges[second.edge as usize] += 1,
            _ => {}
        }
        second
    }

    /// The mesh must be accepted, by both.
    fn accepted(&mut self, name: &str, mesh: &Mesh) -> Report {
        let report = self.compare(name, &mesh.bytes());
        assert_eq!(report.number, 0, "{name}");
        assert!(report.leaves > 0 && report.sixfold > 0, "{name}");
        report
    }

    /// The mesh must get that number, from both.
    fn given(&mut self, name: &str, mesh: &[u8], number: u64) {
        assert_eq!(self.compare(name, mesh).number, number, "{name}");
    }

    /// An accepted mesh, and another numbering of it: the figures stay.
    fn accepted_also_renumbered(&mut self, name: &str, mesh: &Mesh, random: &mut Random) {
        let report = self.accepted(name, mesh);
        let other = self.accepted("renumbered", &renumbered(mesh, random));
        assert_eq!(other, report, "{name}, renumbered");
        self.renumbered += 1;
    }

    /// Made vertices, and pairs of children, in any order: refused with 4 where a parent is not below
    /// its made vertex, with 9 where a child is not above its parent.
    fn in_any_order(&mut self, mesh: &Mesh, random: &mut Random) {
        let other = with_any_vertex_order(mesh, random);
        let below = (0..)
            .zip(&other.vertices)
            .skip(other.base_vertices)
            .all(|(number, vertex)| vertex.parents[1] < number);
        let number = if below { 0 } else { 4 };
        self.given("made vertices in any order", &other.bytes(), number);

        let other = with_any_pair_order(mesh, random);
        let above = (0..)
            .zip(&other.records)
            .all(|(number, record)| number < record.first_child);
        let number = if above { 0 } else { 9 };
        self.given("pairs of children in any order", &other.bytes(), number);
    }

    fn add(&mut self, other: &Tally) {
        let sum = |mine: &mut [u64], theirs: &[u64]| {
            mine.iter_mut()
                .zip(theirs)
                .for_each(|(mine, theirs)| *mine += theirs);
        };
        self.meshes += other.meshes;
        self.renumbered += other.renumbered;
        self.deepest += other.deepest;
        sum(&mut self.numbers, &other.numbers);
        sum(&mut self.types, &other.types);
        sum(&mut self.full, &other.full);
        sum(&mut self.edges, &other.edges);
    }
}

/// One part of the comparison.
type Part = fn(&mut Tally, &mut Random);

/// Each part with the times it is done, each time with numbers of its own.
const PARTS: [(Part, usize); 16] = [
    (full_tables, 6),
    (full_tables_damaged, 2),
    (full_tables_of_base_records, 1),
    (full_vertices, 1),
    (blocks, 6),
    (byte_changes_of_k, 1),
    (byte_changes_of_the_cube, 1),
    (lengths, 1),
    (counts, 1),
    (too_deep, 4),
    (largest_pieces, 1),
    (singles, 12),
    (deep, 40),
    (refined_and_damaged, 1_500),
    (each_damage, 150),
    (random_bytes, 10),
];

/// Single pieces of each type, with hand-made marks, refined at random.
fn singles(tally: &mut Tally, random: &mut Random) {
    for mut mesh in single_pieces(random) {
        tally.accepted_also_renumbered("a single piece", &mesh, random);
        for _ in 0..3 + random.below(5) {
            let Some(finer) = refined_anyhow(&mesh, random) else {
                break;
            };
            tally.accepted_also_renumbered("a single piece, refined", &finer, random);
            mesh = finer;
        }
    }
}

/// Four corners of the largest cube of the grid, in every order: the largest determinants of either sign,
/// 22 for a negative one; 5 where two are equal or all four lie in a plane.
fn largest_pieces(tally: &mut Tally, random: &mut Random) {
    let mut solid = [0, 0];
    for tuple in 0..4_096 {
        let places = [0, 3, 6, 9].map(|shift| {
            let corner = tuple >> shift & 7;
            [0, 1, 2].map(|axis| [-32_736, 32_736][corner >> axis & 1])
        });
        let plain = Plain {
            places: places.to_vec(),
            pieces: vec![[0, 1, 2, 3]],
        };
        let mesh = plain.marked(1, &[(0, [3, 1, 0, 0])]);
        let number = tally.compare("a largest piece", &mesh.bytes()).number;
        assert!([0, 4, 5, 22].contains(&number), "a largest piece");
        let value = signed(places);
        assert_eq!(number == 22, value < 0, "a largest piece");
        assert_eq!(number == 0, value > 0, "a largest piece");
        solid[0] += u32::from(number == 0);
        solid[1] += u32::from(number == 22);
        if number == 0 {
            let finer = refined(&mesh, &[0]).expect("there is room");
            tally.accepted_also_renumbered("a largest piece, refined", &finer, random);
        }
    }
    // 58 of the 70 sets of four corners lie in no plane, each in 24 orders, half of them right-handed.
    assert_eq!(solid, [58 * 12; 2]);
}

/// To generation 15, by always naming a deepest leaf.
fn deep(tally: &mut Tally, random: &mut Random) {
    let plain = match random.below(3) {
        0 => cubes([1, 1, 1], 64),
        1 => joined(random, 1),
        _ => joined(random, 4),
    };
    let mesh = deepened(plain.marked_anyhow(random));
    tally.accepted_also_renumbered("deep", &mesh, random);
    tally.in_any_order(&mesh, random);
    let mut bytes = mesh.bytes();
    for _ in 0..20 {
        let at = random.below(bytes.len());
        let before = bytes[at];
        bytes[at] = random.number() as u8;
        tally.compare("deep, a byte changed", &bytes);
        bytes[at] = before;
    }
    for _ in 0..20 {
        let (name, other) = damaged(&mesh, random);
        tally.compare(&format!("deep, {name}"), &other.bytes());
    }
}

/// A piece so large that halving meets no odd sum beyond generation 15 either: only the generation
/// is refused.
fn too_deep(tally: &mut Tally, random: &mut Random) {
    let large = Plain {
        places: K.map(|place| place.map(|x| x * 256)).to_vec(),
        pieces: vec![[0, 1, 2, 3]],
    };
    let mesh = deepened(large.mixed(random).marked_anyhow(random));
    let report = tally.accepted("generation 15", &mesh);
    assert_eq!(report.deepest, 15);
    let deepest = mesh.leaves().find(|(_, leaf)| leaf.generation == 15);
    let mut deeper = mesh.clone();
    assert!(cut_alone(&mut deeper, deepest.expect("a leaf").0));
    tally.given("generation 16", &deeper.bytes(), 9);
    tally.given(
        "generation 16, renumbered",
        &renumbered(&deeper, random).bytes(),
        9,
    );
}

/// Pieces that share faces, edges or one vertex, and cubes, refined for some rounds, renumbered, and
/// damaged after each.
fn refined_and_damaged(tally: &mut Tally, random: &mut Random) {
    let mut mesh = random_base(random, 8);
    for _ in 0..1 + random.below(5) {
        tally.accepted_also_renumbered("refined", &mesh, random);
        tally.in_any_order(&mesh, random);
        for _ in 0..12 {
            let (name, other) = damaged(&mesh, random);
            tally.compare(&name, &other.bytes());
        }
        open_cuts(tally, &mesh, random);
        for _ in 0..4 {
            let mut bytes = mesh.bytes();
            for _ in 0..1 + random.below(3) {
                let at = random.below(bytes.len());
                bytes[at] = match random.one_in(2) {
                    true => random.number() as u8,
                    false => bytes[at].wrapping_add([1, 255][random.below(2)]),
                };
            }
            tally.compare("bytes changed", &bytes);
        }
        match refined_anyhow(&mesh, random) {
            Some(finer) if finer.records.len() < 300 => mesh = finer,
            _ => break,
        }
    }
}

/// Cuts without closing: what hangs, hangs in any numbering, though at another place.
fn open_cuts(tally: &mut Tally, mesh: &Mesh, random: &mut Random) {
    let mut open = mesh.clone();
    for _ in 0..1 + random.below(4) {
        if let Some(number) = random.pick(&open_leaves(&open)) {
            cut_alone(&mut open, usize::from(number));
        }
    }
    let number = tally.compare("cut without closing", &open.bytes()).number;
    // Without closing a halving may meet an odd sum: 4.
    assert!([0, 4, 10].contains(&number), "cut without closing");
    if number != 4 {
        let other = renumbered(&open, random);
        tally.given("cut without closing, renumbered", &other.bytes(), number);
        tally.renumbered += 1;
    }
}

/// Each kind of damage by itself.
fn each_damage(tally: &mut Tally, random: &mut Random) {
    let mut mesh = random_base(random, 6);
    for _ in 0..2 {
        mesh = refined_anyhow(&mesh, random).unwrap_or(mesh);
    }
    for (name, kind) in KINDS {
        for _ in 0..4 {
            let mut other = mesh.clone();
            if kind(&mut other, random) {
                tally.compare(name, &other.bytes());
            }
        }
    }
}

/// Every other value of every byte.
fn byte_changes(tally: &mut Tally, name: &str, mesh: &Mesh) {
    tally.accepted(name, mesh);
    let mut bytes = mesh.bytes();
    for at in 0..bytes.len() {
        let before = bytes[at];
        for change in 1..=255 {
            bytes[at] = before ^ change;
            tally.compare(name, &bytes);
        }
        bytes[at] = before;
    }
}

/// K, refined as in "A piece worked by hand": 8 vertices, 11 records.
fn byte_changes_of_k(tally: &mut Tally, _: &mut Random) {
    let mut mesh = k();
    for numbers in [&[0][..], &[1, 2], &[4]] {
        mesh = refined(&mesh, numbers).expect("there is room");
    }
    assert_eq!((mesh.vertices.len(), mesh.records.len()), (8, 11));
    byte_changes(tally, "K, refined, with a byte changed", &mesh);
}

/// "The cube of side 64 as six pieces round the diagonal, select one": 9 vertices, 18 records.
fn byte_changes_of_the_cube(tally: &mut Tally, _: &mut Random) {
    let mesh = refined(&cubes([1, 1, 1], 64).built(1), &[0]).expect("there is room");
    assert_eq!((mesh.vertices.len(), mesh.records.len()), (9, 18));
    byte_changes(tally, "the cube, refined, with a byte changed", &mesh);
}

fn k() -> Mesh {
    let plain = Plain {
        places: K.to_vec(),
        pieces: vec![[0, 1, 2, 3]],
    };
    plain.built(7)
}

/// Cut short to every length, and extended: 1, since the counts are those of another length.
fn lengths(tally: &mut Tally, random: &mut Random) {
    let meshes = [k(), cubes([1, 1, 1], 64).built(1), random_base(random, 8)];
    for mesh in meshes {
        let bytes = mesh.bytes();
        for length in 0..bytes.len() {
            tally.given("cut short", &bytes[..length], 1);
        }
        let mut longer = bytes;
        for _ in 0..200 {
            longer.push(random.number() as u8);
            tally.given("extended", &longer, 1);
        }
    }
    tally.given("empty", &[], 1);
    tally.given("longer than any mesh", &vec![0; LARGEST_MESH + 1], 1);
}

/// Writes a u16 of the header.
fn set(bytes: &mut [u8], at: usize, number: usize) {
    bytes[at..at + 2].copy_from_slice(&(number as u16).to_le_bytes());
}

/// Counts at and past each bound, with the length as it was and with the matching one.
fn counts(tally: &mut Tally, random: &mut Random) {
    let edges = [
        0, 1, 3, 4, 5, 8, 9, 1_023, 1_024, 1_025, 3_071, 3_072, 3_073, 65_535,
    ];
    let small = refined(&k(), &[0]).expect("there is room").bytes();
    for at in [11, 13, 15, 17] {
        for count in edges {
            let mut bytes = small.clone();
            set(&mut bytes, at, count);
            tally.compare("a count replaced", &bytes);
        }
    }
    // Base vertices, vertices, base records, records; whether rule 3 lets them pass.
    let mut rows = vec![
        ([4, 4, 1, 1], true),
        ([3, 4, 1, 1], false),
        ([3, 3, 1, 1], false),
        ([0, 0, 1, 1], false),
        ([4, 4, 0, 0], false),
        ([4, 4, 0, 1], false),
        ([5, 4, 1, 1], false),
        ([4, 4, 2, 1], false),
        ([65_535, 4, 1, 1], false),
        ([4, 4, 65_535, 1], false),
        ([4, MOST_VERTICES, 1, 1], true),
        ([MOST_VERTICES, MOST_VERTICES, 1, 1], true),
        ([4, MOST_VERTICES + 1, 1, 1], false),
        ([MOST_VERTICES + 1, MOST_VERTICES + 1, 1, 1], false),
        ([4, 4, 1, MOST_RECORDS], true),
        ([4, 4, MOST_RECORDS, MOST_RECORDS], true),
        ([4, 4, 1, MOST_RECORDS + 1], false),
        ([4, 4, MOST_RECORDS + 1, MOST_RECORDS + 1], false),
        ([4, MOST_VERTICES, 1, MOST_RECORDS], true),
        ([4, 7_000, 1, 1], false),
        ([4, 65_535, 1, 65_535], false),
        ([65_535; 4], false),
        ([0; 4], false),
    ];
    for _ in 0..200 {
        let count = |random: &mut Random| edges[random.below(11)];
        let row = [0; 4].map(|_: usize| count(random));
        let [base_vertices, vertices, base_records, records] = row;
        let passes = (4..=vertices).contains(&base_vertices)
            && (1..=records).contains(&base_records)
            && vertices <= MOST_VERTICES
            && records <= MOST_RECORDS;
        rows.push((row, passes));
    }
    for (row, passes) in rows {
        let mut bytes = small[..20].to_vec();
        for (at, count) in [11, 13, 15, 17].into_iter().zip(row) {
            set(&mut bytes, at, count);
        }
        let length = 20 + 10 * row[1] + 17 * row[3];
        bytes.resize(length, 0);
        // Vertices of zeros have no parents of 65,535: rule 4 is the next one broken.
        let number = if passes { 4 } else { 3 };
        tally.given("counts with the matching length", &bytes, number);
        bytes[19] = 1;
        tally.given("counts with byte 19 not 0", &bytes, 2);
        bytes.push(0);
        tally.given("counts with a length past the matching one", &bytes, 1);
        bytes.truncate(length - 1);
        tally.given("counts with a length short of the matching one", &bytes, 1);
    }
}

/// Random bytes of random lengths; a whole header before them half of the time, and then the
/// matching length.
fn random_bytes(tally: &mut Tally, random: &mut Random) {
    for _ in 0..1_000 {
        let length = [0, 1, 19, 20, 21, 77, random.below(2_000)][random.below(7)];
        let mut bytes: Vec<u8> = (0..length).map(|_| random.number() as u8).collect();
        if random.one_in(2) {
            let (vertices, records) = (4 + random.below(8), 1 + random.below(8));
            let fill = [0, 255, random.number() as u8][random.below(3)];
            bytes.resize(20 + 10 * vertices + 17 * records, fill);
            bytes[..5].copy_from_slice(b"TMB\x01\x00");
            for (at, count) in [(11, 4), (13, vertices), (15, 1), (17, records)] {
                set(&mut bytes, at, count);
            }
            bytes[19] = u8::from(random.one_in(8));
        }
        tally.compare("random bytes", &bytes);
    }
}

/// Blocks of cubes, refined once: some thousand pieces.
fn blocks(tally: &mut Tally, random: &mut Random) {
    let sides = [0; 3].map(|_: usize| 2 + random.below(3));
    let percent = 50 + random.below(51);
    let plain = thinned(cubes(sides, 64), random, percent).mixed(random);
    let mesh = plain.marked_anyhow(random);
    tally.accepted_also_renumbered("a block", &mesh, random);
    if let Ok(finer) = refined(&mesh, &open_leaves(&mesh)) {
        tally.accepted_also_renumbered("a block, refined", &finer, random);
    }
    for _ in 0..10 {
        let (name, other) = damaged(&mesh, random);
        tally.compare(&format!("a block, {name}"), &other.bytes());
    }
}

/// Refined until both tables are full.
fn full_mesh(random: &mut Random) -> Mesh {
    let pieces = 40 + 2 * random.below(9);
    let mesh = filled(separate(pieces).mixed(random).marked_anyhow(random), random);
    assert!(mesh.records.len() > MOST_RECORDS - 100, "near full");
    mesh
}

fn full_tables(tally: &mut Tally, random: &mut Random) {
    let mesh = full_mesh(random);
    tally.accepted_also_renumbered("full tables", &mesh, random);
    let block = filled(cubes([2, 2, 2], 128).marked_anyhow(random), random);
    tally.accepted_also_renumbered("a block, full tables", &block, random);
}

fn full_tables_damaged(tally: &mut Tally, random: &mut Random) {
    let mesh = full_mesh(random);
    for _ in 0..40 {
        let (name, other) = damaged(&mesh, random);
        tally.compare(&format!("full tables, {name}"), &other.bytes());
    }
}

/// 1,024 vertices and 3,072 records, all of the base: "The largest mesh is 62,484 bytes."
fn full_tables_of_base_records(tally: &mut Tally, random: &mut Random) {
    let mesh = full_base(random).marked_anyhow(random);
    assert_eq!(mesh.bytes().len(), LARGEST_MESH);
    tally.accepted_also_renumbered("full tables of base records", &mesh, random);
    for _ in 0..20 {
        let (name, other) = damaged(&mesh, random);
        tally.compare(
            &format!("full tables of base records, {name}"),
            &other.bytes(),
        );
    }
}

/// 1,024 vertices, few records; one vertex more is 3.
fn full_vertices(tally: &mut Tally, random: &mut Random) {
    let base = separate(255).marked_anyhow(random);
    let mesh = refined(&base, &[0, 1, 2, 3]).expect("there is room");
    assert_eq!(mesh.vertices.len(), MOST_VERTICES);
    tally.accepted_also_renumbered("full vertices", &mesh, random);
    let mut more = mesh.clone();
    more.vertices.push(mesh.vertices[0]);
    tally.given("a vertex too many", &more.bytes(), 3);
    let mesh = separate(256).marked_anyhow(random);
    tally.accepted_also_renumbered("full base vertices", &mesh, random);
}

fn seed() -> u64 {
    match std::env::var("COMPARED_SEED") {
        Ok(text) => text.parse().expect("COMPARED_SEED is a number"),
        Err(_) => 20_261_115,
    }
}

#[test]
fn the_proved_check_and_the_second_agree() {
    let seed = seed();
    let tasks: Vec<Part> = PARTS
        .into_iter()
        .flat_map(|(part, times)| vec![part; times])
        .collect();
    let next = AtomicUsize::new(0);
    let work = || {
        let mut tally = Tally::default();
        loop {
            let number = next.fetch_add(1, Ordering::Relaxed);
            let Some(part) = tasks.get(number) else {
                return tally;
            };
            // The same numbers whichever thread takes the task.
            let mut random = Random::new(seed ^ (number as u64 + 1) << 32);
            part(&mut tally, &mut random);
        }
    };
    let mut tally = Tally::default();
    std::thread::scope(|scope| {
        let threads = [scope.spawn(work), scope.spawn(work)];
        for thread in threads {
            match thread.join() {
                Ok(part) => tally.add(&part),
                Err(panic) => std::panic::resume_unwind(panic),
            }
        }
    });

    // Not by println, which a passing test keeps to itself.
    let mut out = std::io::stdout().lock();
    let mut line = |text: String| writeln!(out, "check compared: {text}").expect("a line");
    line(format!(
        "seed {seed} (COMPARED_SEED), {} meshes",
        tally.meshes
    ));
    for number in NUMBERS {
        line(format!("number {number}: {}", tally.numbers[number]));
    }
    line(format!("renumbered {}", tally.renumbered));
    line(format!("base records P, A, O, M {:?}", tally.types));
    line(format!("leaves of generation 15 in {}", tally.deepest));
    line(format!("1,024 vertices, 3,072 records in {:?}", tally.full));
    line(format!("hanging edges 0 to 5 {:?}", tally.edges));

    assert!(tally.meshes >= FEWEST);
    let mut others = tally.numbers;
    for number in NUMBERS {
        let times = std::mem::take(&mut others[number]);
        assert!(times >= FEWEST_OF_EACH, "number {number}: {times} times");
    }
    assert_eq!(others, [0; 24], "no other number");
    assert!(tally.renumbered >= 1_000);
    assert!(tally.types.iter().all(|&times| times >= 1_000));
    assert!(tally.deepest >= 10);
    assert!(tally.full.iter().all(|&times| times >= 4));
    assert!(tally.edges.iter().all(|&times| times >= 100));
}
