//! Accepted meshes looked at face by face: each face of a leaf is in exactly two leaves, or it is in one
//! leaf and lies in a base face that is in one base record only; and two leaves that share a face mark it
//! alike. The meshes come from the second program and are accepted by both. FACES_SEED in the environment
//! gives another seed.

use compared::meshes::{
    cubes, cut_alone, face_set, filled, joined, ladder, open_leaves, random_base, refined,
    refined_anyhow, single_pieces, Plain, K, LADDER,
};
use compared::random::Random;
use compared::renumber::renumbered;
use compared::tmb_check;
use second::check;
use second::mesh::{Mesh, Record};
use second::piece::ends;
use std::collections::BTreeMap;
use std::io::Write;

/// The fewest meshes, those of them with each generation for the deepest, and faces of either kind.
const FEWEST: u64 = 3_000;
const FEWEST_OF_EACH: u64 = 40;
const FEWEST_FACES: u64 = 150_000;

/// What was looked at.
#[derive(Default)]
struct Tally {
    meshes: u64,
    /// Meshes by the generation of their deepest leaf.
    deepest: [u64; 16],
    leaves: u64,
    /// Faces in two leaves: all, and those that lie in a base face, which is then in two base records.
    in_two: [u64; 2],
    /// Faces in one leaf.
    in_one: u64,
}

/// The records on each face, as a record and its face.
type Sides<'a> = BTreeMap<[u16; 3], Vec<(&'a Record, usize)>>;

fn sides<'a>(records: impl Iterator<Item = &'a Record>) -> Sides<'a> {
    let mut sides = Sides::new();
    for record in records {
        for face in 0..4 {
            let set = face_set(record.corners, face);
            sides.entry(set).or_default().push((record, face));
        }
    }
    sides
}

/// Which vertices lie in a base face: its three corners, and each made vertex whose parents do. Parents
/// have lower numbers.
fn lying(mesh: &Mesh, face: &[u16; 3]) -> Vec<bool> {
    let mut lies: Vec<bool> = Vec::with_capacity(mesh.vertices.len());
    for (number, vertex) in mesh.vertices.iter().enumerate() {
        let [p, q] = vertex.parents.map(usize::from);
        lies.push(match number < mesh.base_vertices {
            true => face.contains(&(number as u16)),
            false => lies[p] && lies[q],
        });
    }
    lies
}

/// What is wrong with the first face that does not meet another, if there is one.
fn not_met(mesh: &Mesh, tally: &mut Tally) -> Option<String> {
    let base = sides(mesh.records[..mesh.base_records].iter());
    let base: Vec<(usize, Vec<bool>)> = base
        .iter()
        .map(|(face, records)| (records.len(), lying(mesh, face)))
        .collect();
    for (face, leaves) in sides(mesh.leaves().map(|(_, leaf)| leaf)) {
        let in_base = |records: usize| {
            let within = |lies: &[bool]| face.iter().all(|&corner| lies[usize::from(corner)]);
            base.iter()
                .any(|(count, lies)| *count == records && within(lies))
        };
        match leaves[..] {
            [_] if in_base(1) => tally.in_one += 1,
            [_] => return Some(format!("{face:?} is in one leaf and in no such base face")),
            [_, _] if in_base(1) => return Some(format!("{face:?} is in two leaves, and outside")),
            [(one, i), (other, j)] => {
                if ends(one, one.marks[i]) != ends(other, other.marks[j]) {
                    return Some(format!("{face:?} has two marks"));
                }
                tally.in_two[0] += 1;
                tally.in_two[1] += u64::from(in_base(2));
            }
            _ => return Some(format!("{face:?} is in {} leaves", leaves.len())),
        }
    }
    None
}

impl Tally {
    /// An accepted mesh, face by face.
    fn look(&mut self, mesh: &Mesh) {
        let bytes = mesh.bytes();
        assert_eq!(tmb_check(&bytes), check(&bytes));
        assert_eq!(tmb_check(&bytes).number, 0);
        assert_eq!(not_met(mesh, self), None);
        let deepest = mesh.leaves().map(|(_, leaf)| leaf.generation).max();
        self.meshes += 1;
        self.deepest[usize::from(deepest.expect("a leaf"))] += 1;
        self.leaves += mesh.leaves().count() as u64;
    }

    /// Round after round by random selections, each result looked at, some in another numbering.
    fn rounds(&mut self, mut mesh: Mesh, random: &mut Random, rounds: usize) {
        self.look(&mesh);
        for _ in 0..rounds {
            match refined_anyhow(&mesh, random) {
                Some(finer) => mesh = finer,
                None => return,
            }
            if random.one_in(4) {
                mesh = renumbered(&mesh, random);
            }
            self.look(&mesh);
        }
    }

    /// Round after round, one of the deepest leaves named each time, until one has generation 15 or the
    /// tables are full; each result looked at.
    fn deepen(&mut self, mut mesh: Mesh, random: &mut Random) {
        loop {
            let leaves = open_leaves(&mesh);
            let generation = |&number: &u16| mesh.records[usize::from(number)].generation;
            let deepest = leaves.iter().map(generation).max();
            let mut deep = leaves.clone();
            deep.retain(|number| Some(generation(number)) == deepest);
            let named = random.pick(&deep).expect("a leaf");
            match refined(&mesh, &[named]) {
                Ok(finer) => mesh = finer,
                Err(_) => return,
            }
            self.look(&mesh);
            if deepest == Some(14) {
                return;
            }
        }
    }
}

fn seed() -> u64 {
    match std::env::var("FACES_SEED") {
        Ok(text) => text.parse().expect("FACES_SEED is a number"),
        Err(_) => 20_261_115,
    }
}

#[test]
fn accepted_meshes_meet_face_to_face() {
    let seed = seed();
    let random = &mut Random::new(seed);
    let mut tally = Tally::default();
    for mesh in single_pieces(random) {
        tally.deepen(mesh.clone(), random);
        tally.rounds(mesh, random, 8);
    }
    for _ in 0..300 {
        let mesh = random_base(random, 12);
        tally.rounds(mesh, random, 6);
    }
    for _ in 0..40 {
        let pieces = 1 + random.below(6);
        let mesh = joined(random, pieces).marked_anyhow(random);
        tally.deepen(mesh, random);
    }
    for sides in [[1, 1, 1], [2, 1, 1], [3, 2, 2]] {
        tally.rounds(cubes(sides, 64).marked_anyhow(random), random, 4);
    }
    for _ in 0..4 {
        let mesh = random_base(random, 6);
        tally.look(&filled(mesh, random));
    }
    let pieces = 60;
    let steps = ladder(pieces).marked(1, &vec![LADDER; usize::from(pieces)]);
    tally.look(&refined(&steps, &[0]).expect("a closing"));

    // Not by println, which a passing test keeps to itself.
    let mut out = std::io::stdout().lock();
    let mut line = |text: String| writeln!(out, "faces looked at: {text}").expect("a line");
    line(format!(
        "seed {seed} (FACES_SEED), {} accepted meshes, {} leaves",
        tally.meshes, tally.leaves
    ));
    line(format!("meshes by deepest generation {:?}", tally.deepest));
    line(format!(
        "{} faces in two leaves, {} of them in a base face of two base records; {} in one leaf, in a base face of one base record",
        tally.in_two[0], tally.in_two[1], tally.in_one
    ));
    assert!(tally.meshes >= FEWEST);
    assert!(tally.deepest.iter().all(|&times| times >= FEWEST_OF_EACH));
    assert!(tally.in_two[0] >= FEWEST_FACES && tally.in_two[1] >= FEWEST_FACES / 10);
    assert!(tally.in_one >= FEWEST_FACES);
}

/// Document 002, figure 6: two pieces that mark their common face differently, each cut through three
/// generations. No edge hangs, and they do not meet face to face; check refuses them by rule 7.
#[test]
fn two_marks_on_a_face_do_not_meet() {
    let plain = Plain {
        places: vec![K[0], K[1], K[2], K[3], [64, 64, -64]],
        pieces: vec![[0, 1, 2, 3], [1, 0, 2, 4]],
    };
    let thrice = |markings: &[(u8, [u8; 4])]| {
        let mut mesh = plain.marked(6, markings);
        for _ in 0..3 {
            let mut numbers = open_leaves(&mesh);
            numbers.retain(|&number| mesh.records[usize::from(number)].is_leaf());
            for number in numbers {
                assert!(cut_alone(&mut mesh, usize::from(number)));
            }
        }
        mesh
    };
    let hangs = |mesh: &Mesh| {
        let pairs = mesh.pairs();
        let edges = |leaf: &Record| {
            (0..6).any(|code| pairs.contains_key(&ends(leaf, code).expect("an edge")))
        };
        mesh.leaves().any(|(_, leaf)| edges(leaf))
    };

    // The common face 0 1 2 is marked 0-1 in both, then 0-1 in one and 1-2 in the other.
    let alike = thrice(&[(0, [4, 1, 0, 0]), (0, [3, 2, 0, 0])]);
    let apart = thrice(&[(0, [4, 1, 0, 0]), (1, [5, 1, 0, 1])]);
    for mesh in [&alike, &apart] {
        assert_eq!((mesh.leaves().count(), hangs(mesh)), (16, false));
    }
    assert_eq!(tmb_check(&alike.bytes()).number, 0);
    assert_eq!(not_met(&alike, &mut Tally::default()), None);
    assert_eq!(tmb_check(&apart.bytes()).number, 7);
    assert_eq!(check(&apart.bytes()).number, 7);
    let found = not_met(&apart, &mut Tally::default());
    assert!(found.is_some_and(|text| text.contains("in one leaf and in no such base face")));
}
