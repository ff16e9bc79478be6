//! A stored mesh and the records that are named in it: what refine and take-back take. Both programs'
//! services compared on it, and the selections that either refuses alike.

use crate::buffers::both;
use crate::meshes::{Plain, K};
use crate::random::Random;
use crate::{tmb_build, tmb_refine, tmb_take_back};
use second::mesh::{Mesh, Record};
use second::{refine, refine_vec, selection, take_back, take_back_vec, LARGEST_MESH};

/// What the services take, but for the output buffer. A request has a selection's layout.
#[derive(Clone, PartialEq)]
pub struct Input {
    pub mesh: Vec<u8>,
    pub selection: Vec<u8>,
}

impl Input {
    /// A selection for the mesh's own job and round.
    pub fn new(mesh: &Mesh, numbers: &[u16]) -> Input {
        Input::of(mesh, mesh.job, mesh.round, numbers)
    }

    pub fn of(mesh: &Mesh, job: u32, round: u16, numbers: &[u16]) -> Input {
        Input {
            mesh: mesh.bytes(),
            selection: selection(job, round, numbers),
        }
    }

    /// With some bytes of the selection replaced.
    pub fn poked(&self, at: usize, new: &[u8]) -> Input {
        let mut other = self.clone();
        other.selection[at..at + new.len()].copy_from_slice(new);
        other
    }

    /// The numbers of a selection that is whole.
    pub fn numbers(&self) -> Vec<u16> {
        let numbers = self.selection[13..].chunks_exact(2);
        numbers
            .map(|two| u16::from_le_bytes([two[0], two[1]]))
            .collect()
    }

    /// Some bytes of the mesh or of the selection replaced, or an end taken or added.
    pub fn bytes_replaced(&self, random: &mut Random) -> Input {
        let mut other = self.clone();
        let bytes = match random.below(2) {
            0 => &mut other.mesh,
            _ => &mut other.selection,
        };
        match random.below(8) {
            0 => bytes.truncate(random.below(bytes.len())),
            1 => bytes.push(random.number() as u8),
            2 => bytes.extend([random.number() as u8, 0]),
            _ => {
                for _ in 0..1 + random.below(3) {
                    let at = random.below(bytes.len());
                    let flipped = bytes[at] ^ 1 << random.below(8);
                    bytes[at] =
                        [flipped, random.below(8) as u8, random.number() as u8][random.below(3)];
                }
            }
        }
        other
    }
}

/// Into an output buffer: the number.
type Service = fn(&[u8], &[u8], &mut [u8]) -> u32;
/// As long as it has to be, or the number.
type Whole = fn(&[u8], &[u8]) -> Result<Vec<u8>, u32>;

/// A service of the two programs.
pub struct Services {
    proved: Service,
    second: Service,
    whole: Whole,
}

pub const REFINE: Services = Services {
    proved: tmb_refine,
    second: refine,
    whole: refine_vec,
};

pub const TAKE_BACK: Services = Services {
    proved: tmb_take_back,
    second: take_back,
    whole: take_back_vec,
};

/// What was compared.
#[derive(Default)]
pub struct Compared {
    pub inputs: u64,
    pub calls: u64,
    /// Inputs by the number given where the output buffer is long enough, and by 20 where it is not.
    pub numbers: [u64; 31],
    /// Calls by output buffer: 0, one less than the result, the result, full-size, longer.
    pub rooms: [u64; 5],
    /// Calls refused for their selection with an output buffer shorter than any result: 20 comes last.
    pub before_20: u64,
}

impl Compared {
    /// Compares the two services with one output buffer. Gives the number and the buffer.
    pub fn call(
        &mut self,
        services: &Services,
        name: &str,
        input: &Input,
        room: usize,
        random: &mut Random,
    ) -> (u32, Vec<u8>) {
        let given = input.clone();
        let answer = both(
            room,
            random,
            |out| (services.proved)(&given.mesh, &given.selection, out),
            |out| (services.second)(&input.mesh, &input.selection, out),
        );
        assert!(given == *input, "{name}: inputs are only read");
        self.calls += 1;
        answer.unwrap_or_else(|different| {
            // Beside the program that is running.
            let files = std::env::current_exe()
                .expect("the program")
                .with_file_name("differs");
            for (end, bytes) in [("mesh", &input.mesh), ("selection", &input.selection)] {
                std::fs::write(files.with_extension(end), bytes).expect("it is written");
            }
            let files = files.display();
            panic!("{name}, {different}; the inputs are {files}.*");
        })
    }

    /// One input with output buffers of 0, one less than the result, the result, full-size and longer;
    /// a longer mesh only with the result's and another of them. Gives the result, or the number where
    /// the buffer is long enough.
    pub fn compare(
        &mut self,
        services: &Services,
        name: &str,
        input: &Input,
        random: &mut Random,
    ) -> Result<Vec<u8>, u32> {
        // Where there is no result every buffer gets one answer: the lengths are those of the mesh.
        let result = (services.whole)(&input.mesh, &input.selection);
        let length = result.map_or(input.mesh.len(), |result| result.len());
        let longer = LARGEST_MESH + 1 + random.below(2_000);
        let rooms = [0, length.saturating_sub(1), length, LARGEST_MESH, longer];
        let other = [0, 1, 3, 4][random.below(4)];
        let short = input.mesh.len() < 200;
        let mut answer = None;
        let mut result = Vec::new();
        let mut too_short = false;
        for kind in (0..5).filter(|&kind| short || kind == 2 || kind == other) {
            let room = rooms[kind];
            let (number, out) = self.call(services, name, input, room, random);
            self.rooms[kind] += 1;
            if number == 0 {
                assert!(out[length..].iter().all(|&byte| byte == 0), "{name}: zero");
            } else {
                assert!(out.iter().all(|&byte| byte == 0), "{name}: zero throughout");
            }
            let of_selection = (11..20).contains(&number) || number == 30;
            self.before_20 += u64::from(of_selection && room < length);
            if number == 20 {
                assert!(room < length, "{name}: 20 in {room} bytes");
                too_short = true;
            } else {
                let earlier = *answer.get_or_insert(number);
                assert_eq!(number, earlier, "{name}: one number in every long buffer");
            }
            if number == 0 && kind == 2 {
                result = out;
            }
        }
        let answer = answer.expect("a buffer that is long enough");
        assert!(!too_short || answer == 0, "{name}: 20 comes last");
        self.inputs += 1;
        self.numbers[answer as usize] += 1;
        self.numbers[20] += u64::from(too_short);
        match answer {
            0 => Ok(result),
            number => Err(number),
        }
    }

    pub fn add(&mut self, other: &Compared) {
        self.inputs += other.inputs;
        self.calls += other.calls;
        self.before_20 += other.before_20;
        sum(&mut self.numbers, &other.numbers);
        sum(&mut self.rooms, &other.rooms);
    }
}

/// Adds one to the other, place by place.
pub fn sum(mine: &mut [u64], theirs: &[u64]) {
    mine.iter_mut()
        .zip(theirs)
        .for_each(|(mine, theirs)| *mine += theirs);
}

pub fn read(bytes: &[u8]) -> Mesh {
    Mesh::read(bytes).expect("a stored mesh")
}

/// Vertices and records.
pub fn counts(mesh: &Mesh) -> [usize; 2] {
    [mesh.vertices.len(), mesh.records.len()]
}

/// Built by the proved build.
pub fn built(plain: &Plain, job: u32) -> Mesh {
    let mut out = vec![255; 20 + 10 * plain.places.len() + 17 * plain.pieces.len()];
    let number = tmb_build(
        job,
        &plain.places.concat(),
        &plain.pieces.concat(),
        &mut out,
    );
    assert_eq!(number, 0, "a plain mesh");
    read(&out)
}

/// K of "A piece worked by hand", built by the proved build.
pub fn k() -> Mesh {
    let plain = Plain {
        places: K.to_vec(),
        pieces: vec![[0, 1, 2, 3]],
    };
    built(&plain, 7)
}

/// What a record is in any numbering: its corners' places; its marks; its refinement edge, flag and
/// generation; whether it is a leaf.
pub type Unnumbered = ([Option<[i16; 3]>; 4], [u8; 4], [u8; 3], bool);

pub fn unnumbered(mesh: &Mesh) -> Vec<Unnumbered> {
    let told = |record: &Record| {
        let places = record.corners.map(|corner| mesh.place(corner));
        let others = [record.edge, record.flag, record.generation];
        (places, record.marks, others, record.is_leaf())
    };
    mesh.records.iter().map(told).collect()
}

/// The named records' numbers in another numbering of the mesh. Nothing where records are alike, since
/// pieces may overlap: then nothing tells which of them is named.
pub fn also_named(mesh: &Mesh, numbers: &[u16], other: &Mesh) -> Option<Vec<u16>> {
    let records = unnumbered(mesh);
    let named = |record: &Unnumbered| {
        let mut numbers = numbers.iter();
        numbers.any(|&number| records[usize::from(number)] == *record)
    };
    let others = (0..).zip(unnumbered(other));
    let others = others.filter(|(_, record)| named(record));
    let others: Vec<u16> = others.map(|(number, _)| number).collect();
    (others.len() == numbers.len()).then_some(others)
}

/// The same records, in whatever numbering.
pub fn same_records(one: &Mesh, other: &Mesh) -> bool {
    let [mut one, mut other] = [one, other].map(unnumbered);
    one.sort_unstable();
    other.sort_unstable();
    one == other
}

/// An input, what it is, and the number that it must get.
pub type Case = (&'static str, Input, u32);

/// 11: every length but 13 + 2n, and every count but that of the numbers; of an input that names two
/// records.
pub fn wrong_lengths(good: &Input) -> Vec<Case> {
    let mut cases = Vec::new();
    for length in (0..=30).filter(|&length| length != 17) {
        let mut other = good.clone();
        other.selection.resize(length, 0);
        cases.push(("another length", other, 11));
    }
    for count in [0, 1, 3, 258, 32_770, 65_535] {
        let other = good.poked(11, &u16::to_le_bytes(count));
        cases.push(("another count", other, 11));
    }
    cases
}

/// 11, 12 and 15 of the greatest count, with as many numbers and without, and of the greatest number.
pub fn greatest(mesh: &Mesh) -> Vec<Case> {
    let last = mesh.records.len() as u16 - 1;
    let mut cases = Vec::new();
    for numbers in [
        (0..65_535).collect(),
        (1..=65_535).collect(),
        vec![last; 65_535],
        vec![65_535; 65_535],
        (0..65_535).rev().collect(),
    ] {
        let many = Input::new(mesh, &numbers);
        let version = many.poked(3, &[2]);
        let mut fewer = many.clone();
        fewer.selection.truncate(13 + 2 * 65_534);
        let mut short = fewer.clone();
        short.selection.push(255);
        let mut long = many.clone();
        long.selection.push(255);
        let mut more = long.clone();
        more.selection.push(255);
        // 65,536 is 0 in two bytes, and a count of 0 has no numbers.
        let none = more.poked(11, &[0, 0]);
        cases.extend([
            ("65,535 numbers", many, 15),
            ("65,535 numbers, a wrong version", version, 12),
            ("a number less than 65,535", fewer, 11),
            ("a byte less than 65,535 numbers", short, 11),
            ("a byte more than 65,535 numbers", long, 11),
            ("a number more than 65,535", more, 11),
            ("65,536 numbers, a count of 0", none, 11),
        ]);
    }
    for numbers in [&[last][..], &[last - 1, last], &[]] {
        let with = |number: u16| Input::new(mesh, &[numbers, &[number]].concat());
        let counted = Input::new(mesh, numbers).poked(11, &[255, 255]);
        cases.extend([
            ("a count of 65,535", counted, 11),
            ("65,535 named", with(65_535), 15),
            ("65,534 named", with(65_534), 15),
        ]);
    }
    cases
}

/// 12: each byte of the mark and of the version.
pub fn wrong_marks(good: &Input) -> Vec<Case> {
    let bits = (0..5).flat_map(|at| (0..8).map(move |bit| (at, bit)));
    let other = |(at, bit): (usize, u32)| good.poked(at, &[good.selection[at] ^ 1 << bit]);
    let mut cases: Vec<Case> = bits
        .map(|place| ("mark or version", other(place), 12))
        .collect();
    cases.push(("a mesh's mark", good.poked(0, b"TMB"), 12));
    cases
}

/// 13 and 14: each bit of the job and of the round.
pub fn wrong_jobs_and_rounds(mesh: &Mesh, numbers: &[u16]) -> Vec<Case> {
    let (job, round) = (mesh.job, mesh.round);
    let of = |job: u32, round: u16| Input::of(mesh, job, round, numbers);
    let mut cases = Vec::new();
    for bit in 0..32 {
        let other = job ^ 1 << bit;
        let both = of(other, round.wrapping_add(1));
        cases.push(("another job", of(other, round), 13));
        cases.push(("another job and round", both, 13));
    }
    for bit in 0..16 {
        cases.push(("another round", of(job, round ^ 1 << bit), 14));
    }
    cases
}

/// COMPARED_SEED in the environment gives another seed.
pub fn seed() -> u64 {
    match std::env::var("COMPARED_SEED") {
        Ok(text) => text.parse().expect("COMPARED_SEED is a number"),
        Err(_) => 20_261_115,
    }
}
