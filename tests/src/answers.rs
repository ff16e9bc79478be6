//! What all services answer: build on a plain mesh; check, list, refine and take-back on a stored one. The proved
//! ones, through their C functions, compared with the second program's: every number, figure and length, and
//! every byte of the output buffers.

use crate::buffers::both;
use crate::meshes::{cut_records, open_leaves, Plain};
use crate::named::{read, sum, Compared, Input, REFINE, TAKE_BACK};
use crate::random::Random;
use crate::{tmb_build, tmb_check, tmb_list};
use second::mesh::Mesh;
use second::{build, check, list, list_into, selection, Listed, LARGEST_MESH};
use std::io::Write;
use std::sync::atomic::{AtomicUsize, Ordering};

/// The numbers that each service can give, in the order in which their rules are tried; 0 last.
const OF_BUILD: [usize; 9] = [21, 3, 4, 5, 7, 8, 23, 20, 0];
const OF_CHECK: [usize; 13] = [1, 2, 3, 4, 5, 22, 6, 7, 8, 23, 9, 10, 0];
const OF_LIST: [usize; 14] = [1, 2, 3, 4, 5, 22, 6, 7, 8, 23, 9, 10, 20, 0];
const OF_REFINE: [usize; 23] = [
    1, 2, 3, 4, 5, 22, 6, 7, 8, 23, 9, 10, 11, 12, 13, 14, 15, 16, 17, 18, 19, 20, 0,
];
const OF_TAKE_BACK: [usize; 21] = [
    1, 2, 3, 4, 5, 22, 6, 7, 8, 23, 9, 10, 11, 12, 13, 14, 15, 30, 18, 20, 0,
];

/// The fewest of each number of each service, and of each output buffer.
const FEWEST_OF_EACH: u64 = 25;
const FEWEST_OF_EACH_ROOM: u64 = 500;

/// A buffer of so many bytes holds any listing.
const LARGEST_LISTING: usize = 393_344;

/// How often each number was given.
pub type Numbers = [u64; 31];

/// What build takes, but for the output buffer.
#[derive(Clone, Debug, PartialEq)]
pub struct Given {
    pub job: u32,
    pub coordinates: Vec<i16>,
    pub corners: Vec<u16>,
}

impl Given {
    pub fn new(plain: &Plain, random: &mut Random) -> Given {
        Given {
            job: random.number() as u32,
            coordinates: plain.places.concat(),
            corners: plain.pieces.concat(),
        }
    }

    /// The length of the result, if there is one.
    fn length(&self) -> usize {
        20 + 10 * (self.coordinates.len() / 3) + 17 * (self.corners.len() / 4)
    }

    pub fn place(&self, vertex: u16) -> Option<[i16; 3]> {
        let mut places = self.coordinates.chunks_exact(3);
        places.nth(vertex.into())?.try_into().ok()
    }
}

/// What the services answered.
#[derive(Default)]
pub struct Answers {
    /// Inputs, those of them that are random, and calls but for refine's and take-back's; an input is a plain
    /// mesh, or a stored mesh with a selection and a request.
    pub inputs: u64,
    random: u64,
    calls: u64,
    /// By number: of build, check and list; 20 where an output buffer is too short.
    pub build: Numbers,
    pub check: Numbers,
    list: Numbers,
    refine: Compared,
    take_back: Compared,
    /// Calls of build, and of list, by output buffer: 0, one less than the result, the result, full-size,
    /// longer.
    built_rooms: [u64; 5],
    listed_rooms: [u64; 5],
}

/// What the services answer to a stored mesh: check's number; the refined mesh and the one with cuts taken back,
/// or their numbers.
pub struct Stored {
    pub number: u32,
    pub results: [Result<Vec<u8>, u32>; 2],
}

/// An input on which the two differ, in a file beside the program that is running.
fn differs(name: &str, what: &str, input: &[u8]) -> ! {
    let program = std::env::current_exe().expect("the program");
    let file = program.with_extension("differs");
    std::fs::write(&file, input).expect("the input is written");
    panic!("{name}, {what}; the input is in {}", file.display());
}

fn zeros(bytes: &[u8]) -> bool {
    bytes.iter().all(|&byte| byte == 0)
}

impl Answers {
    /// A plain mesh with output buffers of 0, one less than the result, the result, full-size and longer; the
    /// last two not always. Gives the mesh that is built, or the number.
    pub fn build(&mut self, name: &str, given: &Given, random: &mut Random) -> Result<Mesh, u32> {
        let length = given.length();
        let longer = LARGEST_MESH + 1 + random.below(2_000);
        let rooms = [0, length - 1, length, LARGEST_MESH, longer];
        let chosen = [true, true, true, random.one_in(6), random.one_in(6)];
        let (mut short, mut long, mut result) = (Vec::new(), Vec::new(), Vec::new());
        for kind in (0..5).filter(|&kind| chosen[kind]) {
            let copy = given.clone();
            let called = both(
                rooms[kind],
                random,
                |out| tmb_build(copy.job, &copy.coordinates, &copy.corners, out),
                |out| build(given.job, &given.coordinates, &given.corners, out),
            );
            assert!(copy == *given, "{name}: inputs are only read");
            let (number, out) = called.unwrap_or_else(|different| {
                differs(name, &different, format!("{given:?}\n").as_bytes())
            });
            self.calls += 1;
            self.built_rooms[kind] += 1;
            let written = if number == 0 { length } else { 0 };
            assert!(zeros(&out[written..]), "{name}: zero past the result");
            match rooms[kind] < length {
                true => short.push(number),
                false => long.push(number),
            }
            if kind == 2 {
                result = out;
            }
        }
        // 20 comes last; else every buffer gets one number.
        let answer = long[0];
        let in_short = if answer == 0 { 20 } else { answer };
        assert!(long.iter().all(|&number| number == answer), "{name}");
        assert!(short.iter().all(|&number| number == in_short), "{name}");
        self.inputs += 1;
        self.build[answer as usize] += 1;
        self.build[20] += u64::from(answer == 0);
        match answer {
            0 => Ok(read(&result)),
            number => Err(number),
        }
    }

    /// A stored mesh, with a selection for refine and a request for take-back, by all four services.
    pub fn stored(
        &mut self,
        name: &str,
        mesh: &[u8],
        selection: &[u8],
        request: &[u8],
        random: &mut Random,
    ) -> Stored {
        let copy = mesh.to_vec();
        let report = tmb_check(&copy);
        assert_eq!(copy, mesh, "{name}: inputs are only read");
        if report != check(mesh) {
            let what = format!("check: proved {report:?}, second {:?}", check(mesh));
            differs(name, &what, mesh);
        }
        let number = report.number as u32;
        if number != 0 {
            let figures = [report.leaves, report.deepest, report.sixfold];
            assert_eq!(figures, [0; 3], "{name}");
        }
        if number != 10 {
            assert_eq!((report.record, report.edge), (0, 0), "{name}");
        }
        self.inputs += 1;
        self.calls += 1;
        self.check[number as usize] += 1;
        self.listed(name, mesh, number, random);

        let [chosen, named] = [selection, request].map(|selection| Input {
            mesh: mesh.to_vec(),
            selection: selection.to_vec(),
        });
        let results = [
            self.refine.compare(&REFINE, name, &chosen, random),
            self.take_back.compare(&TAKE_BACK, name, &named, random),
        ];
        // "The mesh's own" come first.
        if number != 0 {
            assert_eq!(results, [Err(number), Err(number)], "{name}");
        }
        Stored { number, results }
    }

    /// The listing with output buffers of 0, one less than the text, the text, full-size and longer; the last
    /// two not always.
    fn listed(&mut self, name: &str, mesh: &[u8], number: u32, random: &mut Random) {
        let length = list(mesh).len();
        let number = match mesh.len() > LARGEST_MESH {
            true => 1,
            false => u64::from(number),
        };
        let longer = LARGEST_LISTING + 1 + random.below(2_000);
        let rooms = [0, length - 1, length, LARGEST_LISTING, longer];
        let chosen = [true, true, true, random.one_in(25), random.one_in(25)];
        for kind in (0..5).filter(|&kind| chosen[kind]) {
            let copy = mesh.to_vec();
            let called = both(
                rooms[kind],
                random,
                |out| tmb_list(&copy, out),
                |out| list_into(mesh, out),
            );
            assert_eq!(copy, mesh, "{name}: inputs are only read");
            let called = called.unwrap_or_else(|different| differs(name, &different, mesh));
            let (listed, out) = called;
            let wanted = match (rooms[kind] < length, number) {
                (true, 0) => (20, 0),
                (true, number) => (number, 0),
                (false, number) => (number, length as u64),
            };
            let Listed { number, length } = listed;
            assert_eq!((number, length), wanted, "{name}");
            assert!(zeros(&out[length as usize..]), "{name}: zero past the text");
            self.calls += 1;
            self.listed_rooms[kind] += 1;
        }
        self.list[number as usize] += 1;
        self.list[20] += u64::from(number == 0);
    }

    pub fn add(&mut self, other: &Answers) {
        self.inputs += other.inputs;
        self.random += other.random;
        self.calls += other.calls;
        self.refine.add(&other.refine);
        self.take_back.add(&other.take_back);
        for (mine, theirs) in [
            (&mut self.build[..], &other.build[..]),
            (&mut self.check, &other.check),
            (&mut self.list, &other.list),
            (&mut self.built_rooms, &other.built_rooms),
            (&mut self.listed_rooms, &other.listed_rooms),
        ] {
            sum(mine, theirs);
        }
    }

    fn services(&self) -> [(&'static str, &'static [usize], Numbers, [u64; 5]); 5] {
        let (refine, take_back) = (&self.refine, &self.take_back);
        // Check has no output buffer.
        let enough = [FEWEST_OF_EACH_ROOM; 5];
        [
            ("build", &OF_BUILD, self.build, self.built_rooms),
            ("check", &OF_CHECK, self.check, enough),
            ("list", &OF_LIST, self.list, self.listed_rooms),
            ("refine", &OF_REFINE, refine.numbers, refine.rooms),
            (
                "take-back",
                &OF_TAKE_BACK,
                take_back.numbers,
                take_back.rooms,
            ),
        ]
    }

    /// The counts, in lines.
    pub fn lines(&self, seed: u64) -> Vec<String> {
        let calls = self.calls + self.refine.calls + self.take_back.calls;
        let mut lines = vec![format!(
            "seed {seed} (COMPARED_SEED), {} inputs, {} of them random, {calls} calls",
            self.inputs, self.random
        )];
        for (name, of_service, numbers, _) in self.services() {
            let times = |number: &usize| format!("{number}: {}", numbers[*number]);
            let times: Vec<String> = of_service.iter().map(times).collect();
            lines.push(format!("{name}: {}", times.join(", ")));
        }
        let rooms = self
            .services()
            .map(|(name, _, _, rooms)| format!("{name} {rooms:?}"));
        let [build, _, list, refine, take_back] = rooms;
        lines.push(format!(
            "buffers of 0, one less, the result, full-size, longer: {build}, {list}, {refine}, {take_back}"
        ));
        lines
    }

    /// So many inputs, so many of them random; each number of each service often enough, and no other; each
    /// output buffer often enough.
    pub fn suffice(&self, inputs: u64, random: u64) {
        assert!(self.inputs >= inputs && self.random >= random);
        for (name, of_service, mut numbers, rooms) in self.services() {
            for &number in of_service {
                let times = std::mem::take(&mut numbers[number]);
                assert!(
                    times >= FEWEST_OF_EACH,
                    "{name}: number {number}: {times} times"
                );
            }
            assert_eq!(numbers, [0; 31], "{name}: no other number");
            let enough = rooms.iter().all(|&times| times >= FEWEST_OF_EACH_ROOM);
            assert!(enough, "{name}: {rooms:?}");
        }
    }
}

/// A selection and a request for the mesh as far as it can be read: most of them good where the mesh is, some
/// wrong in one way.
pub fn any_selections(mesh: &Mesh, random: &mut Random) -> [Vec<u8>; 2] {
    let records = mesh.records.len() as u16;
    [open_leaves(mesh), cut_records(mesh)].map(|mut numbers| {
        random.shuffle(&mut numbers);
        numbers.truncate(random.below(4));
        let (mut job, mut round) = (mesh.job, mesh.round);
        let wrong = random.below(12);
        match wrong {
            0 => job ^= 1 << random.below(32),
            1 => round ^= 1 << random.below(16),
            2 => numbers.push(records + random.below(3) as u16),
            // Any record: it may be a cut one in a selection, or a leaf in a request.
            3 | 6 => numbers.push(random.below(usize::from(records)) as u16),
            _ => {}
        }
        numbers.sort_unstable();
        numbers.dedup();
        let mut bytes = selection(job, round, &numbers);
        match wrong {
            4 => bytes.truncate(random.below(bytes.len())),
            5 => bytes[random.below(5)] ^= 1 << random.below(8),
            _ => {}
        }
        bytes
    })
}

/// Not by println, which a passing test keeps to itself.
pub fn tell(what: &str, lines: &[String]) {
    let mut out = std::io::stdout().lock();
    for line in lines {
        writeln!(out, "{what} compared: {line}").expect("a line");
    }
}

/// What a comparison counts.
pub trait Tallied: Default + Send {
    fn answers(&mut self) -> &mut Answers;

    fn add(&mut self, other: &Self);
}

/// One part of a comparison.
pub type Part<T> = fn(&mut T, &mut Random);

/// Does the parts that go through a list of inputs, and each part of random inputs so many times, each time with
/// numbers of its own; in two threads.
pub fn compared<T: Tallied>(seed: u64, listed: &[Part<T>], random: &[(Part<T>, usize)]) -> T {
    let random_parts = random.iter().flat_map(|&(part, times)| vec![part; times]);
    let tasks: Vec<Part<T>> = listed.iter().copied().chain(random_parts).collect();
    let next = AtomicUsize::new(0);
    let work = || {
        let mut tally = T::default();
        loop {
            let number = next.fetch_add(1, Ordering::Relaxed);
            let Some(part) = tasks.get(number) else {
                return tally;
            };
            // The same numbers whichever thread takes the task.
            let mut random = Random::new(seed ^ (number as u64 + 1) << 32);
            let before = tally.answers().inputs;
            part(&mut tally, &mut random);
            if number >= listed.len() {
                let answers = tally.answers();
                answers.random += answers.inputs - before;
            }
        }
    };
    let mut tally = T::default();
    std::thread::scope(|scope| {
        let threads = [scope.spawn(work), scope.spawn(work)];
        for thread in threads {
            match thread.join() {
                Ok(part) => tally.add(&part),
                Err(panic) => std::panic::resume_unwind(panic),
            }
        }
    });
    tally
}
