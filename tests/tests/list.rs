//! The proved listing. Through `tmb_list`, compared with the second program's on many inputs: number,
//! length and every byte of the output buffer. As the program `list`, run as a process: stored inputs with
//! their stored outputs, many inputs compared with the second program's listing byte for byte, and what the
//! program reads and writes when. COMPARED_SEED in the environment gives another seed, LIST_PROGRAM another
//! program.

use compared::damage::{damaged, KINDS};
use compared::meshes::{
    block, cubes, cut_alone, deepened, filled, full_base, joined, open_leaves, random_base,
    refined, refined_anyhow, scattered, separate, single_pieces, Plain, K,
};
use compared::random::Random;
use compared::renumber::renumbered;
use compared::{tmb_build, tmb_check, tmb_list, tmb_refine};
use second::mesh::Mesh;
use second::{
    list, list_into, selection, Listed, Report, LARGEST_MESH, MOST_RECORDS, MOST_VERTICES,
};
use std::collections::BTreeSet;
use std::fs::{self, File, OpenOptions};
use std::io::{ErrorKind, Read, Seek, Write};
use std::net::Shutdown;
use std::os::fd::OwnedFd;
use std::os::unix::net::{UnixDatagram, UnixStream};
use std::os::unix::process::ExitStatusExt;
use std::path::{Path, PathBuf};
use std::process::{Child, Command, ExitStatus, Stdio};
use std::sync::atomic::{AtomicUsize, Ordering};
use std::thread;
use std::time::{Duration, Instant};

/// The fewest inputs, the fewest that are listed, and the fewest of each number that the listing gives: of
/// the program, and of the function.
const FEWEST: [u64; 2] = [1_500, 20_000];
const FEWEST_LISTED: [u64; 2] = [400, 5_000];
const FEWEST_OF_EACH: [u64; 2] = [15, 100];

/// Bytes on both sides of the output buffer.
const GUARD: usize = 64;

/// No listing is longer: "3,072 records" and a heading, each "in a 128-byte line buffer".
const LARGEST_LISTING: usize = 393_344;

/// "Each line is set in a 128-byte line buffer".
const LINE: usize = 128;

/// Longer than any run takes: a program that has not ended by then hangs.
const LIMIT: Duration = Duration::from_secs(60);

/// The signal of a write that nobody will read, and how a shell starts the program without it.
const BROKEN_PIPE: i32 = 13;
const SILENT: &str = "trap '' PIPE; exec \"$0\"";

const REFUSED_1: &[u8] = b"refused 1\n";

/// "For the second row of the next section the whole output is".
const WORKED: &str = "\
job 7 round 1 vertices 5 records 3 leaves 2 deepest 1 sixfold 262144
1 0 1 2 4 edge 0 2 gen 1
2 4 1 2 3 edge 1 3 gen 1
";

/// The stored inputs by name, each with the number that it gets.
const STORED: [(&str, u64); 15] = [
    ("worked", 0),
    ("cube", 0),
    ("empty", 1),
    ("cut-short", 1),
    ("another-version", 2),
    ("three-base-vertices", 3),
    ("off-the-grid", 4),
    ("flat-piece", 5),
    ("mark-not-on-its-face", 6),
    ("same-four-corners", 7),
    ("unused-vertex", 8),
    ("children-exchanged", 9),
    ("hanging-edge", 10),
    ("left-handed", 22),
    ("hanging-vertex", 23),
];

/// The listing program: LIST_PROGRAM in the environment, else the one that the gate builds.
fn list_program() -> PathBuf {
    let given = std::env::var_os("LIST_PROGRAM").filter(|path| !path.is_empty());
    let package = Path::new(env!("CARGO_MANIFEST_DIR"));
    let path = package.join(given.unwrap_or_else(|| "../target/bin/list".into()));
    assert!(
        path.is_file(),
        "{} is not there: build the crate list, or set LIST_PROGRAM to a program that lists",
        path.display()
    );
    path
}

/// The program, to be started with pipes.
fn program() -> Command {
    piped(Command::new(list_program()))
}

/// The program as a shell starts it, `$0` in these words.
fn from_shell(words: &str) -> Command {
    let mut command = Command::new("sh");
    command.arg("-c").arg(words).arg(list_program());
    piped(command)
}

fn piped(mut command: Command) -> Command {
    command
        .stdin(Stdio::piped())
        .stdout(Stdio::piped())
        .stderr(Stdio::piped());
    command
}

/// Started. The descriptors that the command was given are the program's alone from then on.
fn started(mut command: Command) -> Child {
    command.spawn().expect("the program starts")
}

/// Waits for the program's end, but not without end.
fn ended(child: &mut Child) -> ExitStatus {
    let begin = Instant::now();
    loop {
        if let Some(status) = child.try_wait().expect("a child") {
            return status;
        }
        if begin.elapsed() > LIMIT {
            child.kill().expect("a child");
            panic!("the program has not ended after {LIMIT:?}");
        }
        thread::sleep(Duration::from_millis(1));
    }
}

/// What the program writes until it ends: with status 0, and nothing on standard error.
fn answer(child: &mut Child) -> Vec<u8> {
    let mut stdout = child.stdout.take().expect("a pipe");
    let mut stderr = child.stderr.take().expect("a pipe");
    let reader = thread::spawn(move || {
        let mut lines = Vec::new();
        stdout.read_to_end(&mut lines).expect("lines");
        lines
    });
    let status = ended(child);
    let mut said = String::new();
    stderr.read_to_string(&mut said).expect("nothing");
    assert_eq!((status.code(), said.as_str()), (Some(0), ""));
    reader.join().expect("lines")
}

/// Feeds a started program these bytes while something else is done.
fn fed<T>(child: &mut Child, input: &[u8], meanwhile: impl FnOnce(&mut Child) -> T) -> T {
    let mut stdin = child.stdin.take().expect("a pipe");
    thread::scope(|scope| {
        scope.spawn(move || {
            // The program may stop reading before the end.
            let _ = stdin.write_all(input);
        });
        meanwhile(child)
    })
}

/// What the program writes for these bytes.
fn listed(input: &[u8]) -> Vec<u8> {
    fed(&mut started(program()), input, answer)
}

fn read(bytes: &[u8]) -> Mesh {
    Mesh::read(bytes).expect("a stored mesh")
}

fn stored(name: &str) -> Vec<u8> {
    let folder = Path::new(env!("CARGO_MANIFEST_DIR")).join("list");
    fs::read(folder.join(name)).expect("a stored file")
}

/// Built by the proved build.
fn built(plain: &Plain, job: u32) -> Mesh {
    let (places, corners) = (plain.places.concat(), plain.pieces.concat());
    let mut out = vec![255; 20 + 10 * plain.places.len() + 17 * plain.pieces.len()];
    assert_eq!(tmb_build(job, &places, &corners, &mut out), 0);
    read(&out)
}

fn k() -> Mesh {
    let plain = Plain {
        places: K.to_vec(),
        pieces: vec![[0, 1, 2, 3]],
    };
    built(&plain, 7)
}

/// A largest mesh: 1,024 vertices and 3,072 records, all of them leaves.
fn largest() -> Vec<u8> {
    let bytes = full_base(&mut Random::new(20_261_115)).built(9).bytes();
    assert_eq!(bytes.len(), LARGEST_MESH);
    bytes
}

/// So many bytes of any kind.
fn junk(random: &mut Random, length: usize) -> Vec<u8> {
    (0..length).map(|_| random.number() as u8).collect()
}

#[test]
fn stored_inputs_get_their_stored_outputs() {
    for (name, number) in STORED {
        let (input, wanted) = (
            stored(&format!("{name}.tmb")),
            stored(&format!("{name}.txt")),
        );
        assert_eq!(tmb_check(&input).number, number, "{name}");
        if number != 0 {
            assert_eq!(wanted, format!("refused {number}\n").as_bytes(), "{name}");
        }
        assert!(list(&input) == wanted, "{name}: the second program");
        let lines = listed(&input);
        let text = String::from_utf8_lossy(&lines);
        assert!(lines == wanted, "{name}: the program wrote\n{text}");
    }
    // Nothing is stored that is not tried.
    let folder = Path::new(env!("CARGO_MANIFEST_DIR")).join("list");
    let files = fs::read_dir(folder).expect("the folder");
    let files = files.map(|file| file.expect("a file").file_name().into_string());
    let files: BTreeSet<String> = files.map(|name| name.expect("a name")).collect();
    let tried = STORED.map(|(name, _)| [format!("{name}.tmb"), format!("{name}.txt")]);
    assert_eq!(files, tried.into_iter().flatten().collect());
}

/// The stored worked example is K with record 0 cut, by the proved services, and its output is document
/// 01's.
#[test]
fn the_worked_example() {
    let mut cut = vec![0; 121];
    let chosen = selection(7, 0, &[0]);
    assert_eq!(tmb_refine(&k().bytes(), &chosen, &mut cut), 0);
    assert_eq!(stored("worked.tmb"), cut);
    assert_eq!(stored("worked.txt"), WORKED.as_bytes());
    assert_eq!(listed(&cut), WORKED.as_bytes());
}

/// "Input longer than the largest mesh is refused with 1 here": also where all but the last byte is good.
#[test]
fn the_largest_mesh_and_one_byte_too_many() {
    let mut bytes = largest();
    let lines = listed(&bytes);
    assert!(lines == list(&bytes), "the largest mesh");
    let feeds = lines.iter().filter(|&&byte| byte == b'\n').count();
    assert_eq!(feeds, 1 + MOST_RECORDS);
    for last in [0, b'\n', 255] {
        bytes.push(last);
        assert_eq!(listed(&bytes), REFUSED_1, "{} bytes", bytes.len());
        bytes.pop();
    }
}

/// What lists.
#[derive(Clone, Copy, PartialEq)]
enum Lister {
    Program,
    Function,
}

/// What was compared.
struct Tally {
    lister: Lister,
    /// Numbers for the output buffers, and bytes of any kind to fill them with.
    random: Random,
    junk: Vec<u8>,
    inputs: u64,
    /// Inputs by the number that the listing gives, 0 where it lists, and by 20 where an output buffer is
    /// not long enough.
    numbers: [u64; 24],
    /// Calls of the function by output buffer: 0, one less than the text, the text, full-size, longer.
    rooms: [u64; 5],
    /// Calls given 1 to 10, 22 or 23 with an output buffer shorter than the line: 20 comes last.
    before_20: u64,
    /// Inputs longer than the largest mesh, and those of them that check alone gives another number.
    longer: [u64; 2],
    /// Listed meshes in another numbering.
    renumbered: u64,
    /// Listed meshes with a leaf of generation 15.
    deepest: u64,
    /// Listed meshes of 1,024 vertices, of 3,072 records, and of both.
    full: [u64; 3],
    /// Listed meshes of job 4,294,967,295, and of round 65,535.
    greatest: [u64; 2],
    /// Lines of leaves.
    leaves: u64,
    /// Bytes of the longest heading and of the longest line of a leaf.
    longest: [usize; 2],
}

impl Tally {
    fn new(lister: Lister) -> Tally {
        let mut random = Random::new(20_261_116);
        // As many as the longest output buffer has, with the bytes on both sides, and more.
        let junk = junk(&mut random, LARGEST_LISTING + 5_000);
        Tally {
            lister,
            random,
            junk,
            inputs: 0,
            numbers: [0; 24],
            rooms: [0; 5],
            before_20: 0,
            longer: [0; 2],
            renumbered: 0,
            deepest: 0,
            full: [0; 3],
            greatest: [0; 2],
            leaves: 0,
            longest: [0; 2],
        }
    }

    /// Calls the function with one output buffer, filled with junk before the call, guard bytes on both
    /// sides, and compares with the second program. Gives the answer and the buffer.
    fn call(&mut self, name: &str, input: &[u8], room: usize) -> (Listed, Vec<u8>) {
        // Not always at the same alignment.
        let before = GUARD + self.random.below(8);
        let length = before + room + GUARD;
        let from = self.random.below(self.junk.len() - length);
        let whole = &self.junk[from..from + length];
        let (mut proved, mut second) = (whole.to_vec(), whole.to_vec());
        let given = input.to_vec();
        let part = before..before + room;
        let answer = tmb_list(&given, &mut proved[part.clone()]);
        assert!(given == input, "{name}: the input is only read");
        let wanted = list_into(input, &mut second[part.clone()]);
        if answer != wanted || proved != second {
            let file = differs(input);
            let at = (0..length).find(|&at| proved[at] != second[at]);
            panic!(
                "{name}, {room} bytes: proved {answer:?}, second {wanted:?}, first different byte {:?} \
                 (guard bytes are below 0 or from {room}); the input is in {file}",
                at.map(|at| at as i64 - before as i64)
            );
        }
        // Also without the second program.
        assert_eq!(proved[..before], whole[..before], "{name}: guard bytes");
        assert_eq!(proved[part.end..], whole[part.end..], "{name}: guard bytes");
        (answer, proved[part].to_vec())
    }

    /// The function with output buffers of 0, one less than the text, the text, full-size and longer; a
    /// longer mesh only with the text's and another of them. Gives the text.
    fn called(&mut self, name: &str, input: &[u8]) -> Vec<u8> {
        let own = match input.len() > LARGEST_MESH {
            true => 1,
            false => tmb_check(input).number,
        };
        let length = list(input).len();
        let longer = LARGEST_LISTING + 1 + self.random.below(2_000);
        let rooms = [0, length - 1, length, LARGEST_LISTING, longer];
        let other = [0, 1, 3, 4][self.random.below(4)];
        let short = input.len() < 200;
        let mut text = Vec::new();
        let mut too_short = false;
        for kind in (0..5).filter(|&kind| short || kind == 2 || kind == other) {
            let room = rooms[kind];
            let (answer, out) = self.call(name, input, room);
            self.rooms[kind] += 1;
            let zeros = |part: &[u8]| part.iter().all(|&byte| byte == 0);
            let Listed { number, length: so } = answer;
            if room < length {
                let wanted = if own == 0 { 20 } else { own };
                assert_eq!((number, so), (wanted, 0), "{name}: {room} bytes");
                assert!(zeros(&out), "{name}: zero throughout");
                too_short |= number == 20;
                self.before_20 += u64::from(number != 20);
            } else {
                assert_eq!((number, so), (own, length as u64), "{name}: {room} bytes");
                assert!(zeros(&out[length..]), "{name}: zero past the text");
                assert!(!zeros(&out[length - 1..]), "{name}: the text's last byte");
            }
            if kind == 2 {
                text = out;
            }
        }
        self.numbers[20] += u64::from(too_short);
        text
    }

    /// Compares the output with the second program's listing. A difference ends the test, with the input in
    /// a file. Gives the lines.
    fn compare(&mut self, name: &str, input: &[u8]) -> String {
        let lines = match self.lister {
            Lister::Program => listed(input),
            Lister::Function => self.called(name, input),
        };
        let wanted = list(input);
        if lines != wanted {
            let file = differs(input);
            let [proved, second] = [&lines, &wanted].map(|text| String::from_utf8_lossy(text));
            let mut both = proved.lines().zip(second.lines());
            let different = both.find(|(proved, second)| proved != second);
            panic!(
                "{name}: proved {} bytes, second {} bytes, the first different lines {different:?}; \
                 the input is in {file}",
                lines.len(),
                wanted.len()
            );
        }
        let lines = String::from_utf8(lines).expect("plain text");
        let report = tmb_check(input);
        let longer = input.len() > LARGEST_MESH;
        let number = if longer { 1 } else { report.number };
        self.inputs += 1;
        self.numbers[number as usize] += 1;
        self.longer[0] += u64::from(longer);
        self.longer[1] += u64::from(longer && report.number != 1);
        match number {
            0 => self.judge(name, &read(input), report, &lines),
            _ => assert_eq!(lines, format!("refused {number}\n"), "{name}"),
        }
        lines
    }

    /// Also without the second program: the heading has check's figures; every line ends with a line feed
    /// and fits its buffer; the leaves come in rising number, as many as check counts, as deep as it says.
    fn judge(&mut self, name: &str, mesh: &Mesh, report: Report, lines: &str) {
        let mut rows = lines.split_inclusive('\n');
        let fits = |row: &str| row.ends_with('\n') && row.len() <= LINE;
        assert!(rows.clone().all(fits), "{name}: a line");

        let heading = rows.next().expect("a heading");
        let words: Vec<&str> = heading.trim_end().split(' ').collect();
        let counts = [mesh.vertices.len(), mesh.records.len()];
        let wanted = [
            ("job", u64::from(mesh.job)),
            ("round", u64::from(mesh.round)),
            ("vertices", counts[0] as u64),
            ("records", counts[1] as u64),
            ("leaves", report.leaves),
            ("deepest", report.deepest),
            ("sixfold", report.sixfold),
        ];
        let wanted = wanted.map(|(word, figure)| [word.to_string(), figure.to_string()]);
        assert_eq!(words, wanted.as_flattened(), "{name}: the heading");
        self.longest[0] = self.longest[0].max(heading.len());

        let (mut count, mut deepest, mut least) = (0, 0, 0);
        for row in rows {
            let words: Vec<&str> = row.trim_end().split(' ').collect();
            let number = |at: usize| words[at].parse::<u16>().expect("a number");
            assert_eq!((words.len(), words[5], words[8]), (10, "edge", "gen"));
            let leaf = mesh.records[usize::from(number(0))];
            assert!(number(0) >= least && leaf.is_leaf(), "{name}: {row}");
            assert_eq!([1, 2, 3, 4].map(number), leaf.corners, "{name}: {row}");
            let ends = [number(6), number(7)];
            let corners = ends.iter().all(|end| leaf.corners.contains(end));
            assert!(corners && ends[0] < ends[1], "{name}: {row}");
            count += 1;
            deepest = deepest.max(u64::from(number(9)));
            least = number(0) + 1;
            self.longest[1] = self.longest[1].max(row.len());
        }
        assert_eq!((count, deepest), (report.leaves, report.deepest), "{name}");

        self.leaves += count;
        self.deepest += u64::from(deepest == 15);
        let full = [counts[0] == MOST_VERTICES, counts[1] == MOST_RECORDS];
        let full = [full[0], full[1], full[0] && full[1]];
        let greatest = [mesh.job == u32::MAX, mesh.round == u16::MAX];
        sum(&mut self.full, &full.map(u64::from));
        sum(&mut self.greatest, &greatest.map(u64::from));
    }

    /// The mesh must be listed.
    fn accepted(&mut self, name: &str, mesh: &Mesh) -> String {
        let lines = self.compare(name, &mesh.bytes());
        assert!(lines.starts_with("job "), "{name}: {lines}");
        lines
    }

    /// The mesh must be listed, and another numbering of it with the same heading.
    fn accepted_also_renumbered(&mut self, name: &str, mesh: &Mesh, random: &mut Random) {
        let lines = self.accepted(name, mesh);
        let others = self.accepted("renumbered", &renumbered(mesh, random));
        assert_eq!(others.lines().next(), lines.lines().next(), "{name}");
        self.renumbered += 1;
    }

    /// The input must be refused with that number.
    fn refused(&mut self, name: &str, input: &[u8], number: u64) {
        let lines = self.compare(name, input);
        assert_eq!(lines, format!("refused {number}\n"), "{name}");
    }

    /// Several damaged copies.
    fn damaged(&mut self, name: &str, mesh: &Mesh, copies: usize, random: &mut Random) {
        for _ in 0..copies {
            let (damage, other) = damaged(mesh, random);
            self.compare(&format!("{name}, {damage}"), &other.bytes());
        }
    }

    fn add(&mut self, other: &Tally) {
        self.inputs += other.inputs;
        self.before_20 += other.before_20;
        self.renumbered += other.renumbered;
        self.deepest += other.deepest;
        self.leaves += other.leaves;
        sum(&mut self.numbers, &other.numbers);
        sum(&mut self.rooms, &other.rooms);
        sum(&mut self.longer, &other.longer);
        sum(&mut self.full, &other.full);
        sum(&mut self.greatest, &other.greatest);
        for (mine, theirs) in self.longest.iter_mut().zip(other.longest) {
            *mine = theirs.max(*mine);
        }
    }
}

fn sum(mine: &mut [u64], theirs: &[u64]) {
    for (mine, theirs) in mine.iter_mut().zip(theirs) {
        *mine += theirs;
    }
}

/// An input on which the two differ, in a file.
fn differs(input: &[u8]) -> String {
    let file = format!("{}/differs.list", env!("CARGO_TARGET_TMPDIR"));
    fs::write(&file, input).expect("the input is written");
    file
}

/// One part of the comparison.
type Part = fn(&mut Tally, &mut Random);

/// Each part with the times it is done, each time with numbers of its own: by the program, and by the
/// function.
const PARTS: [(Part, [usize; 2]); 18] = [
    (full_records, [1, 1]),
    (greatest_volumes, [1, 1]),
    (full_tables_of_base_records, [1, 1]),
    (full_tables, [1, 1]),
    (full_vertices, [1, 1]),
    (too_long, [1, 1]),
    (matching_lengths, [1, 1]),
    (lengths, [1, 1]),
    (jobs_and_rounds, [1, 2]),
    (worked, [1, 1]),
    (byte_changes_of_k, [1, 10]),
    (deep, [6, 12]),
    (singles, [2, 20]),
    (refined_and_renumbered, [40, 600]),
    (open_cuts, [40, 1_000]),
    (each_damage, [12, 160]),
    (damaged_meshes, [20, 400]),
    (random_bytes, [2, 60]),
];

/// With any job and round, the greatest often: check asks nothing of either.
fn with_any_job_and_round(mesh: &Mesh, random: &mut Random) -> Mesh {
    Mesh {
        job: [u32::MAX, 0, random.number() as u32][random.below(3)],
        round: [u16::MAX, 0, random.number() as u16][random.below(3)],
        ..mesh.clone()
    }
}

fn with_greatest_job_and_round(mesh: Mesh) -> Mesh {
    Mesh {
        job: u32::MAX,
        round: u16::MAX,
        ..mesh
    }
}

/// Numbers with one digit, two, and so on, at their bounds.
fn jobs_and_rounds(tally: &mut Tally, random: &mut Random) {
    let bounds = (0..10).flat_map(|digits| [10u32.pow(digits) - 1, 10u32.pow(digits)]);
    let bounds: Vec<u32> = bounds.chain([u32::MAX - 1, u32::MAX]).collect();
    let cut = refined(&k(), &[0]).expect("there is room");
    for &job in &bounds {
        for round in [0, random.number() as u16, u16::MAX] {
            let mesh = Mesh {
                job,
                round,
                ..cut.clone()
            };
            tally.accepted("a job", &mesh);
        }
    }
    let rounds = bounds.iter().filter_map(|&bound| u16::try_from(bound).ok());
    for round in rounds.chain([u16::MAX - 1, u16::MAX]) {
        let mesh = Mesh {
            job: random.number() as u32,
            round,
            ..cut.clone()
        };
        tally.accepted("a round", &mesh);
    }
}

/// The rows of "A piece worked by hand" that give a mesh; the cube with each of its pieces selected.
fn worked(tally: &mut Tally, random: &mut Random) {
    let k = k();
    tally.accepted("K", &k);
    tally.accepted("K, nothing selected", &refined(&k, &[]).expect("room"));
    let cut = refined(&k, &[0]).expect("room");
    assert_eq!(tally.accepted("K, select 0", &cut), WORKED);
    let two = refined(&cut, &[1, 2]).expect("room");
    for numbers in [&[][..], &[4], &[3, 4, 5, 6]] {
        let mesh = refined(&two, numbers).expect("room");
        tally.accepted_also_renumbered("then select 1 and 2, and more", &mesh, random);
    }
    let cube = built(&cubes([1, 1, 1], 64), 3);
    tally.accepted("the cube", &cube);
    for number in 0..6 {
        let mesh = refined(&cube, &[number]).expect("room");
        tally.accepted_also_renumbered("the cube, select one", &mesh, random);
    }
}

/// A single piece with each refinement edge and each pair of other marks, cut or not.
fn singles(tally: &mut Tally, random: &mut Random) {
    for mut mesh in single_pieces(random) {
        if random.one_in(2) {
            mesh = refined(&mesh, &[0]).expect("there is room");
        }
        tally.accepted("a single piece", &with_any_job_and_round(&mesh, random));
    }
}

/// Pieces joined and marked anyhow, refined for some rounds.
fn refined_and_renumbered(tally: &mut Tally, random: &mut Random) {
    let mut mesh = random_base(random, 8);
    for _ in 0..1 + random.below(5) {
        let other = with_any_job_and_round(&mesh, random);
        tally.accepted_also_renumbered("refined", &other, random);
        match refined_anyhow(&mesh, random) {
            Some(finer) if finer.records.len() < 600 => mesh = finer,
            _ => break,
        }
    }
}

/// Cuts without closing: most leave a hanging edge.
fn open_cuts(tally: &mut Tally, random: &mut Random) {
    let mut mesh = random_base(random, 8);
    for _ in 0..1 + random.below(3) {
        if let Some(number) = random.pick(&open_leaves(&mesh)) {
            cut_alone(&mut mesh, usize::from(number));
        }
    }
    let mesh = with_any_job_and_round(&mesh, random);
    let lines = tally.compare("cut without closing", &mesh.bytes());
    // What hangs, hangs in any numbering. Without closing a halving may meet an odd sum: 4.
    if lines != "refused 4\n" {
        let others = tally.compare("renumbered", &renumbered(&mesh, random).bytes());
        assert_eq!(others.lines().next(), lines.lines().next());
    }
}

/// To generation 15, by always naming a deepest leaf.
fn deep(tally: &mut Tally, random: &mut Random) {
    let plain = match random.below(3) {
        0 => cubes([1, 1, 1], 64),
        1 => joined(random, 1),
        _ => joined(random, 4),
    };
    let mesh = deepened(plain.marked_anyhow(random));
    let mesh = with_any_job_and_round(&mesh, random);
    tally.accepted_also_renumbered("deep", &mesh, random);
    tally.damaged("deep", &mesh, 4, random);
}

/// Refined until both tables are full: the largest mesh, a byte less, a byte more, and damaged.
fn full_tables(tally: &mut Tally, random: &mut Random) {
    let mesh = filled(built(&separate(48), 1), random);
    let mesh = with_greatest_job_and_round(mesh);
    tally.accepted_also_renumbered("full tables", &mesh, random);
    around_the_largest(tally, &mesh, random);
    tally.damaged("full tables", &mesh, 4, random);
}

fn full_tables_of_base_records(tally: &mut Tally, random: &mut Random) {
    let mesh = full_base(random).marked_anyhow(random);
    let mesh = with_greatest_job_and_round(mesh);
    tally.accepted_also_renumbered("full tables of base records", &mesh, random);
    around_the_largest(tally, &mesh, random);
    tally.damaged("full tables of base records", &mesh, 4, random);
}

fn around_the_largest(tally: &mut Tally, mesh: &Mesh, random: &mut Random) {
    let mut bytes = mesh.bytes();
    assert_eq!(bytes.len(), LARGEST_MESH);
    tally.refused("a byte less", &bytes[..LARGEST_MESH - 1], 1);
    bytes.push(random.number() as u8);
    tally.refused("one byte too many", &bytes, 1);
}

/// The largest mesh with volumes near the greatest. At four corners of the grid's cube, no two of them on one
/// edge of it, stand 256 vertices each, in a plane that cuts the corner off, so that none lies in a piece of
/// another; a piece has one of each, and no two pieces share a face.
fn greatest_volumes(tally: &mut Tally, _: &mut Random) {
    let mut plain = Plain::default();
    let steps = |x| (0..=22 - x).map(move |y| [x, y, 22 - x - y]);
    for corner in [[-1, -1, -1], [-1, 1, 1], [1, -1, 1], [1, 1, -1]] {
        for steps in (0..=22).flat_map(steps).take(256) {
            let place = [0, 1, 2].map(|axis| corner[axis] * (32_736 - 32 * steps[axis]));
            plain.places.push(place);
        }
    }
    for first in 0..256 {
        for step in 0..12 {
            let slots = [(0, 0), (1, 1), (2, 3), (3, 7)];
            let piece = slots.map(|(slot, steps)| 256 * slot + (first + steps * step) % 256);
            plain.pieces.push(piece);
        }
    }
    let mesh = with_greatest_job_and_round(plain.built(1));
    let lines = tally.accepted("the greatest volumes", &mesh);
    assert_eq!(mesh.bytes().len(), LARGEST_MESH);
    let heading = lines.lines().next().expect("a heading");
    let sixfold = heading.rsplit(' ').next().expect("a figure");
    assert_eq!(sixfold.len(), 19, "{heading}");
}

/// 8 by 8 by 8 cubes: 3,072 records.
fn full_records(tally: &mut Tally, random: &mut Random) {
    let mesh = with_any_job_and_round(&block(MOST_RECORDS).built(5), random);
    tally.accepted("8 by 8 by 8 cubes", &mesh);
}

/// 1,024 vertices in few pieces; the last ones cut.
fn full_vertices(tally: &mut Tally, random: &mut Random) {
    let mesh = scattered(MOST_VERTICES).marked_anyhow(random);
    let mesh = with_any_job_and_round(&mesh, random);
    tally.accepted_also_renumbered("1,024 base vertices", &mesh, random);
    let base = separate(255).marked_anyhow(random);
    let mesh = refined(&base, &[251, 252, 253, 254]).expect("there is room");
    tally.accepted_also_renumbered("1,024 vertices", &mesh, random);
    let mut more = mesh.clone();
    more.vertices.push(mesh.vertices[0]);
    tally.refused("a vertex too many", &more.bytes(), 3);
}

/// Longer than the largest mesh: 1, whatever the bytes are.
fn too_long(tally: &mut Tally, random: &mut Random) {
    let mesh = largest();
    for length in [
        LARGEST_MESH + 1,
        LARGEST_MESH + 2,
        65_535,
        65_536,
        65_537,
        2 * LARGEST_MESH,
        200_000,
    ] {
        for begin in [&mesh[..], &stored("worked.tmb"), b"TMB", b""] {
            let mut bytes = begin.to_vec();
            bytes.resize(length, 0);
            tally.refused("too long, zeros last", &bytes, 1);
            bytes[begin.len()..].copy_from_slice(&junk(random, length - begin.len()));
            tally.refused("too long", &bytes, 1);
        }
        let twice: Vec<u8> = mesh.iter().copied().cycle().take(length).collect();
        tally.refused("too long, a mesh over and over", &twice, 1);
    }
}

/// Counts at and past each bound, with the matching length. Where it is longer than the largest mesh check
/// alone gives 2 or 3, the listing 1.
fn matching_lengths(tally: &mut Tally, _: &mut Random) {
    let header = &k().bytes()[..20];
    // Base vertices, vertices, base records, records; what check gives.
    for (row, number) in [
        // Vertices of zeros have no parents of 65,535: 4, where rule 3 lets the counts pass.
        ([4, 4, 1, 1], 4),
        ([4, MOST_VERTICES, 1, MOST_RECORDS], 4),
        (
            [MOST_VERTICES, MOST_VERTICES, MOST_RECORDS, MOST_RECORDS],
            4,
        ),
        ([3, 4, 1, 1], 3),
        ([3, 3, 1, 1], 3),
        ([0, 0, 0, 0], 3),
        ([4, 4, 0, 1], 3),
        ([5, 4, 1, 1], 3),
        ([4, 4, 2, 1], 3),
        ([65_535, 4, 65_535, 1], 3),
        ([4, MOST_VERTICES + 1, 1, 1], 3),
        ([4, MOST_VERTICES + 1, 1, MOST_RECORDS - 1], 3),
        ([4, MOST_VERTICES + 1, 1, MOST_RECORDS], 3),
        ([4, MOST_VERTICES - 2, 1, MOST_RECORDS + 1], 3),
        ([4, MOST_VERTICES, 1, MOST_RECORDS + 1], 3),
        ([4, 4, 1, MOST_RECORDS + 1], 3),
        ([4, 4, 1, 3_673], 3),
        ([4, 6_244, 1, 1], 3),
        ([4, 6_245, 1, 1], 3),
        ([4, 7_000, 1, 1], 3),
        ([4, 7_000, 1, 7_000], 3),
        ([4, 65_535, 1, 65_535], 3),
        ([65_535; 4], 3),
    ] {
        let mut bytes = header.to_vec();
        for (at, count) in [11, 13, 15, 17].into_iter().zip(row) {
            bytes[at..at + 2].copy_from_slice(&(count as u16).to_le_bytes());
        }
        let length = 20 + 10 * row[1] + 17 * row[3];
        bytes.resize(length, 0);
        let here = |number| if length > LARGEST_MESH { 1 } else { number };
        assert_eq!(tmb_check(&bytes).number, number, "{row:?}");
        tally.refused("a matching length", &bytes, here(number));
        bytes[3] = 2;
        assert_eq!(tmb_check(&bytes).number, 2, "{row:?}");
        tally.refused("a matching length, another version", &bytes, here(2));
        bytes.push(0);
        tally.refused("a byte more than the matching length", &bytes, 1);
    }
}

/// Cut short to every length, and extended: 1.
fn lengths(tally: &mut Tally, random: &mut Random) {
    let worked = stored("worked.tmb");
    for length in 0..worked.len() {
        tally.refused("cut short", &worked[..length], 1);
    }
    let mut longer = worked;
    for _ in 0..20 {
        longer.push(random.number() as u8);
        tally.refused("extended", &longer, 1);
    }
}

/// Every byte of the worked example: a bit flipped, and another value.
fn byte_changes_of_k(tally: &mut Tally, random: &mut Random) {
    let mut bytes = stored("worked.tmb");
    for at in 0..bytes.len() {
        let before = bytes[at];
        for change in [1 << random.below(8), 1 + random.below(255) as u8] {
            bytes[at] = before ^ change;
            tally.compare("a byte changed", &bytes);
        }
        bytes[at] = before;
    }
}

/// Each kind of damage by itself.
fn each_damage(tally: &mut Tally, random: &mut Random) {
    let mut mesh = random_base(random, 6);
    for _ in 0..2 {
        mesh = refined_anyhow(&mesh, random).unwrap_or(mesh);
    }
    for (name, kind) in KINDS {
        // Few kinds break rules 8 and 23, and mostly an earlier one too.
        let few = ["unused base vertex", "a corner in another piece"];
        let times = if few.contains(&name) { 4 } else { 1 };
        for _ in 0..times {
            let mut other = mesh.clone();
            if kind(&mut other, random) {
                tally.compare(name, &other.bytes());
            }
        }
    }
}

/// Refined meshes, damaged; their bytes changed, an end taken or added.
fn damaged_meshes(tally: &mut Tally, random: &mut Random) {
    let mut mesh = random_base(random, 6);
    for _ in 0..random.below(4) {
        mesh = refined_anyhow(&mesh, random).unwrap_or(mesh);
    }
    let mesh = with_any_job_and_round(&mesh, random);
    tally.accepted("before damage", &mesh);
    tally.damaged("damaged", &mesh, 8, random);
    for _ in 0..6 {
        let mut bytes = mesh.bytes();
        match random.below(6) {
            0 => bytes.truncate(random.below(bytes.len())),
            1 => bytes.push(random.number() as u8),
            _ => {
                for _ in 0..1 + random.below(3) {
                    let at = random.below(bytes.len());
                    let flipped = bytes[at] ^ 1 << random.below(8);
                    bytes[at] = [flipped, random.number() as u8][random.below(2)];
                }
            }
        }
        tally.compare("bytes changed", &bytes);
    }
}

/// Bytes of any kind and number; a whole header before them half of the time, and then the matching
/// length.
fn random_bytes(tally: &mut Tally, random: &mut Random) {
    for _ in 0..20 {
        let length = [0, 1, 19, 20, 21, 77, random.below(2_000)][random.below(7)];
        let mut bytes = junk(random, length);
        if random.one_in(2) {
            let (vertices, records) = (4 + random.below(8), 1 + random.below(8));
            bytes.resize(20 + 10 * vertices + 17 * records, 255);
            bytes[..11].copy_from_slice(&k().bytes()[..11]);
            let counts = [4, vertices, 1, records];
            let counts = counts.map(|count| (count as u16).to_le_bytes());
            bytes[11..19].copy_from_slice(counts.as_flattened());
            bytes[19] = 0;
        }
        tally.compare("random bytes", &bytes);
    }
}

fn seed() -> u64 {
    match std::env::var("COMPARED_SEED") {
        Ok(text) => text.parse().expect("COMPARED_SEED is a number"),
        Err(_) => 20_261_115,
    }
}

/// Does all parts with the program or with the function, and asserts what holds of both.
fn compared(name: &str, lister: Lister) -> Tally {
    let seed = seed();
    let tasks: Vec<Part> = PARTS
        .into_iter()
        .flat_map(|(part, times)| vec![part; times[lister as usize]])
        .collect();
    let next = AtomicUsize::new(0);
    let work = || {
        let mut tally = Tally::new(lister);
        loop {
            let number = next.fetch_add(1, Ordering::Relaxed);
            let Some(part) = tasks.get(number) else {
                return tally;
            };
            // The same numbers whichever thread takes the task.
            let own = seed ^ (number as u64 + 1) << 32;
            let mut random = Random::new(own);
            tally.random = Random::new(!own);
            part(&mut tally, &mut random);
        }
    };
    let mut tally = Tally::new(lister);
    thread::scope(|scope| {
        let threads = [scope.spawn(work), scope.spawn(work)];
        for thread in threads {
            match thread.join() {
                Ok(part) => tally.add(&part),
                Err(panic) => std::panic::resume_unwind(panic),
            }
        }
    });

    // Not by println, which a passing test keeps to itself.
    let mut out = std::io::stdout().lock();
    let mut line = |text: String| writeln!(out, "{name} compared: {text}").expect("a line");
    line(format!(
        "seed {seed} (COMPARED_SEED), {} inputs",
        tally.inputs
    ));
    for (number, times) in tally.numbers.iter().enumerate() {
        if *times > 0 {
            line(format!("number {number}: {times}"));
        }
    }
    line(format!(
        "longer than the largest mesh {}, another number by check alone in {}",
        tally.longer[0], tally.longer[1]
    ));
    line(format!("renumbered {}", tally.renumbered));
    line(format!("leaves of generation 15 in {}", tally.deepest));
    line(format!(
        "1,024 vertices, 3,072 records, both in {:?}",
        tally.full
    ));
    line(format!(
        "job 4,294,967,295, round 65,535 in {:?}",
        tally.greatest
    ));
    line(format!(
        "{} lines of leaves; the longest heading has {} bytes, the longest of them {}",
        tally.leaves, tally.longest[0], tally.longest[1]
    ));

    assert!(tally.inputs >= FEWEST[lister as usize]);
    assert!(tally.numbers[0] >= FEWEST_LISTED[lister as usize]);
    for number in (0..=10).chain([22, 23]) {
        let times = tally.numbers[number];
        assert!(
            times >= FEWEST_OF_EACH[lister as usize],
            "number {number}: {times} times"
        );
    }
    assert!(tally.longer[0] >= 50 && tally.longer[1] >= 15);
    assert!(tally.renumbered >= 50);
    assert!(tally.deepest >= 5);
    assert!(tally.full.iter().all(|&times| times >= 5));
    assert!(tally.greatest.iter().all(|&times| times >= 50));
    assert!(tally.leaves >= 15_000);
    assert!(tally.longest[0] >= 100 && tally.longest[1] >= 40);
    tally
}

#[test]
fn the_program_and_the_second_agree() {
    compared("list", Lister::Program);
}

#[test]
fn the_function_and_the_second_agree() {
    let tally = compared("tmb_list", Lister::Function);
    let calls: u64 = tally.rooms.iter().sum();
    let mut out = std::io::stdout().lock();
    let mut line = |text: String| writeln!(out, "tmb_list compared: {text}").expect("a line");
    line(format!(
        "{calls} calls, with output buffers of 0, one less than the text, the text, full-size, longer: {:?}",
        tally.rooms
    ));
    line(format!("refused in too short a buffer {}", tally.before_20));
    drop(out);

    assert!(tally.numbers[20] >= FEWEST_OF_EACH[1]);
    assert!(tally.rooms.iter().all(|&times| times >= 1_000));
    assert!(tally.before_20 >= 1_000);
}

/// "Reads at most 62,485 bytes": the program shares its place in a file with us, and where it stopped
/// reading we would go on.
#[test]
fn no_more_is_read_than_one_byte_too_many() {
    let path = Path::new(env!("CARGO_TARGET_TMPDIR")).join("list-input");
    let mut bytes = largest();
    bytes.resize(200_000, 0);
    for length in [
        0,
        121,
        LARGEST_MESH,
        LARGEST_MESH + 1,
        LARGEST_MESH + 2,
        200_000,
    ] {
        fs::write(&path, &bytes[..length]).expect("the input is written");
        let mut file = File::open(&path).expect("the input");
        let mut command = program();
        command.stdin(file.try_clone().expect("the same place"));
        let lines = answer(&mut started(command));
        assert!(lines == list(&bytes[..length]), "{length} bytes");
        let place = file.stream_position().expect("a place");
        assert_eq!(place, length.min(LARGEST_MESH + 1) as u64);
    }
}

/// The program ends though its input does not.
#[test]
fn an_input_without_end() {
    let mut child = started(program());
    let mut stdin = child.stdin.take().expect("a pipe");
    let feeder = thread::spawn(move || loop {
        if let Err(error) = stdin.write_all(&[255; 1_000]) {
            return error.kind();
        }
    });
    assert_eq!(answer(&mut child), REFUSED_1);
    assert_eq!(feeder.join().expect("an error"), ErrorKind::BrokenPipe);

    let mut command = program();
    command.stdin(File::open("/dev/zero").expect("zeros"));
    assert_eq!(answer(&mut started(command)), REFUSED_1);

    // Nobody closes this pipe: after one byte too many no end is waited for.
    let mut child = started(program());
    let mut stdin = child.stdin.take().expect("a pipe");
    let mut bytes = largest();
    bytes.push(0);
    stdin.write_all(&bytes).expect("all of it is taken");
    assert_eq!(answer(&mut child), REFUSED_1);
    drop(stdin);
}

/// No read gets more than one part.
#[test]
fn an_input_that_comes_in_parts() {
    let mut random = Random::new(seed());
    let cube = stored("cube.tmb");
    let mut too_long = largest();
    too_long.push(0);
    let longer = vec![0; 100_000];
    for (input, longest) in [
        (&[][..], 1),
        (&stored("worked.tmb"), 1),
        (&stored("hanging-edge.tmb"), 1),
        (&cube, 1),
        (&cube, 40),
        (&cube[..415], 40),
        (&too_long[..LARGEST_MESH], 50),
        (&too_long[..LARGEST_MESH], 4_096),
        (&too_long, 4_096),
        (&longer, 4_096),
    ] {
        // A socket of messages: a read gives one of them, an empty one is the end.
        let (ours, theirs) = UnixDatagram::pair().expect("a pair");
        let mut command = program();
        command.stdin(OwnedFd::from(theirs));
        let mut child = started(command);
        let mut parts = Vec::new();
        let mut rest = input;
        while !rest.is_empty() {
            let length = rest.len().min(1 + random.below(longest));
            let (part, others) = rest.split_at(length);
            parts.push(part);
            rest = others;
        }
        parts.push(&[]);
        let lines = thread::scope(|scope| {
            scope.spawn(move || {
                // The program may stop reading before the end.
                let _ = parts.iter().try_for_each(|part| ours.send(part).map(drop));
            });
            answer(&mut child)
        });
        assert!(lines == list(input), "{} bytes", input.len());
    }
}

/// One write has the whole listing.
#[test]
fn the_listing_is_written_at_once() {
    for input in [
        stored("worked.tmb"),
        stored("cube.tmb"),
        stored("empty.tmb"),
        stored("hanging-edge.tmb"),
        largest(),
    ] {
        // A socket of messages: a write makes one of them, and an empty one of ours is the last.
        let (ours, theirs) = UnixDatagram::pair().expect("a pair");
        let mut command = program();
        command.stdout(OwnedFd::from(theirs.try_clone().expect("the same socket")));
        let mut child = started(command);
        let reader = thread::spawn(move || {
            let mut writes = Vec::new();
            let mut message = vec![0; LARGEST_LISTING];
            loop {
                match ours.recv(&mut message).expect("a message") {
                    0 => return writes,
                    length => writes.push(message[..length].to_vec()),
                }
            }
        });
        let status = fed(&mut child, &input, ended);
        theirs.send(&[]).expect("the last message");
        let writes = reader.join().expect("messages");
        assert_eq!(status.code(), Some(0));
        assert!(writes == [list(&input)], "{} bytes", input.len());
    }
}

/// The program ends all the same: of itself, or by the signal.
#[test]
fn standard_output_that_cannot_be_written() {
    let closed = || {
        // Shut down, not only closed: another program that starts just now may hold it for a moment.
        let (ours, theirs) = UnixStream::pair().expect("a pair");
        ours.shutdown(Shutdown::Both).expect("shut down");
        Stdio::from(OwnedFd::from(theirs))
    };
    let full = || Stdio::from(OpenOptions::new().write(true).open("/dev/full").unwrap());
    let unwritable = || Stdio::from(File::open("/dev/null").unwrap());
    for input in [stored("empty.tmb"), stored("cube.tmb")] {
        for (mut command, stdout) in [
            (program(), closed()),
            (from_shell(SILENT), closed()),
            (program(), full()),
            (program(), unwritable()),
            (from_shell("exec \"$0\" >&-"), Stdio::null()),
        ] {
            command.stdout(stdout);
            let status = fed(&mut started(command), &input, ended);
            assert!(matches!(status.signal(), None | Some(BROKEN_PIPE)));
        }
    }
}

/// Somebody reads the first word and goes away: so does the program.
#[test]
fn standard_output_that_is_read_no_more() {
    let input = largest();
    // More than a pipe holds.
    assert!(list(&input).len() > 100_000);
    for command in [program(), from_shell(SILENT)] {
        let status = fed(&mut started(command), &input, |child| {
            let mut stdout = child.stdout.take().expect("a pipe");
            let mut first = [0; 4];
            stdout.read_exact(&mut first).expect("the heading");
            assert_eq!(&first, b"job ");
            drop(stdout);
            ended(child)
        });
        assert!(matches!(status.signal(), None | Some(BROKEN_PIPE)));
    }
}

/// No standard input, and one that can't be read: as if it were empty.
#[test]
fn standard_input_that_cannot_be_read() {
    let mut without = started(from_shell("exec \"$0\" <&-"));
    assert_eq!(answer(&mut without), REFUSED_1);
    let mut command = program();
    command.stdin(File::open(env!("CARGO_MANIFEST_DIR")).expect("a folder"));
    assert_eq!(answer(&mut started(command)), REFUSED_1);
}
