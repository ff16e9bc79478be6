//! What the tests share: a folder for each, the program run in it, and meshes made with the second
//! program.
#![allow(dead_code)]

use second::mesh::{Mesh, Vertex};
use second::piece::{children, ends};
use std::ffi::OsStr;
use std::fs;
use std::io::Write;
use std::os::unix::ffi::OsStrExt;
use std::path::{Path, PathBuf};
use std::process::{Command, Output, Stdio};

/// A folder of its own for one test, with the program to run in it.
pub struct Desk {
    pub folder: PathBuf,
    pub program: PathBuf,
}

impl Desk {
    pub fn new(name: &str) -> Desk {
        let folder = Path::new(env!("CARGO_TARGET_TMPDIR")).join(name);
        let _ = fs::remove_dir_all(&folder);
        fs::create_dir_all(&folder).unwrap();
        Desk {
            folder,
            program: env!("CARGO_BIN_EXE_tmb").into(),
        }
    }

    /// Puts `tmb` into a folder of its own. A link, so that no program is run that is still written.
    pub fn link_program(&mut self) {
        let folder = self.folder.with_extension("bin");
        let _ = fs::remove_dir_all(&folder);
        fs::create_dir_all(&folder).unwrap();
        fs::hard_link(&self.program, folder.join("tmb")).unwrap();
        self.program = folder.join("tmb");
    }

    pub fn command<A: AsRef<OsStr>>(&self, arguments: &[A]) -> Command {
        let mut command = Command::new(&self.program);
        command.args(arguments).current_dir(&self.folder);
        command
    }

    pub fn run<A: AsRef<OsStr>>(&self, arguments: &[A]) -> Output {
        self.run_with_input(arguments, b"")
    }

    pub fn run_with_input<A: AsRef<OsStr>>(&self, arguments: &[A], input: &[u8]) -> Output {
        let mut child = self
            .command(arguments)
            .stdin(Stdio::piped())
            .stdout(Stdio::piped())
            .stderr(Stdio::piped())
            .spawn()
            .unwrap();
        let mut stdin = child.stdin.take().unwrap();
        std::thread::scope(|scope| {
            scope.spawn(move || {
                // The program may stop reading before the end.
                let _ = stdin.write_all(input);
            });
            child.wait_with_output().unwrap()
        })
    }

    pub fn write(&self, name: impl AsRef<Path>, bytes: &[u8]) {
        fs::write(self.folder.join(name), bytes).unwrap();
    }

    pub fn read(&self, name: impl AsRef<Path>) -> Vec<u8> {
        fs::read(self.folder.join(name)).unwrap()
    }

    /// The names of all files, sorted, each with its bytes if it is a regular one.
    pub fn files(&self) -> Vec<(Vec<u8>, Vec<u8>)> {
        let named = |entry: fs::DirEntry| {
            let bytes = match entry.file_type().unwrap().is_file() {
                true => fs::read(entry.path()).unwrap(),
                false => Vec::new(),
            };
            (entry.file_name().as_bytes().to_vec(), bytes)
        };
        let entries = fs::read_dir(&self.folder).unwrap();
        let mut files: Vec<_> = entries.map(|entry| named(entry.unwrap())).collect();
        files.sort();
        files
    }
}

fn text(bytes: &[u8]) -> String {
    String::from_utf8(bytes.to_vec()).unwrap()
}

/// Status 0, these bytes on standard output, nothing on standard error.
#[track_caller]
pub fn gives(output: &Output, bytes: &[u8]) {
    assert_eq!(text(&output.stderr), "");
    assert!(
        output.stdout == bytes,
        "{}",
        String::from_utf8_lossy(&output.stdout)
    );
    assert_eq!(output.status.code(), Some(0));
}

/// Status 0, this line on standard output.
#[track_caller]
pub fn says(output: &Output, line: &str) {
    gives(output, format!("{line}\n").as_bytes());
}

/// Status 1, and one line on standard error: the number, document 01's sentence as the second program
/// has it, and the explanation, if there is one, in brackets.
#[track_caller]
pub fn refuses(output: &Output, number: u32, why: &str) {
    let why = match why {
        "" => String::new(),
        why => format!(" ({why})"),
    };
    let line = format!("tmb: refused {number}: {}{why}\n", second::reason(number));
    assert_eq!(text(&output.stderr), line);
    assert_eq!(text(&output.stdout), "");
    assert_eq!(output.status.code(), Some(1));
}

/// Status 2, and this message on standard error.
#[track_caller]
pub fn wrong(output: &Output, message: &str) {
    assert_eq!(text(&output.stderr), format!("tmb: {message}\n"));
    assert_eq!(text(&output.stdout), "");
    assert_eq!(output.status.code(), Some(2));
}

/// A sample that comes with the project.
pub fn sample(name: &str) -> PathBuf {
    Path::new(env!("CARGO_MANIFEST_DIR"))
        .join("../docs/samples")
        .join(name)
}

pub const K_TEXT: &str = "v 0 0 0\nv 64 0 0\nv 64 64 0\nv 64 64 64\np 0 1 2 3\n";
const K: [i16; 12] = [0, 0, 0, 64, 0, 0, 64, 64, 0, 64, 64, 64];

/// K of "A piece worked by hand".
pub fn k() -> Vec<u8> {
    second::build_vec(7, &K, &[0, 1, 2, 3]).unwrap()
}

/// K with record 0 cut.
pub fn k1() -> Vec<u8> {
    refined(&k(), &[0])
}

/// The cube of side 64 as six pieces round the diagonal.
pub fn cube() -> Vec<u8> {
    let places: Vec<i16> = (0..8)
        .flat_map(|n| [n & 1, n >> 1 & 1, n >> 2].map(|bit| 64 * bit))
        .collect();
    let corners = [
        0, 1, 3, 7, 0, 1, 5, 7, 0, 2, 3, 7, 0, 2, 6, 7, 0, 4, 5, 7, 0, 4, 6, 7,
    ];
    second::build_vec(1, &places, &corners).unwrap()
}

/// So many pieces like K that share nothing.
pub fn separate(pieces: u16) -> Vec<u8> {
    let place = |piece: u16| [256 * (piece % 16) as i16, 256 * (piece / 16) as i16, 0];
    let moved = |piece: u16| {
        let at = place(piece);
        (0..12).map(move |n| K[n] + at[n % 3])
    };
    let places: Vec<i16> = (0..pieces).flat_map(moved).collect();
    let corners: Vec<u16> = (0..4 * pieces).collect();
    second::build_vec(3, &places, &corners).unwrap()
}

/// A selection for the mesh's own job and round.
pub fn chosen(mesh: &[u8], numbers: &[u16]) -> Vec<u8> {
    let mesh = Mesh::read(mesh).unwrap();
    second::selection(mesh.job, mesh.round, numbers)
}

/// Refined by the second program.
pub fn refined(mesh: &[u8], numbers: &[u16]) -> Vec<u8> {
    second::refine_vec(mesh, &chosen(mesh, numbers)).unwrap()
}

/// Cuts taken back by the second program.
pub fn taken_back(mesh: &[u8], numbers: &[u16]) -> Vec<u8> {
    second::take_back_vec(mesh, &chosen(mesh, numbers)).unwrap()
}

/// K refined by 0 and then by 1 and 2: records 0, 1 and 2 are cut.
pub fn k2() -> Vec<u8> {
    refined(&k1(), &[1, 2])
}

/// A changed mesh.
pub fn changed(mesh: &[u8], change: impl FnOnce(&mut Mesh)) -> Vec<u8> {
    let mut mesh = Mesh::read(mesh).unwrap();
    change(&mut mesh);
    mesh.bytes()
}

/// Bytes with some of them replaced.
pub fn poked(bytes: &[u8], at: usize, new: &[u8]) -> Vec<u8> {
    let mut bytes = bytes.to_vec();
    bytes[at..at + new.len()].copy_from_slice(new);
    bytes
}

/// The bytes of a mesh with two corners of a record exchanged and nothing else.
pub fn corners_exchanged(mesh: &[u8], record: usize, slots: [usize; 2]) -> Vec<u8> {
    let vertices = Mesh::read(mesh).unwrap().vertices.len();
    let [one, other] = slots.map(|slot| 20 + 10 * vertices + 17 * record + 2 * slot);
    let mut bytes = mesh.to_vec();
    for at in 0..2 {
        bytes.swap(one + at, other + at);
    }
    bytes
}

/// The bytes of a mesh with a vertex moved to another place and nothing else.
pub fn moved(mesh: &[u8], vertex: usize, place: [i16; 3]) -> Vec<u8> {
    let place: Vec<u8> = place.into_iter().flat_map(i16::to_le_bytes).collect();
    poked(mesh, 20 + 10 * vertex, &place)
}

/// The cube with one record cut and nothing closed.
pub fn hanging() -> Vec<u8> {
    cut_first(&cube())
}

/// A mesh of base records with the first one cut and nothing closed.
pub fn cut_first(mesh: &[u8]) -> Vec<u8> {
    changed(mesh, |mesh| {
        let (p, q) = ends(&mesh.records[0], mesh.records[0].edge).unwrap();
        let place = [0, 1, 2].map(|axis| {
            let sum = |n: u16| mesh.vertices[usize::from(n)].place[axis];
            (sum(p) + sum(q)) / 2
        });
        mesh.vertices.push(Vertex {
            place,
            parents: [p, q],
        });
        let new = children(&mesh.records[0], mesh.vertices.len() as u16 - 1).unwrap();
        mesh.records[0].first_child = mesh.records.len() as u16;
        mesh.records.extend(new);
    })
}

/// K refined until it has a leaf of generation 15, and that leaf's number.
pub fn deep() -> (Vec<u8>, u16) {
    let mut bytes = k();
    loop {
        let mesh = Mesh::read(&bytes).unwrap();
        let deepest = mesh.leaves().max_by_key(|(_, leaf)| leaf.generation);
        let (number, leaf) = deepest.unwrap();
        if leaf.generation == 15 {
            return (bytes, number as u16);
        }
        bytes = refined(&bytes, &[number as u16]);
    }
}

/// A small source of random numbers: the same seed gives the same numbers everywhere.
pub struct Random(pub u64);

impl Random {
    pub fn below(&mut self, bound: u64) -> u64 {
        self.0 = self
            .0
            .wrapping_mul(6_364_136_223_846_793_005)
            .wrapping_add(1_442_695_040_888_963_407);
        (self.0 >> 33) % bound
    }
}
