//! The program `second`: its commands, what it prints, its files and its exit status.

mod common;
use common::*;
use std::fs;
use std::io::Write;
use std::path::{Path, PathBuf};
use std::process::{Command, Output, Stdio};

/// A directory of its own for one test.
struct Desk(PathBuf);

impl Desk {
    fn new(name: &str) -> Desk {
        let path = Path::new(env!("CARGO_TARGET_TMPDIR")).join(name);
        let _ = fs::remove_dir_all(&path);
        fs::create_dir_all(&path).unwrap();
        Desk(path)
    }

    /// Runs the program in the directory.
    fn run(&self, arguments: &[&str]) -> Output {
        self.run_with_input(arguments, &[])
    }

    fn run_with_input(&self, arguments: &[&str], input: &[u8]) -> Output {
        let mut child = Command::new(env!("CARGO_BIN_EXE_second"))
            .args(arguments)
            .current_dir(&self.0)
            .stdin(Stdio::piped())
            .stdout(Stdio::piped())
            .stderr(Stdio::piped())
            .spawn()
            .unwrap();
        // The program may stop reading before the end.
        let _ = child.stdin.take().unwrap().write_all(input);
        child.wait_with_output().unwrap()
    }

    fn write(&self, name: &str, bytes: &[u8]) {
        fs::write(self.0.join(name), bytes).unwrap();
    }

    fn read(&self, name: &str) -> Vec<u8> {
        fs::read(self.0.join(name)).unwrap()
    }

    /// The names of all files, sorted.
    fn files(&self) -> Vec<String> {
        let mut names: Vec<String> = fs::read_dir(&self.0)
            .unwrap()
            .map(|entry| entry.unwrap().file_name().into_string().unwrap())
            .collect();
        names.sort();
        names
    }
}

/// A sample that comes with the program.
fn sample(name: &str) -> String {
    let path = Path::new(env!("CARGO_MANIFEST_DIR"))
        .join("samples")
        .join(name);
    path.to_str().unwrap().to_string()
}

/// Status 0, these words, nothing on standard error.
fn prints(output: Output, words: &str) {
    assert_eq!(String::from_utf8(output.stderr).unwrap(), "");
    assert_eq!(String::from_utf8(output.stdout).unwrap(), words);
    assert_eq!(output.status.code(), Some(0));
}

/// Status 1, these words on standard output, nothing on standard error.
fn refuses(output: Output, words: &str) {
    assert_eq!(String::from_utf8(output.stderr).unwrap(), "");
    assert_eq!(String::from_utf8(output.stdout).unwrap(), words);
    assert_eq!(output.status.code(), Some(1));
}

/// Status 2, nothing on standard output, a message with these words on standard error.
fn wrong(output: Output, words: &str) {
    let message = String::from_utf8(output.stderr).unwrap();
    assert!(message.contains(words), "{message}");
    assert_eq!(output.stdout, b"");
    assert_eq!(output.status.code(), Some(2));
}

#[test]
fn the_worked_piece_from_plain_mesh_to_listing() {
    let desk = Desk::new("worked");
    prints(
        desk.run(&["build", "7", &sample("k.txt"), "k.tmb"]),
        "accepted: 77 bytes\n",
    );
    assert_eq!(desk.read("k.tmb"), k());
    let line = "accepted: leaves 1 deepest 0 sixfold 262144\n";
    prints(desk.run(&["check", "k.tmb"]), line);
    prints(
        desk.run(&["select", "k.tmb", "choice", "0"]),
        "selection: 15 bytes\n",
    );
    assert_eq!(desk.read("choice"), second::selection(7, 0, &[0]));
    prints(
        desk.run(&["refine", "k.tmb", "choice", "k1.tmb"]),
        "accepted: 121 bytes\n",
    );
    assert_eq!(desk.read("k1.tmb"), refined(&k(), &[0]));
    assert_eq!(desk.read("k.tmb"), k());
    let listing = "job 7 round 1 vertices 5 records 3 leaves 2 deepest 1 sixfold 262144\n\
                   1 0 1 2 4 edge 0 2 gen 1\n\
                   2 4 1 2 3 edge 1 3 gen 1\n";
    prints(
        desk.run_with_input(&["list"], &desk.read("k1.tmb")),
        listing,
    );
    // The selection is dead now.
    refuses(
        desk.run(&["refine", "k1.tmb", "choice", "k2.tmb"]),
        "refused 14: another round: the selection has expired\n",
    );
    // A mesh may be refined in place.
    desk.run(&["select", "k1.tmb", "choice", "1", "2"]);
    prints(
        desk.run(&["refine", "k1.tmb", "choice", "k1.tmb"]),
        "accepted: 209 bytes\n",
    );
    assert_eq!(decode(&desk.read("k1.tmb")).round, 2);
    assert_eq!(desk.files(), ["choice", "k.tmb", "k1.tmb"]);
}

#[test]
fn cuts_taken_back() {
    let desk = Desk::new("taken-back");
    let finer = refined(&refined(&k(), &[0]), &[1, 2]);
    desk.write("k", &finer);
    desk.run(&["select", "k", "request", "1"]);
    prints(
        desk.run(&["take-back", "k", "request", "k"]),
        "accepted: 165 bytes\n",
    );
    assert_eq!(desk.read("k"), taken_back(&finer, &[1]));
    refuses(
        desk.run(&["take-back", "k", "request", "k"]),
        "refused 14: another round: the selection has expired\n",
    );
    desk.run(&["select", "k", "request", "1"]);
    refuses(
        desk.run(&["take-back", "k", "request", "new"]),
        "refused 30: a named record that is uncut\n",
    );
    assert_eq!(desk.files(), ["k", "request"]);
}

#[test]
fn the_cube() {
    let desk = Desk::new("cube");
    prints(
        desk.run(&["build", "1", &sample("cube.txt"), "cube"]),
        "accepted: 202 bytes\n",
    );
    assert_eq!(desk.read("cube"), cube());
    prints(
        desk.run(&["select", "cube", "choice", "3"]),
        "selection: 15 bytes\n",
    );
    prints(
        desk.run(&["refine", "cube", "choice", "cube"]),
        "accepted: 416 bytes\n",
    );
    let line = "accepted: leaves 12 deepest 1 sixfold 1572864\n";
    prints(desk.run(&["check", "cube"]), line);
}

#[test]
fn an_empty_selection() {
    let desk = Desk::new("empty");
    desk.write("k", &k());
    prints(
        desk.run(&["select", "k", "choice"]),
        "selection: 13 bytes\n",
    );
    prints(
        desk.run(&["refine", "k", "choice", "k"]),
        "accepted: 77 bytes\n",
    );
    assert_eq!(desk.read("k"), refined(&k(), &[]));
}

#[test]
fn plain_meshes() {
    let desk = Desk::new("plain");
    // Comments, empty lines, tabs, both sorts of lines mixed, other line ends.
    let text = "# K\n\np 0 1 2 3 # the piece\nv 0 0 0\n  v\t64 0 0\r\nv +64 64 0\n#\nv 64 64 64";
    desk.write("k.txt", text.as_bytes());
    prints(
        desk.run(&["build", "7", "k.txt", "k"]),
        "accepted: 77 bytes\n",
    );
    assert_eq!(desk.read("k"), k());
    for (line, text) in [
        (1, "v 0 0\n"),
        (1, "v 0 0 0 0\n"),
        (2, "v 0 0 0\np 0 1 2\n"),
        (2, "# K\np 0 1 2 3 4\n"),
        (1, "v 0 0 32768\n"),
        (1, "v 0 0 0.5\n"),
        (1, "p 0 1 2 65536\n"),
        (1, "p 0 1 2 -1\n"),
        (3, "v 0 0 0\n\nx 0 0 0\n"),
        (1, "v0 0 0\n"),
    ] {
        desk.write("bad.txt", text.as_bytes());
        wrong(
            desk.run(&["build", "7", "bad.txt", "bad"]),
            &format!("line {line}: "),
        );
    }
    desk.write("bad.txt", &[255, 254, 10]);
    wrong(desk.run(&["build", "7", "bad.txt", "bad"]), "bad.txt");
    desk.write("none.txt", b"# nothing\n");
    refuses(
        desk.run(&["build", "7", "none.txt", "bad"]),
        "refused 3: a count beyond its bounds, or base above all\n",
    );
    assert_eq!(desk.files(), ["bad.txt", "k", "k.txt", "none.txt"]);
}

#[test]
fn a_refusal_writes_no_file() {
    let desk = Desk::new("refusals");
    desk.write(
        "off.txt",
        b"v 16 0 0\nv 64 0 0\nv 64 64 0\nv 64 64 64\np 0 1 2 3\n",
    );
    desk.write("old", b"old");
    let line = format!("refused 4: {}\n", second::reason(4));
    refuses(desk.run(&["build", "7", "off.txt", "new"]), &line);
    refuses(desk.run(&["build", "7", "off.txt", "old"]), &line);

    let mut hanging = decode(&cube());
    cut_one(&mut hanging, 0, Way::Right);
    desk.write("hanging", &hanging.bytes());
    let ten = "refused 10: a hanging edge\n";
    refuses(
        desk.run(&["check", "hanging"]),
        &format!("{ten}record 1 edge 1\n"),
    );
    desk.write("choice", &second::selection(1, 0, &[0]));
    refuses(desk.run(&["refine", "hanging", "choice", "old"]), ten);
    let place = format!("{ten}record 1 edge 1\n");
    refuses(desk.run(&["select", "hanging", "new", "1"]), &place);

    let mut left = decode(&k());
    left.records[0] = turned(&left.records[0], 2, 3);
    desk.write("left", &left.bytes());
    let negative = "refused 22: a base record with a negative value\n";
    refuses(desk.run(&["check", "left"]), negative);
    refuses(desk.run(&["refine", "left", "choice", "old"]), negative);
    refuses(desk.run(&["take-back", "left", "choice", "new"]), negative);
    refuses(desk.run(&["select", "left", "new", "0"]), negative);

    desk.write("on-an-edge", &on_an_edge_of_k([0; 3]).bytes());
    let inside =
        "refused 23: a base vertex that lies in a closed base piece and isn't one of its corners\n";
    refuses(desk.run(&["check", "on-an-edge"]), inside);
    refuses(desk.run(&["refine", "on-an-edge", "choice", "old"]), inside);
    refuses(
        desk.run(&["take-back", "on-an-edge", "choice", "new"]),
        inside,
    );
    refuses(desk.run(&["select", "on-an-edge", "new", "0"]), inside);
    desk.write(
        "on.txt",
        b"v 0 0 0\nv 64 0 0\nv 64 64 0\nv 64 64 64\np 0 1 2 3\n\
          v 32 32 32\nv -64 64 0\nv -64 128 0\nv -64 64 64\np 4 5 6 7\n",
    );
    refuses(desk.run(&["build", "7", "on.txt", "new"]), inside);
    refuses(desk.run(&["build", "7", "on.txt", "old"]), inside);

    let one = format!("refused 1: {}\n", second::reason(1));
    desk.write("short", &k()[..30]);
    refuses(desk.run(&["check", "short"]), &one);
    refuses(desk.run(&["select", "short", "new", "1"]), &one);
    desk.write("k", &k());
    let thirteen = "refused 13: another job\n";
    refuses(desk.run(&["refine", "k", "choice", "old"]), thirteen);
    refuses(desk.run(&["refine", "k", "choice", "new"]), thirteen);

    assert_eq!(desk.read("old"), b"old");
    assert_eq!(
        desk.files(),
        [
            "choice",
            "hanging",
            "k",
            "left",
            "off.txt",
            "old",
            "on-an-edge",
            "on.txt",
            "short"
        ]
    );
}

#[test]
fn the_listing_of_what_is_refused() {
    let desk = Desk::new("listing");
    refuses(desk.run_with_input(&["list"], &[]), "refused 1\n");
    refuses(desk.run_with_input(&["list"], &k()[..76]), "refused 1\n");
    let mut mesh = k();
    mesh[19] = 1;
    refuses(desk.run_with_input(&["list"], &mesh), "refused 2\n");
    refuses(
        desk.run_with_input(&["list"], &on_an_edge_of_k([0; 3]).bytes()),
        "refused 23\n",
    );
    refuses(
        desk.run_with_input(&["list"], &vec![0; FULL + 1]),
        "refused 1\n",
    );
    refuses(
        desk.run_with_input(&["list"], &vec![b'T'; 500_000]),
        "refused 1\n",
    );
    // The largest mesh is listed; with a byte more it is refused.
    let (coordinates, corners) = crowded(1_024, 3_072, 9);
    let mut largest = second::build_vec(1, &coordinates, &corners).unwrap();
    let output = desk.run_with_input(&["list"], &largest);
    assert_eq!(output.stdout, second::list(&largest));
    assert_eq!(output.status.code(), Some(0));
    largest.push(0);
    refuses(desk.run_with_input(&["list"], &largest), "refused 1\n");
    assert_eq!(desk.files().len(), 0);
}

#[test]
fn wrong_commands() {
    let desk = Desk::new("usage");
    desk.write("k", &k());
    desk.write("choice", &second::selection(7, 0, &[0]));
    for arguments in [
        &[][..],
        &["help"],
        &["build"],
        &["build", "7", "k"],
        &["build", "7", "k", "out", "more"],
        &["check"],
        &["check", "k", "k"],
        &["refine", "k", "choice"],
        &["refine", "k", "choice", "out", "more"],
        &["take-back", "k", "choice"],
        &["take-back", "k", "choice", "out", "more"],
        &["select", "k"],
        &["list", "k"],
        &["show", "k"],
    ] {
        wrong(desk.run(arguments), "usage:");
    }
    for job in ["-1", "4294967296", "seven", "", "7.0"] {
        wrong(
            desk.run(&["build", job, &sample("k.txt"), "out"]),
            "not a whole number",
        );
    }
    for number in ["-1", "65536", "one"] {
        wrong(
            desk.run(&["select", "k", "out", "0", number]),
            "not a whole number",
        );
    }
    wrong(desk.run(&["check", "missing"]), "missing");
    wrong(desk.run(&["build", "7", "missing", "out"]), "missing");
    wrong(desk.run(&["refine", "k", "missing", "out"]), "missing");
    wrong(desk.run(&["refine", "missing", "choice", "out"]), "missing");
    wrong(desk.run(&["take-back", "k", "missing", "out"]), "missing");
    wrong(
        desk.run(&["take-back", "missing", "choice", "out"]),
        "missing",
    );
    wrong(
        desk.run(&["refine", "k", "choice", "no/such/place"]),
        "no/such/place",
    );
    wrong(desk.run(&["refine", "k", "choice", ".."]), "..");
    fs::create_dir(desk.0.join("full")).unwrap();
    desk.write("full/file", b"");
    wrong(desk.run(&["refine", "k", "choice", "full"]), "full");
    assert_eq!(desk.files(), ["choice", "full", "k"]);
}
