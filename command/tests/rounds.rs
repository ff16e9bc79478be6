//! Whole rounds: what is accepted, what is printed and what is written.

mod common;
use common::*;
use second::mesh::Mesh;
use std::ffi::OsStr;
use std::os::unix::ffi::OsStrExt;

const K_LINE: &str =
    "accepted: job 7 round 0 vertices 4 records 1 leaves 1 deepest 0 sixfold 262144";
const K1_LINE: &str =
    "accepted: job 7 round 1 vertices 5 records 3 leaves 2 deepest 1 sixfold 262144";
const K1_LISTING: &str = "job 7 round 1 vertices 5 records 3 leaves 2 deepest 1 sixfold 262144\n\
                          1 0 1 2 4 edge 0 2 gen 1\n\
                          2 4 1 2 3 edge 1 3 gen 1\n";

#[test]
fn the_worked_piece() {
    let desk = Desk::new("worked");
    let plain = sample("k.txt");
    let build = [
        OsStr::new("build"),
        OsStr::new("7"),
        plain.as_os_str(),
        OsStr::new("k"),
    ];
    says(&desk.run(&build), K_LINE);
    assert_eq!(desk.read("k"), k());
    says(&desk.run(&["check", "k"]), K_LINE);
    says(
        &desk.run(&["select", "k", "choice", "0"]),
        "selected: job 7 round 0 numbers 1",
    );
    assert_eq!(desk.read("choice"), chosen(&k(), &[0]));
    says(&desk.run(&["refine", "k", "choice", "k1"]), K1_LINE);
    assert_eq!(desk.read("k1"), k1());
    says(&desk.run(&["check", "k1"]), K1_LINE);
    gives(&desk.run(&["list", "k1"]), K1_LISTING.as_bytes());
    // The used selection is dead.
    refuses(
        &desk.run(&["refine", "k1", "choice", "k2"]),
        14,
        "the selection is of round 0 and the mesh of round 1: choose again with tmb select",
    );
    let names: Vec<_> = desk.files().into_iter().map(|(name, _)| name).collect();
    assert_eq!(names, [&b"choice"[..], b"k", b"k1"]);
}

#[test]
fn the_cube() {
    let desk = Desk::new("cube");
    desk.write("cube", &cube());
    desk.run(&["select", "cube", "choice", "3"]);
    says(
        &desk.run(&["refine", "cube", "choice", "cube"]),
        "accepted: job 1 round 1 vertices 9 records 18 leaves 12 deepest 1 sixfold 1572864",
    );
    assert_eq!(desk.read("cube"), refined(&cube(), &[3]));
    gives(
        &desk.run(&["list", "cube"]),
        &second::list(&desk.read("cube")),
    );
}

/// An input named as output, each of the inputs.
#[test]
fn in_place() {
    let desk = Desk::new("in-place");
    desk.write("k", &k());
    desk.write("text", K_TEXT.as_bytes());
    desk.run(&["select", "k", "choice", "0"]);
    says(&desk.run(&["refine", "k", "choice", "k"]), K1_LINE);
    assert_eq!(desk.read("k"), k1());
    says(&desk.run(&["build", "7", "text", "text"]), K_LINE);
    assert_eq!(desk.read("text"), k());
    says(&desk.run(&["refine", "text", "choice", "choice"]), K1_LINE);
    assert_eq!(desk.read("choice"), k1());
    says(
        &desk.run(&["select", "k", "k", "1", "2"]),
        "selected: job 7 round 1 numbers 2",
    );
    assert_eq!(desk.read("k"), chosen(&k1(), &[1, 2]));
}

#[test]
fn an_empty_selection() {
    let desk = Desk::new("empty");
    desk.write("k", &k());
    says(
        &desk.run(&["select", "k", "choice"]),
        "selected: job 7 round 0 numbers 0",
    );
    says(
        &desk.run(&["refine", "k", "choice", "k"]),
        "accepted: job 7 round 1 vertices 4 records 1 leaves 1 deepest 0 sixfold 262144",
    );
    assert_eq!(desk.read("k"), refined(&k(), &[]));
}

/// `-` is standard input or output; a result on standard output stands there alone.
#[test]
fn standard_input_and_output() {
    let desk = Desk::new("standard");
    desk.write("k", &k());
    gives(
        &desk.run_with_input(&["build", "7", "-", "-"], K_TEXT.as_bytes()),
        &k(),
    );
    says(&desk.run_with_input(&["check", "-"], &k()), K_LINE);
    let choice = chosen(&k(), &[0]);
    gives(
        &desk.run_with_input(&["select", "-", "-", "0"], &k()),
        &choice,
    );
    desk.write("choice", &choice);
    gives(
        &desk.run_with_input(&["refine", "-", "choice", "-"], &k()),
        &k1(),
    );
    gives(
        &desk.run_with_input(&["refine", "k", "-", "-"], &choice),
        &k1(),
    );
    gives(
        &desk.run_with_input(&["list", "-"], &k1()),
        K1_LISTING.as_bytes(),
    );
    says(
        &desk.run_with_input(&["refine", "-", "choice", "new"], &k()),
        K1_LINE,
    );
    // What is written to a pipe by another name is not mixed with words either.
    gives(&desk.run(&["refine", "k", "choice", "/dev/stdout"]), &k1());
    refuses(&desk.run(&["check", "-"]), 1, "the mesh has 0 bytes");
}

#[test]
fn names_that_are_no_text() {
    let desk = Desk::new("names");
    let name = |bytes: &'static [u8]| OsStr::from_bytes(bytes);
    let word = OsStr::new;
    let (mesh, choice, missing) = (
        name(b"k\xFF"),
        name(b"\xC3\x28 choice"),
        name(b"\xFE\n\x1B[1m"),
    );
    desk.write(mesh, &k());
    says(
        &desk.run(&[word("select"), mesh, choice, word("0")]),
        "selected: job 7 round 0 numbers 1",
    );
    says(&desk.run(&[word("refine"), mesh, choice, mesh]), K1_LINE);
    gives(&desk.run(&[word("list"), mesh]), K1_LISTING.as_bytes());
    let names: Vec<_> = desk.files().into_iter().map(|(name, _)| name).collect();
    assert_eq!(names, [mesh.as_bytes(), choice.as_bytes()]);
    // Shown so that the message stays one line of text.
    wrong(
        &desk.run(&[word("check"), missing]),
        "\u{FFFD}\u{FFFD}\u{FFFD}[1m: No such file or directory",
    );
}

/// Comments, empty lines, tabs, both sorts of lines mixed, other line ends: as the second program
/// reads them.
#[test]
fn plain_meshes() {
    let desk = Desk::new("plain");
    let text = "# K\n\np 0 1 2 3 # the piece\nv 0 0 0\n  v\t64 0 0\r\nv +64 64 0\n#\nv 64 64 64";
    desk.write("text", text.as_bytes());
    says(&desk.run(&["build", "7", "text", "k"]), K_LINE);
    assert_eq!(desk.read("k"), k());
    says(&desk.run(&["build", "007", "text", "k"]), K_LINE);
    desk.run(&["build", "4294967295", "text", "k"]);
    assert_eq!(Mesh::read(&desk.read("k")).unwrap().job, u32::MAX);
    for (line, text) in [
        (1, &b"v 0 0\n"[..]),
        (1, b"v 0 0 0 0\n"),
        (2, b"v 0 0 0\np 0 1 2\n"),
        (2, b"# K\np 0 1 2 3 4\n"),
        (1, b"v 0 0 32768\n"),
        (1, b"v 0 0 0.5\n"),
        (1, b"p 0 1 2 65536\n"),
        (1, b"p 0 1 2 -1\n"),
        (3, b"v 0 0 0\n\nx 0 0 0\n"),
        (1, b"v0 0 0\n"),
        (2, b"v 0 0 0\n# \xFF\n"),
    ] {
        desk.write("bad", text);
        let message = format!(
            "bad, line {line}: not `v x y z` with coordinates from -32,768 to 32,767 and not \
             `p a b c d` with numbers from 0 to 65,535"
        );
        wrong(&desk.run(&["build", "7", "bad", "k"]), &message);
    }
    wrong(
        &desk.run_with_input(&["build", "7", "-", "k"], b"v"),
        "standard input, line 1: not `v x y z` with coordinates from -32,768 to 32,767 and not \
         `p a b c d` with numbers from 0 to 65,535",
    );
}
