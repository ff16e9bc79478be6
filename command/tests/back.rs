//! Taking cuts back: the cut records that are shown, the requests that are written, whole rounds, and what
//! stays cut.

mod common;
use common::*;
use second::mesh::{Mesh, Record, Vertex, NO_NUMBER};

/// The accepted line of K in some round; the volume stays.
fn k_line(round: u16, rest: &str) -> String {
    format!("accepted: job 7 round {round} {rest} sixfold 262144")
}

/// The heading of `tmb cuts` and its lines.
#[track_caller]
fn shows(desk: &Desk, mesh: &str, lines: &[&str]) {
    gives(
        &desk.run(&["cuts", mesh]),
        (lines.join("\n") + "\n").as_bytes(),
    );
}

#[test]
fn the_cut_records() {
    let desk = Desk::new("cuts");
    for (name, mesh) in [("k", k()), ("k1", k1()), ("k2", k2())] {
        desk.write(name, &mesh);
    }
    shows(
        &desk,
        "k",
        &["job 7 round 0 vertices 4 records 1 cut 0 ready 0"],
    );
    shows(
        &desk,
        "k1",
        &[
            "job 7 round 1 vertices 5 records 3 cut 1 ready 1",
            "0 0 1 2 3 at 4 first 1 gen 0 ready",
        ],
    );
    shows(
        &desk,
        "k2",
        &[
            "job 7 round 2 vertices 7 records 7 cut 3 ready 2",
            "0 0 1 2 3 at 4 first 1 gen 0",
            "1 0 1 2 4 at 5 first 3 gen 1 ready",
            "2 4 1 2 3 at 6 first 5 gen 1 ready",
        ],
    );
    // Two at one vertex.
    desk.write("k3", &refined(&k2(), &[4]));
    shows(
        &desk,
        "k3",
        &[
            "job 7 round 3 vertices 8 records 11 cut 5 ready 2",
            "0 0 1 2 3 at 4 first 1 gen 0",
            "1 0 1 2 4 at 5 first 3 gen 1",
            "2 4 1 2 3 at 6 first 5 gen 1",
            "4 5 1 2 4 at 7 first 7 gen 2 ready",
            "5 4 1 2 6 at 7 first 9 gen 2 ready",
        ],
    );
    gives(
        &desk.run_with_input(&["cuts", "-"], &k1()),
        &desk.run(&["cuts", "k1"]).stdout,
    );
}

/// The lines say of every cut record what the second program reads off the mesh.
#[test]
fn many_cut_records() {
    let desk = Desk::new("many-cuts");
    let mut mesh = refined(&cube(), &[2]);
    for _ in 0..3 {
        let leaves = Mesh::read(&mesh).unwrap();
        let leaves: Vec<u16> = leaves.leaves().map(|(n, _)| n as u16).step_by(3).collect();
        mesh = refined(&mesh, &leaves);
    }
    desk.write("mesh", &mesh);
    let read = Mesh::read(&mesh).unwrap();
    let pairs = read.pairs();
    let output = desk.run(&["cuts", "mesh"]);
    let text = String::from_utf8(output.stdout).unwrap();
    let mut lines = text.lines().skip(1);
    let cut = read.records.iter().enumerate();
    for (number, record) in cut.filter(|(_, record)| !record.is_leaf()) {
        let ends = second::piece::ends(record, record.edge).unwrap();
        let [a, b, c, d] = record.corners;
        let (at, first) = (pairs[&ends], usize::from(record.first_child));
        let ready = read.records[first..first + 2].iter().all(Record::is_leaf);
        let line = format!(
            "{number} {a} {b} {c} {d} at {at} first {first} gen {}{}",
            record.generation,
            if ready { " ready" } else { "" }
        );
        assert_eq!(lines.next(), Some(&line[..]));
    }
    assert_eq!(lines.next(), None);
}

/// The rows worked on K.
#[test]
fn the_worked_piece() {
    let desk = Desk::new("back-worked");
    desk.write("k2", &k2());
    says(
        &desk.run(&["select", "--back", "k2", "request", "1", "2"]),
        "selected: job 7 round 2 numbers 2",
    );
    assert_eq!(desk.read("request"), chosen(&k2(), &[1, 2]));
    says(
        &desk.run(&["take-back", "k2", "request", "back"]),
        &k_line(3, "vertices 5 records 3 leaves 2 deepest 1"),
    );
    assert_eq!(desk.read("back"), taken_back(&k2(), &[1, 2]));
    assert_eq!(desk.read("back"), changed(&k1(), |mesh| mesh.round = 3));
    // Its children are cut: the round alone is another.
    desk.run(&["select", "--back", "k2", "request", "0"]);
    says(
        &desk.run(&["take-back", "k2", "request", "back"]),
        &k_line(3, "vertices 7 records 7 leaves 4 deepest 2"),
    );
    assert_eq!(desk.read("back"), changed(&k2(), |mesh| mesh.round = 3));
    desk.run(&["select", "--back", "k2", "request", "1"]);
    says(
        &desk.run(&["take-back", "k2", "request", "back"]),
        &k_line(3, "vertices 6 records 5 leaves 3 deepest 2"),
    );
    // The used request is dead, in both services.
    let expired = |choose: &str| {
        let again = format!("choose again with {choose}");
        format!("of round 2 and the mesh of round 3: {again}")
    };
    refuses(
        &desk.run(&["take-back", "back", "request", "new"]),
        14,
        &format!("the request is {}", expired("tmb select --back")),
    );
    refuses(
        &desk.run(&["refine", "back", "request", "new"]),
        14,
        &format!("the selection is {}", expired("tmb select")),
    );
    let names: Vec<_> = desk.files().into_iter().map(|(name, _)| name).collect();
    assert_eq!(names, [&b"back"[..], b"k2", b"request"]);
}

/// "A borrower wants the coarse mesh back": two commands, repeated, in place.
#[test]
fn back_to_the_base() {
    let desk = Desk::new("back-to-base");
    desk.write("mesh", &refined(&k2(), &[3, 4, 5, 6]));
    let mut named = Vec::new();
    for round in 3.. {
        let said = desk.run(&["select", "--back", "mesh", "request", "all"]);
        let said = String::from_utf8(said.stdout).unwrap();
        let count = said.trim_end().rsplit(' ').next().unwrap();
        named.push(count.to_string());
        assert_eq!(
            said,
            format!("selected: job 7 round {round} numbers {count}\n")
        );
        if count == "0" {
            break;
        }
        let back = desk.run(&["take-back", "mesh", "request", "mesh"]);
        assert_eq!(back.status.code(), Some(0));
    }
    assert_eq!(named, ["7", "3", "1", "0"]);
    assert_eq!(desk.read("mesh"), changed(&k(), |mesh| mesh.round = 6));
}

/// Three pieces that hold each other's cuts: nothing goes, and nothing is refused.
#[test]
fn a_ring_stays() {
    let desk = Desk::new("ring");
    let places = [
        [0, 0, 0],
        [0, 0, 64],
        [640, 0, 0],
        [640, 64, 0],
        [320, 640, 0],
        [384, 640, 64],
    ];
    let pieces = [[0, 1, 2, 3], [2, 3, 4, 5], [4, 5, 1, 0]];
    let base = Mesh {
        job: 9,
        round: 0,
        base_vertices: 6,
        base_records: 3,
        vertices: places
            .map(|place| Vertex {
                place,
                parents: [NO_NUMBER; 2],
            })
            .to_vec(),
        records: pieces
            .map(|corners| Record {
                corners,
                edge: 0,
                marks: [5, 5, 0, 0],
                flag: 0,
                generation: 0,
                first_child: NO_NUMBER,
            })
            .to_vec(),
    };
    let mesh = refined(&base.bytes(), &[0]);
    desk.write("mesh", &mesh);
    for round in 1..4 {
        says(
            &desk.run(&["select", "--back", "mesh", "request", "all"]),
            &format!("selected: job 9 round {round} numbers 9"),
        );
        let back = desk.run(&["take-back", "mesh", "request", "mesh"]);
        assert_eq!(back.status.code(), Some(0));
        let same = changed(&mesh, |mesh| mesh.round = round + 1);
        assert!(desk.read("mesh") == same);
    }
    // Each vertex has a record with leaves and one without.
    let shown = String::from_utf8(desk.run(&["cuts", "mesh"]).stdout).unwrap();
    assert!(
        shown.starts_with("job 9 round 4 vertices 9 records 21 cut 9 ready 6\n"),
        "{shown}"
    );
}

/// Without a number nothing is named; a mesh with nothing cut has nothing to be named.
#[test]
fn empty_requests() {
    let desk = Desk::new("back-empty");
    for (name, mesh) in [("k", k()), ("k2", k2())] {
        desk.write(name, &mesh);
        let round = Mesh::read(&mesh).unwrap().round;
        let said = format!("selected: job 7 round {round} numbers 0");
        says(&desk.run(&["select", "--back", name, "request"]), &said);
        assert_eq!(desk.read("request"), chosen(&mesh, &[]));
        assert_eq!(
            desk.run(&["take-back", name, "request", "new"])
                .status
                .code(),
            Some(0)
        );
        let same = changed(&mesh, |mesh| mesh.round += 1);
        assert_eq!(desk.read("new"), same);
    }
    says(
        &desk.run(&["select", "--back", "k", "request", "all"]),
        "selected: job 7 round 0 numbers 0",
    );
}

/// `-` is standard input or output; a result on standard output stands there alone.
#[test]
fn standard_input_and_output() {
    let desk = Desk::new("back-standard");
    desk.write("k2", &k2());
    let all = chosen(&k2(), &[0, 1, 2]);
    gives(
        &desk.run_with_input(&["select", "--back", "-", "-", "all"], &k2()),
        &all,
    );
    desk.write("request", &all);
    let back = taken_back(&k2(), &[0, 1, 2]);
    gives(
        &desk.run_with_input(&["take-back", "-", "request", "-"], &k2()),
        &back,
    );
    gives(
        &desk.run_with_input(&["take-back", "k2", "-", "-"], &all),
        &back,
    );
    gives(
        &desk.run(&["take-back", "k2", "request", "/dev/stdout"]),
        &back,
    );
    // Each input may be the output.
    says(
        &desk.run(&["take-back", "k2", "request", "request"]),
        &k_line(3, "vertices 5 records 3 leaves 2 deepest 1"),
    );
    assert_eq!(desk.read("request"), back);
    says(
        &desk.run(&["select", "--back", "k2", "k2", "2"]),
        "selected: job 7 round 2 numbers 1",
    );
    assert_eq!(desk.read("k2"), chosen(&k2(), &[2]));
}

/// Files by the names of the words: a path tells them apart.
#[test]
fn names_like_the_words() {
    let desk = Desk::new("back-names");
    desk.write("--back", &k1());
    desk.write("all", &k1());
    says(
        &desk.run(&["select", "./--back", "choice", "1"]),
        "selected: job 7 round 1 numbers 1",
    );
    says(
        &desk.run(&["select", "--back", "--back", "all", "all"]),
        "selected: job 7 round 1 numbers 1",
    );
    assert_eq!(desk.read("all"), chosen(&k1(), &[0]));
}
