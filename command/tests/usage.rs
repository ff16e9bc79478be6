//! Help, and commands that are not given as they have to be.

mod common;
use common::*;
use std::ffi::OsStr;
use std::os::unix::ffi::OsStrExt;
use std::process::Output;

const USAGE: &str = "usage:
  tmb build JOB PLAIN OUT                   marks a plain mesh and stores it
  tmb check MESH                            judges a stored mesh
  tmb select MESH OUT NUMBER...             chooses pieces for the mesh's round
  tmb refine MESH SELECTION OUT             cuts chosen pieces, closes the mesh
  tmb list MESH                             shows the pieces of a mesh
  tmb cuts MESH                             shows the cut records of a mesh
  tmb select --back MESH OUT NUMBER...|all  chooses cuts for the mesh's round
  tmb take-back MESH REQUEST OUT            takes chosen cuts back
  tmb help [COMMAND]                        shows this, or more about a command";

/// Status 0, nothing on standard error, and what is printed.
#[track_caller]
fn printed(output: Output) -> String {
    assert_eq!(output.stderr, b"");
    assert_eq!(output.status.code(), Some(0));
    String::from_utf8(output.stdout).unwrap()
}

/// The lines fit a terminal of 80 columns.
fn fits(page: &str) -> bool {
    page.lines()
        .all(|line| line.len() <= 80 && line.trim_end() == line)
}

#[test]
fn help() {
    let desk = Desk::new("help");
    let overview = printed(desk.run(&["help"]));
    assert!(overview.contains(USAGE));
    assert!(fits(&overview), "{overview}");
    for words in [
        "Exit status: 0 accepted, 1 refused, 2 not",
        "whole or not at all",
        "standard input",
    ] {
        assert!(overview.contains(words), "{words}");
    }
    for asked in ["--help", "-h"] {
        assert_eq!(printed(desk.run(&[asked])), overview);
    }
    for (command, usage, words) in [
        (
            "build",
            "usage: tmb build JOB PLAIN OUT\n",
            "\n  v x y z     a vertex by its three coordinates",
        ),
        (
            "build",
            "usage: tmb build JOB PLAIN OUT\n",
            "\n  p a b c d   a piece by the numbers of its four corners",
        ),
        (
            "build",
            "usage: tmb build JOB PLAIN OUT\n",
            "What follows a # is a comment",
        ),
        (
            "build",
            "usage: tmb build JOB PLAIN OUT\n",
            "of a left-handed one the last two corners\nare exchanged before it is marked",
        ),
        (
            "build",
            "usage: tmb build JOB PLAIN OUT\n",
            "Every vertex has to be a corner of each piece that it touches",
        ),
        (
            "check",
            "usage: tmb check MESH\n",
            "names the record and the two vertices",
        ),
        (
            "check",
            "usage: tmb check MESH\n",
            "with 22 the first base record that is left-handed",
        ),
        (
            "check",
            "usage: tmb check MESH\n",
            "with 23 the\nfirst base vertex that hangs on a base record",
        ),
        (
            "select",
            "usage: tmb select MESH OUT NUMBER...\n",
            "A selection is good for this round alone",
        ),
        (
            "refine",
            "usage: tmb refine MESH SELECTION OUT\n",
            "The round rises by 1.",
        ),
        (
            "list",
            "usage: tmb list MESH\n",
            "The lines are those of the proved list.",
        ),
        (
            "cuts",
            "usage: tmb cuts MESH\n",
            "the word ready where both children are leaves",
        ),
        (
            "select --back",
            "usage: tmb select --back MESH OUT NUMBER...|all\n",
            "A request is good for this round alone",
        ),
        (
            "take-back",
            "usage: tmb take-back MESH REQUEST OUT\n",
            "unless pieces hold each other's cuts in a ring",
        ),
        ("help", "usage: tmb help [COMMAND]\n", "Shows the commands"),
    ] {
        // A command may have two words.
        let command: Vec<&str> = command.split(' ').collect();
        let page = printed(desk.run(&[&["help"], &command[..]].concat()));
        assert!(page.starts_with(usage), "{page}");
        assert!(page.contains(words), "{page}");
        for asked in ["--help", "-h"] {
            let asked = [&command[..], &[asked]].concat();
            assert_eq!(printed(desk.run(&asked)), page);
        }
        assert!(fits(&page), "{page}");
    }
}

#[test]
fn the_version() {
    let desk = Desk::new("version");
    let version = concat!("tmb ", env!("CARGO_PKG_VERSION"));
    says(&desk.run(&["--version"]), version);
}

#[test]
fn wrong_commands() {
    let desk = Desk::new("wrong-commands");
    wrong(&desk.run::<&str>(&[]), &format!("no command\n{USAGE}"));
    for arguments in [
        &["show"][..],
        &["show", "k"],
        &["show", "--help"],
        &["help", "show"],
    ] {
        wrong(
            &desk.run(arguments),
            &format!("no such command: show\n{USAGE}"),
        );
    }
    wrong(&desk.run(&[""]), &format!("no such command: \n{USAGE}"));
    wrong(
        &desk.run(&["--version", "k"]),
        &format!("no such command: --version\n{USAGE}"),
    );
    let name = OsStr::from_bytes(b"check\xFF");
    wrong(
        &desk.run(&[name]),
        &format!("no such command: check\u{FFFD}\n{USAGE}"),
    );
    assert!(desk.files().is_empty());
}

#[test]
fn wrong_counts_of_arguments() {
    let desk = Desk::new("wrong-counts");
    desk.write("k", &k());
    for (usage, arguments) in [
        ("build JOB PLAIN OUT", &["build"][..]),
        ("build JOB PLAIN OUT", &["build", "7", "k"]),
        ("build JOB PLAIN OUT", &["build", "7", "k", "out", "more"]),
        ("check MESH", &["check"]),
        ("check MESH", &["check", "k", "k"]),
        ("select MESH OUT NUMBER...", &["select"]),
        ("select MESH OUT NUMBER...", &["select", "k"]),
        ("refine MESH SELECTION OUT", &["refine", "k", "k"]),
        (
            "refine MESH SELECTION OUT",
            &["refine", "k", "k", "out", "more"],
        ),
        ("list MESH", &["list"]),
        ("list MESH", &["list", "k", "k"]),
        ("cuts MESH", &["cuts"]),
        ("cuts MESH", &["cuts", "k", "k"]),
        (
            "select --back MESH OUT NUMBER...|all",
            &["select", "--back"],
        ),
        (
            "select --back MESH OUT NUMBER...|all",
            &["select", "--back", "k"],
        ),
        ("take-back MESH REQUEST OUT", &["take-back", "k", "k"]),
        (
            "take-back MESH REQUEST OUT",
            &["take-back", "k", "k", "out", "more"],
        ),
        ("help [COMMAND]", &["help", "build", "check"]),
        ("help [COMMAND]", &["help", "select", "--back", "k"]),
    ] {
        wrong(&desk.run(arguments), &format!("usage: tmb {usage}"));
    }
    assert_eq!(desk.files().len(), 1);
}

#[test]
fn wrong_numbers() {
    let desk = Desk::new("wrong-numbers");
    desk.write("k", &k());
    desk.write("text", K_TEXT.as_bytes());
    for job in ["-1", "+7", "4294967296", "seven", "", "7.0", " 7", "0x7"] {
        wrong(
            &desk.run(&["build", job, "text", "out"]),
            &format!("{job}: not a whole number from 0 to 4294967295"),
        );
    }
    for number in ["-1", "+0", "65536", "one", ""] {
        wrong(
            &desk.run(&["select", "k", "out", "0", number]),
            &format!("{number}: not a whole number from 0 to 65535"),
        );
        wrong(
            &desk.run(&["select", "--back", "k", "out", "0", number]),
            &format!("{number}: not a whole number from 0 to 65535"),
        );
    }
    // Every cut record, and no number beside; the pieces of a selection are named one by one.
    for arguments in [
        &["select", "--back", "k", "out", "all", "0"][..],
        &["select", "--back", "k", "out", "0", "all"],
        &["select", "k", "out", "all"],
    ] {
        wrong(
            &desk.run(arguments),
            "all: not a whole number from 0 to 65535",
        );
    }
    wrong(
        &desk.run(&["select", "k", "out", "--back"]),
        "--back: not a whole number from 0 to 65535",
    );
    let number = OsStr::from_bytes(b"\xFF");
    let arguments = [
        OsStr::new("select"),
        OsStr::new("k"),
        OsStr::new("out"),
        number,
    ];
    wrong(
        &desk.run(&arguments),
        "\u{FFFD}: not a whole number from 0 to 65535",
    );
    // As many numbers as a selection can count, and one more.
    let mut arguments = vec!["select", "k", "out"];
    arguments.resize(3 + 65_535, "0");
    refuses(&desk.run(&arguments), 15, "0 stands after 0");
    arguments.push("0");
    wrong(
        &desk.run(&arguments),
        "a selection has at most 65,535 numbers",
    );
    arguments.insert(1, "--back");
    wrong(
        &desk.run(&arguments),
        "a selection has at most 65,535 numbers",
    );
    assert_eq!(desk.files().len(), 2);
}

#[test]
fn only_one_input_is_standard() {
    let desk = Desk::new("one-standard");
    for command in ["refine", "take-back"] {
        wrong(
            &desk.run(&[command, "-", "-", "out"]),
            "only one input may be -",
        );
    }
    assert!(desk.files().is_empty());
}
