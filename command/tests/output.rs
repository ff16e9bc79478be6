//! Standard output that nobody reads, that is full, or that can't be written: words, and status 2. A test
//! beside this one would start programs of its own, and one of them might hold the pipe's other end for
//! a moment; so it stands alone.

mod common;
use common::*;
use std::fs::{File, OpenOptions};
use std::process::{Command, Output, Stdio};

#[test]
fn standard_output_that_cannot_be_written() {
    let desk = Desk::new("no-standard-output");
    desk.write("k", &k());
    desk.write("choice", &chosen(&k(), &[0]));
    desk.write("k1", &k1());
    desk.write("request", &chosen(&k1(), &[0]));
    let closed = || {
        let mut reader = Command::new("true").stdin(Stdio::piped()).spawn().unwrap();
        let pipe = reader.stdin.take().unwrap();
        reader.wait().unwrap();
        Stdio::from(pipe)
    };
    let full = || Stdio::from(OpenOptions::new().write(true).open("/dev/full").unwrap());
    let unwritable = || Stdio::from(File::open("/dev/null").unwrap());
    let ways: [(&dyn Fn() -> Stdio, &str); 3] = [
        (&closed, "Broken pipe"),
        (&full, "No space left on device"),
        (&unwritable, "Bad file descriptor"),
    ];
    for (stdout, words) in ways {
        let run = |arguments: &[&str]| -> Output {
            let mut command = desk.command(arguments);
            command
                .stdin(Stdio::null())
                .stdout(stdout())
                .stderr(Stdio::piped());
            command.spawn().unwrap().wait_with_output().unwrap()
        };
        let message = format!("standard output: {words}");
        for arguments in [
            &["check", "k"][..],
            &["list", "k"],
            &["help"],
            &["help", "build"],
            &["--version"],
            &["select", "k", "-", "0"],
            &["refine", "k", "choice", "-"],
            &["cuts", "k1"],
            &["select", "--back", "k1", "-", "all"],
            &["take-back", "k1", "request", "-"],
        ] {
            wrong(&run(arguments), &message);
        }
        wrong(
            &run(&["refine", "k", "choice", "new"]),
            &format!("{message} (new is written)"),
        );
        assert_eq!(desk.read("new"), k1());
        wrong(
            &run(&["select", "k", "new", "0"]),
            &format!("{message} (new is written)"),
        );
        assert_eq!(desk.read("new"), chosen(&k(), &[0]));
        wrong(
            &run(&["take-back", "k1", "request", "new"]),
            &format!("{message} (new is written)"),
        );
        assert_eq!(desk.read("new"), taken_back(&k1(), &[0]));
    }
}
