//! Inputs that can't be read or have no end, outputs that can't be written, and what stands afterwards.

mod common;
use common::*;
use std::fs::{self, File, OpenOptions};
use std::io::Write;
use std::os::unix::fs::{symlink, FileTypeExt, MetadataExt, PermissionsExt};
use std::path::{Path, PathBuf};
use std::process::Command;

/// A desk with K, a selection for it, an empty one and an old output.
fn with_k(name: &str) -> Desk {
    let desk = Desk::new(name);
    desk.write("k", &k());
    desk.write("choice", &chosen(&k(), &[0]));
    desk.write("none", &chosen(&k(), &[]));
    desk.write("old", b"old");
    desk
}

const K1_LINE: &str =
    "accepted: job 7 round 1 vertices 5 records 3 leaves 2 deepest 1 sixfold 262144";
const LONG_MESH: &str = "longer than any mesh";

#[test]
fn inputs_that_cannot_be_read() {
    let desk = Desk::new("no-input");
    desk.write("k", &k());
    fs::create_dir(desk.folder.join("folder")).unwrap();
    for (name, words) in [
        ("missing", "No such file or directory"),
        ("folder", "Is a directory"),
        ("k/inside", "Not a directory"),
        ("", "No such file or directory"),
    ] {
        let message = format!("{name}: {words}");
        wrong(&desk.run(&["build", "7", name, "out"]), &message);
        wrong(&desk.run(&["check", name]), &message);
        wrong(&desk.run(&["select", name, "out", "0"]), &message);
        wrong(&desk.run(&["refine", name, "k", "out"]), &message);
        wrong(&desk.run(&["refine", "k", name, "out"]), &message);
        wrong(&desk.run(&["list", name]), &message);
        wrong(&desk.run(&["cuts", name]), &message);
        wrong(
            &desk.run(&["select", "--back", name, "out", "all"]),
            &message,
        );
        wrong(&desk.run(&["take-back", name, "k", "out"]), &message);
        wrong(&desk.run(&["take-back", "k", name, "out"]), &message);
    }
    let stdin = File::open(desk.folder.join("folder")).unwrap();
    let output = desk.command(&["check", "-"]).stdin(stdin).output().unwrap();
    wrong(&output, "standard input: Is a directory");
    // Standard input that is open for writing alone.
    let stdin = OpenOptions::new().write(true).open("/dev/null").unwrap();
    let output = desk.command(&["check", "-"]).stdin(stdin).output().unwrap();
    wrong(&output, "standard input: Bad file descriptor");
    assert_eq!(desk.files().len(), 2);
}

/// Without end: a device, a pipe that is fed on and on, standard input; and a very long file.
#[test]
fn inputs_without_end() {
    let desk = Desk::new("endless");
    desk.write("k", &k());
    File::create(desk.folder.join("long"))
        .unwrap()
        .set_len(1 << 33)
        .unwrap();
    for name in ["/dev/zero", "long"] {
        refuses(&desk.run(&["check", name]), 1, LONG_MESH);
        refuses(&desk.run(&["select", name, "out", "0"]), 1, LONG_MESH);
        refuses(&desk.run(&["refine", name, "k", "out"]), 1, LONG_MESH);
        refuses(&desk.run(&["list", name]), 1, LONG_MESH);
        refuses(
            &desk.run(&["refine", "k", name, "out"]),
            11,
            "longer than any selection",
        );
        refuses(&desk.run(&["cuts", name]), 1, LONG_MESH);
        let all = ["select", "--back", name, "out", "all"];
        refuses(&desk.run(&all), 1, LONG_MESH);
        refuses(&desk.run(&["take-back", name, "k", "out"]), 1, LONG_MESH);
        refuses(
            &desk.run(&["take-back", "k", name, "out"]),
            11,
            "longer than any request",
        );
        wrong(
            &desk.run(&["build", "7", name, "out"]),
            &format!("{name}: longer than 16 MiB, the longest text of a plain mesh"),
        );
    }
    let pipe = pipe_in(&desk);
    let feeder = std::thread::spawn(move || feed(&pipe));
    refuses(&desk.run(&["check", "pipe"]), 1, LONG_MESH);
    let fed = feeder.join().unwrap();
    assert!((1_769_466..4_000_000).contains(&fed), "{fed}");
    assert!(!desk.folder.join("out").exists());
}

/// The longest that is read of each is read: what is decided is decided by the service.
#[test]
fn inputs_at_their_bounds() {
    let desk = Desk::new("bounds");
    let mut mesh = poked(&k(), 11, &[255; 8]);
    mesh.resize(20 + 27 * 65_535, 0);
    desk.write("mesh", &mesh);
    let counts = "base vertices 65535, all vertices 65535, base records 65535, all records 65535";
    refuses(&desk.run(&["check", "mesh"]), 3, counts);
    // As many records as can be counted, all of them cut by what stands there.
    refuses(
        &desk.run(&["select", "--back", "mesh", "out", "all"]),
        3,
        counts,
    );
    mesh.push(0);
    desk.write("mesh", &mesh);
    refuses(&desk.run(&["check", "mesh"]), 1, LONG_MESH);
    desk.write("k", &k());
    desk.write("choice", &chosen(&k(), &vec![0; 65_535]));
    refuses(
        &desk.run(&["refine", "k", "choice", "out"]),
        15,
        "0 stands after 0",
    );
    let mut text = K_TEXT.as_bytes().to_vec();
    text.resize(16 << 20, b'\n');
    desk.write("text", &text);
    assert_eq!(
        desk.run(&["build", "7", "text", "out"]).status.code(),
        Some(0)
    );
    assert_eq!(desk.read("out"), k());
    text.push(b'\n');
    desk.write("text", &text);
    wrong(
        &desk.run(&["build", "7", "text", "out"]),
        "text: longer than 16 MiB, the longest text of a plain mesh",
    );
}

/// Makes a named pipe in the desk's folder.
fn pipe_in(desk: &Desk) -> PathBuf {
    let pipe = desk.folder.join("pipe");
    assert!(Command::new("mkfifo")
        .arg(&pipe)
        .status()
        .unwrap()
        .success());
    pipe
}

/// Writes to a pipe until nobody reads any more; how many bytes.
fn feed(pipe: &Path) -> usize {
    let mut pipe = OpenOptions::new().write(true).open(pipe).unwrap();
    let mut fed = 0;
    while let Ok(count) = pipe.write(&[b'T'; 4096]) {
        fed += count;
    }
    fed
}

#[test]
fn outputs_that_cannot_be_written() {
    let desk = with_k("no-output");
    fs::create_dir(desk.folder.join("folder")).unwrap();
    symlink("circle", desk.folder.join("circle")).unwrap();
    let before = desk.files();
    let long = "x".repeat(256);
    for (name, words) in [
        ("no/such/place", "No such file or directory"),
        ("folder", "Is a directory"),
        (".", "Is a directory"),
        ("..", "Is a directory"),
        ("/", "Is a directory"),
        ("", "No such file or directory"),
        ("missing/..", "No such file or directory"),
        ("missing/", "Not a directory"),
        ("k/inside", "Not a directory"),
        ("circle", "Too many levels of symbolic links"),
        ("/dev/full", "No space left on device"),
        (&long, "File name too long"),
    ] {
        let message = format!("{name}: {words}");
        wrong(&desk.run(&["refine", "k", "choice", name]), &message);
        wrong(&desk.run(&["select", "k", name, "0"]), &message);
        wrong(&desk.run(&["select", "--back", "k", name, "all"]), &message);
        wrong(&desk.run(&["take-back", "k", "none", name]), &message);
        assert!(desk.files() == before);
    }
}

#[test]
fn permission_bits_are_kept() {
    let desk = with_k("bits");
    let old = desk.folder.join("old");
    for bits in [0o600, 0o640, 0o664, 0o777] {
        fs::set_permissions(&old, fs::Permissions::from_mode(bits)).unwrap();
        says(&desk.run(&["refine", "k", "choice", "old"]), K1_LINE);
        assert_eq!(
            fs::metadata(&old).unwrap().permissions().mode() & 0o7777,
            bits
        );
        desk.write("old", b"old");
    }
    // A new file has the bits that any new file has.
    desk.write("other", b"");
    says(&desk.run(&["refine", "k", "choice", "new"]), K1_LINE);
    let mode = |name: &str| fs::metadata(desk.folder.join(name)).unwrap().mode();
    assert_eq!(mode("new"), mode("other"));
}

/// Whoever may write everything is made somebody who may not, by a name space of its own; where none can
/// be had, the file may be written, and is.
#[test]
fn an_output_that_may_not_be_written_is_not_replaced() {
    let desk = with_k("protected");
    let old = desk.folder.join("old");
    fs::set_permissions(&old, fs::Permissions::from_mode(0o444)).unwrap();
    let before = desk.files();
    let mut command = desk.command(&["refine", "k", "choice", "old"]);
    if OpenOptions::new().write(true).open(&old).is_ok() {
        let mut apart = Command::new("unshare");
        apart.arg("--user").arg(command.get_program());
        apart.args(command.get_args()).current_dir(&desk.folder);
        if Command::new("unshare")
            .args(["--user", "true"])
            .status()
            .is_ok_and(|status| status.success())
        {
            command = apart;
        } else {
            says(&command.output().unwrap(), K1_LINE);
            return assert_eq!(desk.read("old"), k1());
        }
    }
    wrong(&command.output().unwrap(), "old: Permission denied");
    assert!(desk.files() == before);
}

/// A symbolic link is followed, and stays; also one to a file that is not there yet.
#[test]
fn links_are_followed() {
    let desk = with_k("links");
    fs::create_dir(desk.folder.join("folder")).unwrap();
    fs::create_dir(desk.folder.join("shelf")).unwrap();
    let link = |target: &str, name: &str| symlink(target, desk.folder.join(name)).unwrap();
    link("folder/link", "to-link");
    link("../old", "folder/link");
    link("shelf/new", "to-new");
    for (name, target) in [("to-link", "old"), ("to-new", "shelf/new")] {
        says(&desk.run(&["refine", "k", "choice", name]), K1_LINE);
        assert_eq!(desk.read(target), k1());
        assert!(fs::symlink_metadata(desk.folder.join(name))
            .unwrap()
            .is_symlink());
    }
    assert!(fs::symlink_metadata(desk.folder.join("folder/link"))
        .unwrap()
        .is_symlink());
    let count = |folder: &str| fs::read_dir(desk.folder.join(folder)).unwrap().count();
    assert_eq!((count("."), count("folder"), count("shelf")), (8, 1, 1));
    // A mesh is read through a link too.
    says(&desk.run(&["check", "to-link"]), K1_LINE);
}

/// What is no regular file takes the bytes directly, stays what it is, and gets no words.
#[test]
fn outputs_that_are_no_files() {
    let desk = with_k("devices");
    gives(&desk.run(&["refine", "k", "choice", "/dev/null"]), b"");
    assert!(fs::metadata("/dev/null")
        .unwrap()
        .file_type()
        .is_char_device());
    let pipe = pipe_in(&desk);
    let reader = std::thread::spawn(move || fs::read(pipe).unwrap());
    gives(&desk.run(&["refine", "k", "choice", "pipe"]), b"");
    assert_eq!(reader.join().unwrap(), k1());
    assert!(fs::metadata(desk.folder.join("pipe"))
        .unwrap()
        .file_type()
        .is_fifo());
    assert_eq!(desk.files().len(), 5);
}

/// A part that a run of the same process number left behind is in nobody's way; a name may be as long
/// as the system allows.
#[test]
fn the_name_of_the_part() {
    let desk = with_k("parts");
    // The shell's process number is the one that tmb then has.
    let script = ": >.old.$$.part; : >.old.$$.1.part; exec \"$0\" refine k choice old";
    let mut shell = Command::new("sh");
    shell
        .arg("-c")
        .arg(script)
        .arg(&desk.program)
        .current_dir(&desk.folder);
    says(&shell.output().unwrap(), K1_LINE);
    assert_eq!(desk.read("old"), k1());
    let parts = desk
        .files()
        .into_iter()
        .filter(|(name, _)| name.ends_with(b".part"));
    let parts: Vec<Vec<u8>> = parts.map(|(_, bytes)| bytes).collect();
    assert_eq!(parts, [b"", b""]);
    let long = "x".repeat(255);
    for _ in 0..2 {
        says(&desk.run(&["refine", "k", "choice", &long]), K1_LINE);
        assert_eq!(desk.read(&long), k1());
    }
}

/// Each call that changes a file fails once, and kills once: old or new bytes stand, never others, and
/// a failure leaves nothing beside them.
#[test]
fn every_step_fails_and_kills() {
    let desk = with_k("steps");
    let faults = desk.folder.with_extension("so");
    let mut cc = Command::new("cc");
    cc.args(["-Wall", "-Wextra", "-Werror", "-shared", "-fPIC", "-o"])
        .arg(&faults);
    cc.arg(Path::new(env!("CARGO_MANIFEST_DIR")).join("tests/faults.c"))
        .arg("-ldl");
    assert!(cc.status().unwrap().success());
    let old = desk.folder.join("old");
    let run = |at: usize, kills: bool| {
        desk.write("old", b"old");
        fs::set_permissions(&old, fs::Permissions::from_mode(0o600)).unwrap();
        let mut command = desk.command(&["refine", "k", "choice", "old"]);
        command
            .env("LD_PRELOAD", &faults)
            .env("FAULT_AT", at.to_string());
        if kills {
            command.env("FAULT_KILLS", "1");
        }
        command.output().unwrap()
    };
    let before = desk.files().len();
    // Opened as it stands, the part created, its bits set, written and synced, renamed.
    for step in 1..=6 {
        wrong(&run(step, false), "old: Input/output error");
        assert_eq!(
            (desk.read("old"), desk.files().len()),
            (b"old".to_vec(), before),
            "{step}"
        );
    }
    let message = "old: written, but its folder can't be synced: Input/output error";
    wrong(&run(7, false), message);
    assert_eq!((desk.read("old"), desk.files().len()), (k1(), before));
    wrong(
        &run(8, false),
        "standard output: Input/output error (old is written)",
    );
    assert_eq!((desk.read("old"), desk.files().len()), (k1(), before));
    says(&run(9, false), K1_LINE);
    assert_eq!((desk.read("old"), desk.files().len()), (k1(), before));

    for step in 1..=8 {
        assert_eq!(run(step, true).status.code(), None, "killed at {step}");
        assert_eq!(
            desk.read("old"),
            if step < 7 { b"old".to_vec() } else { k1() },
            "{step}"
        );
        assert_eq!(
            (desk.read("k"), desk.read("choice")),
            (k(), chosen(&k(), &[0]))
        );
        // What a kill leaves bears its name.
        for (name, _) in desk
            .files()
            .into_iter()
            .filter(|(name, _)| name.starts_with(b"."))
        {
            assert!(name.starts_with(b".old.") && name.ends_with(b".part"));
            fs::remove_file(desk.folder.join(String::from_utf8(name).unwrap())).unwrap();
        }
        assert_eq!(desk.files().len(), before);
    }
}
