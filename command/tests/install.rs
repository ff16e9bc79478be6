//! ./install puts into a new folder what is needed: a C program and a Rust program are compiled with what is
//! found there and run, and the command goes through a whole round. Also docs/first-round, with ./tmb.

mod common;
use common::*;
use std::ffi::OsString;
use std::fs;
use std::io::{self, ErrorKind, Write};
use std::path::{Path, PathBuf};
use std::process::{Command, Output};

fn root() -> PathBuf {
    let up = Path::new(env!("CARGO_MANIFEST_DIR")).join("..");
    up.canonicalize().unwrap()
}

fn scratch() -> &'static Path {
    Path::new(env!("CARGO_TARGET_TMPDIR"))
}

/// A script of the repository. Its cargo has a folder of its own: the one that runs this test may hold the
/// lock of the other.
fn script(name: &str) -> Command {
    let mut script = Command::new(root().join(name));
    script
        .current_dir(scratch())
        .env("CARGO_TARGET_DIR", scratch().join("install-cargo"))
        .env_remove("DESTDIR");
    script
}

/// Runs a command that must succeed; what it wrote to standard output and to standard error.
#[track_caller]
fn run(command: &mut Command) -> (String, String) {
    let output = command.output();
    let Output {
        status,
        stdout,
        stderr,
    } = output.unwrap_or_else(|error| panic!("{command:?}: {error}"));
    let [stdout, stderr] = [stdout, stderr].map(|text| String::from_utf8_lossy(&text).into_owned());
    assert!(status.success(), "{command:?}\n{stdout}{stderr}");
    (stdout, stderr)
}

/// Whether a program is on the path.
fn is_there(program: &str) -> bool {
    let tried = Command::new(program).arg("--version").output();
    !matches!(tried, Err(error) if error.kind() == ErrorKind::NotFound)
}

/// Said also when the test succeeds.
fn note(words: &str) {
    let _ = writeln!(io::stderr(), "install: {words}");
}

/// What the compiler needs to find the header and the library, as tmb.pc has it.
fn read_off(package: &Path) -> String {
    let mut text = fs::read_to_string(package).unwrap();
    let field = |text: &str, name: &str| {
        let line = text.lines().find_map(|line| line.strip_prefix(name));
        line.unwrap().to_string()
    };
    for variable in ["prefix", "libdir", "includedir"] {
        let value = field(&text, &format!("{variable}="));
        text = text.replace(&format!("${{{variable}}}"), &value);
    }
    field(&text, "Cflags: ") + " " + &field(&text, "Libs: ")
}

/// The same, as pkg-config gives it where there is one.
fn asked_for(folder: &Path) -> Option<String> {
    if !is_there("pkg-config") {
        note("there is no pkg-config: the flags are read off tmb.pc alone");
        return None;
    }
    note("the flags are read off tmb.pc, and then pkg-config's");
    let mut asked = Command::new("pkg-config");
    asked.args(["--cflags", "--libs", "tmb"]);
    Some(run(asked.env("PKG_CONFIG_PATH", folder)).0)
}

const ROUND: &str = "build 0\nrefine 0\ncheck 0 leaves 2 deepest 1 sixfold 262144\n\
                     list 0 length 119\ntake back 0\nrefine 14\n";

/// A program compiled with the installation gives the answers of "A piece worked by hand".
#[track_caller]
fn compiled(tool: &str, compile: &mut Command, program: &Path) {
    assert!(
        is_there(tool),
        "{tool}, which compiles the program, is not on the path"
    );
    run(compile.arg("-o").arg(program));
    assert_eq!(run(&mut Command::new(program)).0, ROUND);
}

#[test]
fn an_installation() {
    // With a space, and relative to where it is called.
    let name = "a new folder";
    let prefix = scratch().join(name);
    let _ = fs::remove_dir_all(&prefix);
    let (printed, _) = run(script("install").arg(name));
    let names = [
        ("include/tmb.h", "docs/tmb.h"),
        ("lib/libstation.a", "target/staticlib/libstation.a"),
        ("lib/pkgconfig/tmb.pc", ""),
        ("share/man/man1/tmb.1", "docs/tmb.1"),
        ("bin/tmb-list", "target/bin/list"),
        ("bin/tmb", ""),
    ];
    let paths = names.map(|(name, _)| format!("{}\n", prefix.join(name).display()));
    assert_eq!(printed, paths.concat());
    for (name, source) in names.into_iter().filter(|(_, source)| !source.is_empty()) {
        let same = fs::read(prefix.join(name)).unwrap() == fs::read(root().join(source)).unwrap();
        assert!(same, "{name} is {source}");
    }
    // Again, over what is there: nothing is proved twice.
    let (again, said) = run(script("install").arg(&prefix));
    assert_eq!(again, printed);
    assert_eq!(
        said.replace("making tmb: another run is making it: waiting\n", ""),
        "making tmb: the services were proved before; what has changed since is proved again\n\
         making tmb: the command is being compiled\n"
    );

    let programs = Path::new(env!("CARGO_MANIFEST_DIR")).join("tests/programs");
    let package = prefix.join("lib/pkgconfig/tmb.pc");
    let flags = [
        Some(read_off(&package)),
        asked_for(package.parent().unwrap()),
    ];
    for flags in flags.into_iter().flatten() {
        // They are quoted as a shell reads them.
        let line = r#"eval "cc -Wall -Wextra -Werror -std=c99 \"\$1\" $0 \"\$2\" \"\$3\"""#;
        let mut in_c = Command::new("sh");
        in_c.args(["-c", line, flags.trim()])
            .arg(programs.join("round.c"));
        compiled("cc", &mut in_c, &scratch().join("round in C"));
    }

    let mut in_rust = Command::new("rustc");
    in_rust.args([
        "--edition",
        "2021",
        "-D",
        "warnings",
        "-l",
        "static=station",
        "-L",
    ]);
    in_rust
        .arg(prefix.join("lib"))
        .arg(programs.join("round.rs"));
    compiled("rustc", &mut in_rust, &scratch().join("round in Rust"));

    a_round(&prefix);
    the_manual(&prefix);
}

/// The command, and the listing program beside it.
fn a_round(prefix: &Path) {
    let mut desk = Desk::new("installed");
    desk.program = prefix.join("bin/tmb");
    let plain: OsString = sample("k.txt").into();
    let line =
        |round: u32, rest: &str| format!("accepted: job 7 round {round} {rest} sixfold 262144");
    let built = line(0, "vertices 4 records 1 leaves 1 deepest 0");
    let cut = line(1, "vertices 5 records 3 leaves 2 deepest 1");
    says(
        &desk.run(&["build".into(), "7".into(), plain, "k".into()]),
        &built,
    );
    says(
        &desk.run(&["select", "k", "choice", "0"]),
        "selected: job 7 round 0 numbers 1",
    );
    says(&desk.run(&["refine", "k", "choice", "k"]), &cut);
    says(&desk.run(&["check", "k"]), &cut);
    let listing = second::list(&k1());
    gives(&desk.run(&["list", "k"]), &listing);
    desk.program = prefix.join("bin/tmb-list");
    gives(&desk.run_with_input::<&str>(&[], &k1()), &listing);
    desk.program = prefix.join("bin/tmb");
    refuses(
        &desk.run(&["refine", "k", "choice", "k"]),
        14,
        "the selection is of round 0 and the mesh of round 1: choose again with tmb select",
    );
    says(
        &desk.run(&["select", "--back", "k", "choice", "all"]),
        "selected: job 7 round 1 numbers 1",
    );
    let back = line(2, "vertices 4 records 1 leaves 1 deepest 0");
    says(&desk.run(&["take-back", "k", "choice", "k"]), &back);
}

/// The manual page is there, and `man` shows it without a warning.
fn the_manual(prefix: &Path) {
    let page = prefix.join("share/man/man1/tmb.1");
    assert!(page.is_file());
    // Some systems have a `man` that only says that there are no manual pages.
    let version = Command::new("man").arg("--version").output();
    if !version.is_ok_and(|output| output.stdout.starts_with(b"man ")) {
        return note("there is no man that shows a file");
    }
    let mut man = Command::new("man");
    man.args(["--warnings", "-P", "cat", "-l"]).arg(page);
    let (shown, warned) = run(man.env("LC_ALL", "C.UTF-8").env("MANWIDTH", "100"));
    let line = "tmb - build, check, select, refine, take back and list casing meshes";
    assert!(shown.contains(line), "{shown}");
    assert_eq!(warned, "");
    note("man shows the manual page");
}

/// What README shows first: a round on a shipped casing, taken back again, at whose end the used selection is
/// refused.
#[test]
fn the_first_round() {
    let (shown, _) = run(&mut script("docs/first-round"));
    let commands = shown.lines().filter(|line| line.starts_with("$ tmb "));
    let names: Vec<&str> = commands
        .map(|line| line.split(' ').nth(2).unwrap())
        .collect();
    let round = [
        "build",
        "list",
        "select",
        "refine",
        "check",
        "list",
        "select",
        "take-back",
        "refine",
    ];
    assert_eq!(names, round);
    let refused = format!("\ntmb: refused 14: {} (", second::reason(14));
    assert_eq!(shown.matches(&refused).count(), 1, "{shown}");
    let accepted = shown
        .lines()
        .filter(|line| line.starts_with("accepted: job 7 round "));
    let rounds: Vec<&str> = accepted
        .map(|line| line.split(' ').nth(4).unwrap())
        .collect();
    assert_eq!(rounds, ["0", "1", "1", "2"]);
}
