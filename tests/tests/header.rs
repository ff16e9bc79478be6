//! docs/tmb.h: a C program that includes it is compiled, linked with the archive and run.

use std::path::{Path, PathBuf};
use std::process::{Command, Output};

fn package() -> &'static Path {
    Path::new(env!("CARGO_MANIFEST_DIR"))
}

fn docs() -> PathBuf {
    package().join("../docs")
}

/// Runs a command that must succeed.
fn run(command: &mut Command) -> Output {
    let output = command.output().expect("the command is there");
    assert!(
        output.status.success(),
        "{command:?}\n{}{}",
        String::from_utf8_lossy(&output.stdout),
        String::from_utf8_lossy(&output.stderr)
    );
    output
}

#[test]
fn a_c_program_calls_the_services() {
    let program = Path::new(env!("CARGO_TARGET_TMPDIR")).join("check-in-c");
    run(Command::new("cc")
        .args(["-Wall", "-Wextra", "-Werror", "-std=c99", "-I"])
        .arg(docs())
        .arg(package().join("c/check.c"))
        .arg(env!("STATION_ARCHIVE"))
        .arg("-o")
        .arg(&program));
    let output = run(&mut Command::new(&program));
    assert_eq!(String::from_utf8_lossy(&output.stdout), "ok\n");
}

/// The C program's bytes are those that build gives: the first row of "A piece worked by hand".
#[test]
fn the_c_program_holds_k() {
    let source = std::fs::read_to_string(package().join("c/check.c")).expect("the C program");
    let table = source.split_once("k[77] = {").expect("the table").1;
    let table = table.split_once("};").expect("its end").0;
    let mut bytes = Vec::new();
    for line in table.lines() {
        let numbers = line.split("/*").next().unwrap_or("");
        for word in numbers.split(',').map(str::trim) {
            match word.strip_prefix('\'') {
                _ if word.is_empty() => {}
                Some(letter) => bytes.push(letter.as_bytes()[0]),
                None => bytes.push(word.parse().expect("a byte")),
            }
        }
    }
    let places = compared::meshes::K.concat();
    assert_eq!(Ok(bytes), second::build_vec(7, &places, &[0, 1, 2, 3]));
}

/// The header stands alone, in C and in C++ (where there is a compiler for it).
#[test]
fn the_header_stands_alone() {
    let header = docs().join("tmb.h");
    run(Command::new("cc")
        .args(["-Wall", "-Wextra", "-Werror", "-pedantic", "-std=c99"])
        .args(["-fsyntax-only", "-x", "c"])
        .arg(&header));
    if Command::new("g++").arg("--version").output().is_ok() {
        run(Command::new("g++")
            .args(["-Wall", "-Wextra", "-Werror", "-pedantic"])
            .args(["-fsyntax-only", "-x", "c++"])
            .arg(&header));
    }
}
