//! The program `second`: build, check, refine, take back, select and list on files.
//!
//! A plain mesh (PLAIN below) is a text file. What follows a `#` on a line is a comment. A line
//! `v x y z` gives a vertex by its three coordinates; vertices are numbered from 0 as they come. A
//! line `p a b c d` gives a piece by the numbers of its four corners. Lines of both sorts may be
//! mixed; empty lines are skipped.

use second::mesh::Mesh;
use std::ffi::OsString;
use std::fs;
use std::io::{self, Read, Write};
use std::path::{Path, PathBuf};
use std::process::ExitCode;
use std::str::FromStr;

const USAGE: &str = "usage:
  second build JOB PLAIN OUT          marks the plain mesh and stores it
  second check MESH                   judges a stored mesh
  second refine MESH SELECTION OUT    writes the refined mesh
  second take-back MESH REQUEST OUT   writes the mesh without the cuts taken back
  second select MESH OUT n n n ..     writes a selection for the mesh's job and round
  second list < MESH                  prints the pieces
A plain mesh is a text file: lines `v x y z` (a vertex) and `p a b c d` (a piece by the
numbers of its corners, from 0); what follows a # is a comment.";

/// How a command that was not answered by a result ends.
enum Ending {
    /// A numbered refusal, with what is to be printed.
    Refused(String),
    /// The command can't be carried out as given.
    Wrong(String),
}

/// Refused ends with status 1, a wrong command with status 2.
fn main() -> ExitCode {
    let arguments: Vec<OsString> = std::env::args_os().skip(1).collect();
    let (printed, status) = match run(&arguments) {
        Ok(printed) => (printed, 0),
        Err(Ending::Refused(printed)) => (printed, 1),
        Err(Ending::Wrong(message)) => {
            // Standard error is the last resort: nothing is left to do if it fails too.
            let _ = writeln!(io::stderr(), "second: {message}");
            return ExitCode::from(2);
        }
    };
    let mut out = io::stdout();
    match out.write_all(printed.as_bytes()).and_then(|()| out.flush()) {
        Ok(()) => ExitCode::from(status),
        Err(_) => ExitCode::from(2),
    }
}

/// Carries out one command and returns what it prints.
fn run(arguments: &[OsString]) -> Result<String, Ending> {
    let command = arguments
        .first()
        .and_then(|name| name.to_str())
        .unwrap_or("");
    match (command, arguments.get(1..).unwrap_or(&[])) {
        ("build", [job, plain, out]) => {
            let job = number::<u32>(job)?;
            let (coordinates, corners) = read_plain(Path::new(plain))?;
            let mesh = second::build_vec(job, &coordinates, &corners).map_err(refused)?;
            write_whole(Path::new(out), &mesh)?;
            Ok(format!("accepted: {} bytes\n", mesh.len()))
        }
        ("check", [mesh]) => {
            let report = accepted(&read(mesh)?)?;
            Ok(format!(
                "accepted: leaves {} deepest {} sixfold {}\n",
                report.leaves, report.deepest, report.sixfold
            ))
        }
        ("refine", [mesh, selection, out]) => {
            let refined = second::refine_vec(&read(mesh)?, &read(selection)?).map_err(refused)?;
            write_whole(Path::new(out), &refined)?;
            Ok(format!("accepted: {} bytes\n", refined.len()))
        }
        ("take-back", [mesh, request, out]) => {
            let coarser = second::take_back_vec(&read(mesh)?, &read(request)?).map_err(refused)?;
            write_whole(Path::new(out), &coarser)?;
            Ok(format!("accepted: {} bytes\n", coarser.len()))
        }
        ("select", [mesh, out, numbers @ ..]) => {
            let bytes = read(mesh)?;
            accepted(&bytes)?;
            let mesh = Mesh::read(&bytes).map_err(refused)?;
            let numbers = numbers
                .iter()
                .map(number::<u16>)
                .collect::<Result<Vec<_>, _>>()?;
            if numbers.len() > usize::from(u16::MAX) {
                return Err(Ending::Wrong(
                    "a selection has at most 65,535 numbers".into(),
                ));
            }
            let selection = second::selection(mesh.job, mesh.round, &numbers);
            write_whole(Path::new(out), &selection)?;
            Ok(format!("selection: {} bytes\n", selection.len()))
        }
        ("list", []) => {
            // "Input longer than the largest mesh is refused": one byte more is enough to tell.
            let mut mesh = Vec::new();
            io::stdin()
                .take(second::LARGEST_MESH as u64 + 1)
                .read_to_end(&mut mesh)
                .map_err(|error| Ending::Wrong(format!("standard input: {error}")))?;
            let listing = String::from_utf8_lossy(&second::list(&mesh)).into_owned();
            if listing.starts_with("refused") {
                Err(Ending::Refused(listing))
            } else {
                Ok(listing)
            }
        }
        _ => Err(Ending::Wrong(format!("no such command\n{USAGE}"))),
    }
}

/// One line: the number of the refusal and its words.
fn refused(number: u32) -> Ending {
    Ending::Refused(format!("refused {number}: {}\n", second::reason(number)))
}

/// Check's figures; with 10 a refusal's second line is the place found.
fn accepted(mesh: &[u8]) -> Result<second::Report, Ending> {
    let report = second::check(mesh);
    match (report.number, refused(report.number as u32)) {
        (0, _) => Ok(report),
        (10, Ending::Refused(line)) => Err(Ending::Refused(format!(
            "{line}record {} edge {}\n",
            report.record, report.edge
        ))),
        (_, ending) => Err(ending),
    }
}

/// A whole number given as an argument.
fn number<N: FromStr>(argument: &OsString) -> Result<N, Ending> {
    argument
        .to_str()
        .and_then(|text| text.parse().ok())
        .ok_or_else(|| Ending::Wrong(format!("{argument:?} is not a whole number within bounds")))
}

/// A whole file.
fn read(path: &OsString) -> Result<Vec<u8>, Ending> {
    fs::read(path).map_err(|error| Ending::Wrong(format!("{path:?}: {error}")))
}

/// Coordinates and corners of a plain mesh.
fn read_plain(path: &Path) -> Result<(Vec<i16>, Vec<u16>), Ending> {
    let text =
        fs::read_to_string(path).map_err(|error| Ending::Wrong(format!("{path:?}: {error}")))?;
    let (mut coordinates, mut corners) = (Vec::new(), Vec::new());
    for (line, number) in text.lines().zip(1u64..) {
        let words: Vec<&str> = line
            .split('#')
            .next()
            .unwrap_or("")
            .split_whitespace()
            .collect();
        let good = match words.as_slice() {
            [] => true,
            ["v", place @ ..] => append::<i16>(&mut coordinates, place, 3),
            ["p", piece @ ..] => append::<u16>(&mut corners, piece, 4),
            _ => false,
        };
        if !good {
            return Err(Ending::Wrong(format!(
                "{path:?}, line {number}: not `v x y z` with coordinates from -32,768 to 32,767 \
                 and not `p a b c d` with numbers from 0 to 65,535"
            )));
        }
    }
    Ok((coordinates, corners))
}

/// Appends the numbers of one line if they are as many as they have to be and all within bounds.
fn append<N: FromStr>(numbers: &mut Vec<N>, words: &[&str], count: usize) -> bool {
    let read: Result<Vec<N>, _> = words.iter().map(|word| word.parse()).collect();
    match read {
        Ok(read) if read.len() == count => {
            numbers.extend(read);
            true
        }
        _ => false,
    }
}

/// Writes a temporary file beside the wanted one and then renames it, so that the wanted file is
/// written whole or not at all.
fn write_whole(path: &Path, bytes: &[u8]) -> Result<(), Ending> {
    let wrong = |error: io::Error| Ending::Wrong(format!("{path:?}: {error}"));
    let mut name = path
        .file_name()
        .ok_or_else(|| Ending::Wrong(format!("{path:?} names no file")))?
        .to_os_string();
    name.push(format!(".{}.part", std::process::id()));
    let temporary: PathBuf = path.with_file_name(name);
    let mut file = fs::File::create_new(&temporary).map_err(wrong)?;
    file.write_all(bytes)
        .and_then(|()| file.sync_all())
        .and_then(|()| fs::rename(&temporary, path))
        .map_err(|error| {
            // What is half written must not stay.
            let _ = fs::remove_file(&temporary);
            wrong(error)
        })
}
