//! The commands: arguments and files in, what a service answers out.

use crate::cuts;
use crate::explained;
use crate::files::{self, shown};
use crate::help;
use crate::plain::{self, Plain, LONGEST_TEXT};
use crate::refusals::{words, wrong, Ending};
use crate::station;
use crate::stored::{self, Counts, LARGEST_LISTING, LARGEST_MESH, LONGEST_MESH, LONGEST_SELECTION};
use std::ffi::{OsStr, OsString};
use std::str::FromStr;

/// Carries out one command.
pub fn run(arguments: &[OsString]) -> Result<(), Ending> {
    let Some((name, rest)) = command(arguments) else {
        return Err(Ending::Wrong(format!("no command\n{}", help::usage())));
    };
    match (name.to_str().unwrap_or(""), rest) {
        ("help" | "--help" | "-h", []) => print(help::overview()),
        ("--version", []) => print(concat!("tmb ", env!("CARGO_PKG_VERSION"), "\n")),
        (_, [asked]) if asked == "--help" || asked == "-h" => print(help::page(name)?),
        ("help", about) => match command(about) {
            Some((about, [])) => print(help::page(about)?),
            _ => Err(help::wrong_arguments(name)),
        },
        ("build", [job, plain, out]) => build(job, plain, out),
        ("check", [mesh]) => check(mesh),
        ("select", [mesh, out, numbers @ ..]) => select(mesh, out, numbers),
        ("refine", [mesh, selection, out]) => changed(REFINE, mesh, selection, out),
        ("list", [mesh]) => list(mesh),
        ("cuts", [mesh]) => show_cuts(mesh),
        (SELECT_BACK, [mesh, out, numbers @ ..]) => select_back(mesh, out, numbers),
        ("take-back", [mesh, request, out]) => changed(TAKE_BACK, mesh, request, out),
        _ => Err(help::wrong_arguments(name)),
    }
}

/// A command of two words.
const SELECT_BACK: &str = "select --back";

/// The command that the first words name, and the words after it.
fn command(words: &[OsString]) -> Option<(&OsStr, &[OsString])> {
    match words {
        [] => None,
        [select, back, rest @ ..] if select == "select" && back == "--back" => {
            Some((OsStr::new(SELECT_BACK), rest))
        }
        [name, rest @ ..] => Some((name, rest)),
    }
}

/// A service that takes a mesh and the records that are named in it, and what explains its refusals.
struct Service {
    asked: fn(&[u8], &[u8], &mut [u8]) -> u32,
    explained: fn(u32, &[u8], &[u8]) -> Option<String>,
}

const REFINE: Service = Service {
    asked: station::refine,
    explained: explained::refinement,
};
const TAKE_BACK: Service = Service {
    asked: station::take_back,
    explained: explained::taking_back,
};

fn build(job: &OsStr, plain: &OsStr, out: &OsStr) -> Result<(), Ending> {
    let job = number::<u32>(job, u32::MAX)?;
    let plain = read_plain(plain)?;
    let mut mesh = vec![0; LARGEST_MESH];
    let number = station::build(job, &plain.coordinates, &plain.corners, &mut mesh);
    judged(number, || explained::plain(number, &plain))?;
    deliver_mesh(out, mesh)
}

fn check(mesh: &OsStr) -> Result<(), Ending> {
    print(accepted(&files::read(mesh, LONGEST_MESH)?)?)
}

fn select(mesh: &OsStr, out: &OsStr, numbers: &[OsString]) -> Result<(), Ending> {
    let numbers = read_numbers(numbers)?;
    let mesh = files::read(mesh, LONGEST_MESH)?;
    choose(REFINE, &mesh, out, &numbers)
}

/// Numbers, or `all` for every cut record.
fn select_back(mesh: &OsStr, out: &OsStr, numbers: &[OsString]) -> Result<(), Ending> {
    let numbers = match numbers {
        [all] if all == "all" => None,
        numbers => Some(read_numbers(numbers)?),
    };
    let mesh = files::read(mesh, LONGEST_MESH)?;
    let numbers = numbers.unwrap_or_else(|| stored::cut_records(&mesh));
    choose(TAKE_BACK, &mesh, out, &numbers)
}

fn read_numbers(numbers: &[OsString]) -> Result<Vec<u16>, Ending> {
    if numbers.len() > usize::from(u16::MAX) {
        let most = "a selection has at most 65,535 numbers";
        return Err(Ending::Wrong(most.to_string()));
    }
    let numbers = numbers.iter().map(|text| number::<u16>(text, u16::MAX));
    numbers.collect()
}

/// The numbers are written as they are given. The service is asked about them, with no room for a result:
/// 20 is all that a good selection can be refused with.
fn choose(service: Service, mesh: &[u8], out: &OsStr, numbers: &[u16]) -> Result<(), Ending> {
    let (job, round) = (stored::job(mesh), stored::round(mesh));
    let selection = stored::selection(job, round, numbers);
    match (service.asked)(mesh, &selection, &mut []) {
        20 => {}
        number => judged(number, || (service.explained)(number, mesh, &selection))?,
    }
    let count = numbers.len();
    deliver(
        out,
        &selection,
        &format!("selected: job {job} round {round} numbers {count}\n"),
    )
}

/// Refines, or takes cuts back.
fn changed(service: Service, mesh: &OsStr, selection: &OsStr, out: &OsStr) -> Result<(), Ending> {
    if files::is_standard(mesh) && files::is_standard(selection) {
        return Err(Ending::Wrong("only one input may be -".to_string()));
    }
    let mesh = files::read(mesh, LONGEST_MESH)?;
    let selection = files::read(selection, LONGEST_SELECTION)?;
    let mut result = vec![0; LARGEST_MESH];
    let number = (service.asked)(&mesh, &selection, &mut result);
    judged(number, || (service.explained)(number, &mesh, &selection))?;
    deliver_mesh(out, result)
}

fn list(mesh: &OsStr) -> Result<(), Ending> {
    let mesh = files::read(mesh, LONGEST_MESH)?;
    let mut text = vec![0; LARGEST_LISTING];
    let listed = station::list(&mesh, &mut text);
    let number = listed.number as u32;
    judged(number, || explained::mesh(number, &mesh))?;
    text.truncate(listed.length as usize);
    print(text)
}

fn show_cuts(mesh: &OsStr) -> Result<(), Ending> {
    let mesh = files::read(mesh, LONGEST_MESH)?;
    accepted(&mesh)?;
    print(cuts::shown(&mesh))
}

/// A number other than 0 is a refusal.
fn judged(number: u32, why: impl FnOnce() -> Option<String>) -> Result<(), Ending> {
    match number {
        0 => Ok(()),
        _ => Err(Ending::Refused { number, why: why() }),
    }
}

/// One line of what check answers for an accepted mesh, in the words of the listing's heading.
fn accepted(mesh: &[u8]) -> Result<String, Ending> {
    let report = station::check(mesh);
    let number = report.number as u32;
    judged(number, || explained::mesh(number, mesh))?;
    let (job, round, counts) = (stored::job(mesh), stored::round(mesh), Counts::of(mesh));
    Ok(format!(
        "accepted: job {job} round {round} vertices {} records {} leaves {} deepest {} sixfold {}\n",
        counts.vertices, counts.records, report.leaves, report.deepest, report.sixfold
    ))
}

/// Writes a mesh that stands at the beginning of a full-size buffer.
fn deliver_mesh(out: &OsStr, mut mesh: Vec<u8>) -> Result<(), Ending> {
    mesh.truncate(Counts::of(&mesh).length());
    let line = accepted(&mesh)?;
    deliver(out, &mesh, &line)
}

/// Writes an output, and a line about it where it can't be taken for a part of it.
fn deliver(out: &OsStr, bytes: &[u8], line: &str) -> Result<(), Ending> {
    if !files::write(out, bytes)? {
        return Ok(());
    }
    files::print(line.as_bytes()).map_err(|error| {
        let (error, out) = (words(&error), shown(out));
        Ending::Wrong(format!("standard output: {error} ({out} is written)"))
    })
}

fn print(bytes: impl AsRef<[u8]>) -> Result<(), Ending> {
    files::print(bytes.as_ref()).map_err(|error| wrong("standard output", &error))
}

/// A whole number given as an argument, in digits alone.
fn number<N: FromStr + ToString>(argument: &OsStr, most: N) -> Result<N, Ending> {
    let text = argument.to_str().unwrap_or("");
    let digits = text.bytes().all(|byte| byte.is_ascii_digit());
    text.parse().ok().filter(|_| digits).ok_or_else(|| {
        let (argument, most) = (shown(argument), most.to_string());
        Ending::Wrong(format!("{argument}: not a whole number from 0 to {most}"))
    })
}

fn read_plain(name: &OsStr) -> Result<Plain, Ending> {
    let text = files::read(name, LONGEST_TEXT)?;
    let shown = files::shown_input(name);
    if text.len() > LONGEST_TEXT {
        let message = format!("{shown}: longer than 16 MiB, the longest text of a plain mesh");
        return Err(Ending::Wrong(message));
    }
    plain::read(&text).map_err(|line| {
        Ending::Wrong(format!(
            "{shown}, line {line}: not `v x y z` with coordinates from -32,768 to 32,767 and not \
             `p a b c d` with numbers from 0 to 65,535"
        ))
    })
}
