//! The time of the proved check, build, refine and take-back and of the second program's, in one run. Prints the
//! tables of docs/BENCH.md as they stand there: medians in milliseconds, and the ratio. With `--plot FILE` it also
//! writes the picture: the times of the last table against records.

use compared::meshes::{
    block, cubes, cubes_but_two, cut_records, filled, full_base, ladder, open_leaves, refined,
    separate, Plain, LADDER,
};
use compared::plot::{svg, Mark, Series};
use compared::random::Random;
use compared::{tmb_build, tmb_check, tmb_refine, tmb_take_back};
use second::mesh::Mesh;
use second::{
    build, check, refine, refine_vec, selection, take_back, take_back_vec, Report, LARGEST_MESH,
    MOST_RECORDS,
};
use std::env;
use std::ffi::OsString;
use std::fs;
use std::hint::black_box;
use std::process::ExitCode;
use std::time::Instant;

/// Runs of each service on each mesh; odd, so that one of them is the median.
const RUNS: usize = 101;

fn main() -> ExitCode {
    let words: Vec<OsString> = env::args_os().skip(1).collect();
    let file = match words.as_slice() {
        [] => None,
        [option, file] if option == "--plot" => Some(file),
        _ => {
            eprintln!("usage: bench [--plot FILE]");
            return ExitCode::from(2);
        }
    };
    checks();
    builds();
    refinements();
    requests();
    let sizes = growth();
    match file.map(|file| fs::write(file, picture(&sizes))) {
        Some(Err(error)) => {
            eprintln!("bench: the picture is not written: {error}");
            ExitCode::from(2)
        }
        _ => ExitCode::SUCCESS,
    }
}

fn checks() {
    head(
        "Check",
        "| mesh | bytes | vertices | base records | all records | proved, ms | second, ms | ratio |",
    );
    let mut random = Random::new(1);
    let apart = filled(separate(48).built(1), &mut random);
    check_row(
        "48 pieces apart, refined until both tables are full",
        &apart,
    );
    check_row(
        "2 by 16 by 19 cubes and a piece apart, both tables full",
        &full_base(&mut random).built(1),
    );
    let five = cubes([5, 5, 5], 64).built(1);
    check_row("5 by 5 by 5 cubes", &five);
    let finer = refined(&five, &open_leaves(&five)).expect("there is room");
    check_row("5 by 5 by 5 cubes, refined once", &finer);
    check_row(
        "5 by 5 by 5 cubes, refined until nearly full",
        &filled(finer, &mut random),
    );
    check_row("8 by 8 by 8 cubes", &cubes([8, 8, 8], 64).built(1));
}

fn builds() {
    head(
        "Build",
        "| mesh | bytes | vertices | pieces | proved, ms | second, ms | ratio |",
    );
    build_row("5 by 5 by 5 cubes", &cubes([5, 5, 5], 64));
    build_row("8 by 8 by 8 cubes", &cubes([8, 8, 8], 64));
}

fn refinements() {
    head(
        "Refine",
        "| mesh | selected | records before | vertices after | records after | proved, ms | second, ms | ratio |",
    );
    let five = cubes([5, 5, 5], 64).built(1);
    refine_row("5 by 5 by 5 cubes, all", &five, &open_leaves(&five));
    let rungs = ladder(340).marked(1, &[LADDER; 340]);
    refine_row("the ladder of 340 pieces, its first", &rungs, &[0]);
    // Six pieces meet in the first cube's diagonal: twelve records more, and the table is full.
    let nearly = block(MOST_RECORDS - 12).built(1);
    refine_row("8 by 8 by 8 cubes but two, one", &nearly, &[0]);
    refine_row(
        "8 by 8 by 8 cubes, none",
        &cubes([8, 8, 8], 64).built(1),
        &[],
    );
}

fn requests() {
    head(
        "Take-back",
        "| mesh | named | records before | vertices after | records after | proved, ms | second, ms | ratio |",
    );
    let five = cubes([5, 5, 5], 64).built(1);
    let finer = refined(&five, &open_leaves(&five)).expect("there is room");
    let full = filled(separate(48).built(1), &mut Random::new(1));
    let once = "5 by 5 by 5 cubes, refined once";
    let tables = "48 pieces apart, refined until both tables are full";
    for (name, mesh) in [(once, &finer), (tables, &full)] {
        take_back_row(&format!("{name}, all"), mesh, &cut_records(mesh));
        take_back_row(&format!("{name}, none"), mesh, &[]);
    }
}

/// The last table: on each size two cubes are left out, so that on the largest too there is room to refine, and
/// one piece is selected.
fn growth() -> Vec<Size> {
    head(
        "Cubes of 2 to 8 a side",
        "| mesh | records | check: proved, ms | second, ms | ratio | proved, µs a record \
         | refine one: proved, ms | second, ms | ratio | proved, µs a record |",
    );
    (2..=8).map(size_row).collect()
}

/// The times on one size of mesh.
struct Size {
    records: usize,
    check: Times,
    refine: Times,
}

fn size_row(side: usize) -> Size {
    let mesh = cubes_but_two(side).built(1);
    let (bytes, chosen) = (mesh.bytes(), selection(mesh.job, mesh.round, &[0]));
    let records = mesh.records.len();
    let (check, refine) = (check_times(&bytes), refine_times(&bytes, &chosen));
    let per_record = |times: &Times| figure(1_000.0 * times.proved / records as f64);
    println!(
        "| {side} by {side} by {side} cubes but two | {records} | {} | {} | {} | {} |",
        check.cells(),
        per_record(&check),
        refine.cells(),
        per_record(&refine)
    );
    Size {
        records,
        check,
        refine,
    }
}

fn picture(sizes: &[Size]) -> String {
    let series = |name, time: fn(&Size) -> f64, mark, colour, full| {
        let point = |size: &Size| (size.records as f64, time(size));
        Series {
            name,
            points: sizes.iter().map(point).collect(),
            mark,
            colour,
            full,
        }
    };
    let (circle, square) = (Mark::Circle, Mark::Square);
    let (blue, red) = ("#0072b2", "#d55e00");
    svg(
        "Cubes of 2 to 8 a side: time against records",
        &[
            series("check, proved", |s| s.check.proved, circle, blue, true),
            series("check, second", |s| s.check.second, circle, blue, false),
            series("refine, proved", |s| s.refine.proved, square, red, true),
            series("refine, second", |s| s.refine.second, square, red, false),
        ],
    )
}

fn check_row(name: &str, mesh: &Mesh) {
    let bytes = mesh.bytes();
    println!(
        "| {name} | {} | {} | {} | {} | {} |",
        bytes.len(),
        mesh.vertices.len(),
        mesh.base_records,
        mesh.records.len(),
        check_times(&bytes).cells()
    );
}

fn build_row(name: &str, plain: &Plain) {
    println!(
        "| {name} | {} | {} | {} | {} |",
        plain.built(1).bytes().len(),
        plain.places.len(),
        plain.pieces.len(),
        build_times(&plain.places.concat(), &plain.pieces.concat()).cells()
    );
}

fn refine_row(name: &str, mesh: &Mesh, numbers: &[u16]) {
    let (bytes, chosen) = (mesh.bytes(), selection(mesh.job, mesh.round, numbers));
    let result = refine_vec(&bytes, &chosen).expect("accepted");
    let finer = Mesh::read(&result).expect("a stored mesh");
    println!(
        "| {name} | {} | {} | {} | {} | {} |",
        numbers.len(),
        mesh.records.len(),
        finer.vertices.len(),
        finer.records.len(),
        refine_times(&bytes, &chosen).cells()
    );
}

fn take_back_row(name: &str, mesh: &Mesh, numbers: &[u16]) {
    let (bytes, request) = (mesh.bytes(), selection(mesh.job, mesh.round, numbers));
    let result = take_back_vec(&bytes, &request).expect("accepted");
    let coarser = Mesh::read(&result).expect("a stored mesh");
    println!(
        "| {name} | {} | {} | {} | {} | {} |",
        numbers.len(),
        mesh.records.len(),
        coarser.vertices.len(),
        coarser.records.len(),
        take_back_times(&bytes, &request).cells()
    );
}

/// The head of a table.
fn head(title: &str, columns: &str) {
    let count = columns.matches('|').count() - 1;
    println!("\n## {title}\n\n{columns}\n|{}", "---|".repeat(count));
}

/// To three digits, as far as four decimals go.
fn figure(value: f64) -> String {
    let decimals = (2.0 - value.log10().floor()).clamp(0.0, 4.0) as usize;
    format!("{value:.decimals$}")
}

/// Medians in milliseconds.
struct Times {
    proved: f64,
    second: f64,
}

impl Times {
    /// Of runs that give their time and what they answer. In turn, so that whatever else the machine does falls
    /// on both.
    fn in_turn<T: PartialEq>(
        proved: impl Fn() -> (f64, T),
        second: impl Fn() -> (f64, T),
    ) -> Times {
        let mut times = [(); 2].map(|()| Vec::new());
        for _ in 0..RUNS {
            let ((one_time, one), (other_time, other)) = (proved(), second());
            assert!(one == other, "both give one answer");
            times[0].push(one_time);
            times[1].push(other_time);
        }
        let [proved, second] = times.map(median);
        Times { proved, second }
    }

    /// The last three cells of a row.
    fn cells(&self) -> String {
        [self.proved, self.second, self.proved / self.second]
            .map(figure)
            .join(" | ")
    }
}

fn median(mut times: Vec<f64>) -> f64 {
    times.sort_by(f64::total_cmp);
    times[times.len() / 2]
}

fn check_times(mesh: &[u8]) -> Times {
    let run = |check: fn(&[u8]) -> Report| {
        let (time, report) = timed(|| check(black_box(mesh)));
        assert_eq!(report.number, 0, "accepted");
        (time, report)
    };
    Times::in_turn(|| run(tmb_check), || run(check))
}

fn build_times(coordinates: &[i16], corners: &[u16]) -> Times {
    let run = |build: fn(u32, &[i16], &[u16], &mut [u8]) -> u32| {
        written(|out| build(1, black_box(coordinates), black_box(corners), out))
    };
    Times::in_turn(|| run(tmb_build), || run(build))
}

fn refine_times(mesh: &[u8], selection: &[u8]) -> Times {
    let run = |refine: fn(&[u8], &[u8], &mut [u8]) -> u32| {
        written(|out| refine(black_box(mesh), black_box(selection), out))
    };
    Times::in_turn(|| run(tmb_refine), || run(refine))
}

fn take_back_times(mesh: &[u8], request: &[u8]) -> Times {
    let run = |take_back: fn(&[u8], &[u8], &mut [u8]) -> u32| {
        written(|out| take_back(black_box(mesh), black_box(request), out))
    };
    Times::in_turn(|| run(tmb_take_back), || run(take_back))
}

/// The time of a service that writes into a full-size buffer of bytes 255, and what stands in it afterwards.
fn written(service: impl FnOnce(&mut [u8]) -> u32) -> (f64, Vec<u8>) {
    let mut out = vec![255; LARGEST_MESH];
    let (time, number) = timed(|| service(&mut out));
    assert_eq!(number, 0, "accepted");
    (time, black_box(out))
}

/// In milliseconds.
fn timed<T>(service: impl FnOnce() -> T) -> (f64, T) {
    let start = Instant::now();
    let answer = black_box(service());
    (start.elapsed().as_secs_f64() * 1_000.0, answer)
}
