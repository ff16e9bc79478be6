//! Killed at any moment, told to end at any moment, and a disk that is full: the output is the whole
//! old one or the whole new one, and the inputs stand as they were.

mod common;
use common::*;
use std::fs;
use std::os::unix::process::ExitStatusExt;
use std::process::{Command, Stdio};
use std::thread;
use std::time::{Duration, Instant};

extern "C" {
    fn kill(process: i32, signal: i32) -> i32;
}

const HANG_UP: i32 = 1;
const INTERRUPT: i32 = 2;
const KILL: i32 = 9;
const END: i32 = 15;

/// A desk with a mesh of so many pieces, a selection for it that cuts none, and an old output.
struct Scene {
    desk: Desk,
    mesh: Vec<u8>,
    choice: Vec<u8>,
    old: Vec<u8>,
    new: Vec<u8>,
}

fn scene(name: &str, pieces: u16) -> Scene {
    let mesh = separate(pieces);
    let scene = Scene {
        desk: Desk::new(name),
        choice: chosen(&mesh, &[]),
        old: separate(pieces - 1),
        new: refined(&mesh, &[]),
        mesh,
    };
    scene.desk.write("mesh", &scene.mesh);
    scene.desk.write("choice", &scene.choice);
    scene.desk.write("out", &scene.old);
    scene
}

/// The names of what stands beside the three files.
fn parts(desk: &Desk) -> Vec<Vec<u8>> {
    let names = desk.files().into_iter().map(|(name, _)| name);
    names
        .filter(|name| ![&b"mesh"[..], b"choice", b"out"].contains(&&name[..]))
        .collect()
}

/// Runs refine some hundred times and sends it a signal at a random moment of its run, or just after.
/// Gives back how often the old output stood, how often the new one, and how often a part was left.
fn signalled(name: &str, signals: &[i32]) -> [usize; 3] {
    let Scene {
        desk,
        mesh,
        choice,
        old,
        new,
    } = scene(name, 64);
    let run = || {
        let mut command = desk.command(&["refine", "mesh", "choice", "out"]);
        command
            .stdout(Stdio::null())
            .stderr(Stdio::null())
            .spawn()
            .unwrap()
    };
    let start = Instant::now();
    for _ in 0..10 {
        assert!(run().wait().unwrap().success());
    }
    let mut longest = start.elapsed().as_nanos() as u64 / 10 * 5 / 4;
    let mut random = Random(20_000_222);
    let mut seen = [0; 3];
    for _ in 0..300 {
        desk.write("out", &old);
        let mut child = run();
        thread::sleep(Duration::from_nanos(random.below(longest)));
        let signal = signals[random.below(signals.len() as u64) as usize];
        // SAFETY: kill takes two numbers; the child is waited for below, so its number is its own.
        unsafe { kill(child.id() as i32, signal) };
        let status = child.wait().unwrap();
        assert!(
            status.success() || status.signal() == Some(signal),
            "{status}"
        );
        let out = desk.read("out");
        assert!(out == old || out == new, "neither old nor new");
        assert!(out == new || !status.success(), "accepted, but not written");
        assert!(desk.read("mesh") == mesh && desk.read("choice") == choice);
        seen[usize::from(out == new)] += 1;
        // The machine may be busier now, or less: one run in four is to reach its end.
        longest = longest * if out == new { 97 } else { 101 } / 100;
        for part in parts(&desk) {
            assert!(part.starts_with(b".out.") && part.ends_with(b".part"));
            fs::remove_file(desk.folder.join(String::from_utf8(part).unwrap())).unwrap();
            seen[2] += 1;
        }
    }
    println!(
        "{name}: old {}, new {}, a part left {}",
        seen[0], seen[1], seen[2]
    );
    seen
}

#[test]
fn killed_at_any_moment() {
    let [old, new, _] = signalled("killed", &[KILL]);
    assert!(old > 0 && new > 0, "killed before and after");
}

/// Signals that ask it to end leave no part behind.
#[test]
fn told_to_end_at_any_moment() {
    let [old, new, parts] = signalled("ended", &[HANG_UP, INTERRUPT, END]);
    assert!(old > 0 && new > 0, "ended before and after");
    assert_eq!(parts, 0);
}

/// A file may not grow past one block: the write fails as on a full disk, whether or not the signal
/// that comes with it is heard.
fn past_the_size(name: &str) {
    let Scene {
        desk, mesh, old, ..
    } = scene(name, 64);
    for trap in ["", "trap '' XFSZ; "] {
        let script = format!("{trap}ulimit -f 1; exec \"$0\" refine mesh choice \"$1\"");
        for (name, before) in [("out", &old), ("mesh", &mesh)] {
            let mut shell = Command::new("sh");
            shell.args(["-c", &script]).arg(&desk.program).arg(name);
            let output = shell.current_dir(&desk.folder).output().unwrap();
            wrong(&output, &format!("{name}: File too large"));
            assert!(desk.read(name) == *before);
            assert_eq!(parts(&desk).len(), 0);
        }
    }
}

#[test]
fn a_file_past_the_size_that_is_allowed() {
    past_the_size("past-the-size");
}

/// What a shell does in a name space of its own: a file system of a few pages is filled until so many
/// are left, and the program runs. Three lines for each run: its status and its words, the files there,
/// and which output stands.
const FULL: &str = r#"
mount -t tmpfs -o size=96k tmpfs disk && cp mesh choice out disk/ && cd disk || exit 77
for pages in 0 1 2 7; do
    head -c "$((pages * 4096))" /dev/zero >room
    cat /dev/zero >rest 2>../log
    rm room
    words=$("$0" refine mesh choice out 2>&1)
    echo "$? $words"
    echo $(ls -A)
    cmp -s mesh ../mesh && cmp -s choice ../choice || echo changed
    cmp -s out ../out && echo old
    cmp -s out ../new && echo new
    rm rest
done
"#;

/// Where no name space can be had, a size that is not allowed stands in for a full disk.
#[test]
fn a_disk_that_is_full() {
    let Scene { desk, new, .. } = scene("full", 256);
    desk.write("new", &new);
    fs::create_dir(desk.folder.join("disk")).unwrap();
    let mut shell = Command::new("unshare");
    shell
        .args(["--map-root-user", "--mount", "sh", "-c", FULL])
        .arg(&desk.program);
    let output = shell.current_dir(&desk.folder).output();
    match output.map(|output| (output.status.success(), output)) {
        Ok((true, output)) => {
            let refused = "2 tmb: out: No space left on device\nchoice mesh out rest\nold\n";
            let accepted =
                "0 accepted: job 3 round 1 vertices 1024 records 256 leaves 256 deepest 0 \
                            sixfold 67108864\nchoice mesh out rest\nnew\n";
            let printed = String::from_utf8(output.stdout).unwrap();
            assert_eq!(printed, [&refused.repeat(3), accepted].concat());
        }
        failed => {
            println!("no file system of its own here: {failed:?}");
            past_the_size("full-by-size");
        }
    }
}
