//! ./tmb and ./install in a repository of their own, with stand-ins for rt and cargo: what is made and when,
//! what is said meanwhile, and that nothing half made is run.

use std::ffi::{OsStr, OsString};
use std::fs;
use std::io::Write;
use std::os::unix::fs::{symlink, PermissionsExt};
use std::os::unix::process::CommandExt;
use std::path::{Path, PathBuf};
use std::process::{Command, Output, Stdio};
use std::thread;
use std::time::Duration;

const PROVED: &str = "\
making tmb: the services are being proved, once; this takes some minutes; crates left: 5
making tmb: laws is proved, crates left: 4
making tmb: stored is proved, crates left: 3
making tmb: list is proved, crates left: 2
making tmb: the library is being made
making tmb: station is proved, crates left: 1
making tmb: station_c is proved, crates left: 0
making tmb: the command is being compiled
";
const UNCHANGED: &str = "\
making tmb: the services were proved before; what has changed since is proved again
making tmb: the command is being compiled
";
const CALLS: &str = "list: rt run\nstation_c: rt lib\ncargo build\n";

fn package() -> &'static Path {
    Path::new(env!("CARGO_MANIFEST_DIR"))
}

/// A repository with the two scripts and hardly anything else.
struct Tree {
    root: PathBuf,
    path: OsString,
}

impl Tree {
    fn new(name: &str) -> Tree {
        // Outside the repository: rt ci refuses a second crates.txt there.
        let root = std::env::temp_dir().join(format!("making {name} {}", std::process::id()));
        let _ = fs::remove_dir_all(&root);
        for folder in ["docs", "command/src", "elsewhere"] {
            fs::create_dir_all(root.join(folder)).unwrap();
        }
        for name in ["laws", "stored", "unneeded", "list", "station", "station_c"] {
            fs::create_dir_all(root.join("crates").join(name).join("src")).unwrap();
        }
        let crates =
            "# the crates\nlaws:\nstored: laws\nunneeded: laws\nlist: io stored # listing\n\
                      station: stored\nstation_c staticlib: station stored\n";
        fs::write(root.join("crates.txt"), crates).unwrap();
        for name in [
            "command/src/main.rs",
            "command/build.rs",
            "command/Cargo.lock",
        ] {
            fs::write(root.join(name), "").unwrap();
        }
        // Copied by another program: what this one had open could not be run.
        let up = package().join("..");
        for name in [
            "tmb",
            "install",
            "docs/tmb.h",
            "docs/tmb.1",
            "command/Cargo.toml",
            "command/native-kit",
        ] {
            let mut copy = Command::new("cp");
            copy.arg(up.join(name)).arg(root.join(name));
            assert!(copy.status().unwrap().success());
        }
        let old = std::env::var_os("PATH").unwrap();
        let stand_ins = package().join("tests/stand-ins");
        let path = [stand_ins].into_iter().chain(std::env::split_paths(&old));
        let path = std::env::join_paths(path).unwrap();
        Tree { root, path }
    }

    /// A script called from a folder that is not the root.
    fn command(&self, script: impl AsRef<Path>) -> Command {
        let mut command = Command::new(self.root.join(script));
        command
            .current_dir(self.root.join("elsewhere"))
            .env("PATH", &self.path)
            .env_remove("CARGO_TARGET_DIR")
            .env_remove("DESTDIR")
            .stdin(Stdio::null())
            .stdout(Stdio::piped())
            .stderr(Stdio::piped());
        command
    }

    fn tmb(&self) -> Output {
        self.command("tmb")
            .args(["check", "a mesh"])
            .output()
            .unwrap()
    }

    fn install(&self, prefix: impl AsRef<OsStr>) -> Output {
        self.command("install").arg(prefix).output().unwrap()
    }

    /// What the stand-in for the command writes, called with `check` and `a mesh`.
    fn ran(&self) -> String {
        let here = self.root.join("elsewhere");
        format!("<{}><check><a mesh>", here.display())
    }

    /// What was called since this was last asked.
    fn calls(&self) -> String {
        let calls = self.root.join("calls");
        let text = fs::read_to_string(&calls).unwrap_or_default();
        let _ = fs::remove_file(calls);
        text
    }

    fn put(&self, name: &str) {
        fs::write(self.root.join(name), "").unwrap();
    }

    fn remove(&self, name: &str) {
        fs::remove_file(self.root.join(name)).unwrap();
    }
}

impl Drop for Tree {
    fn drop(&mut self) {
        let _ = fs::remove_dir_all(&self.root);
    }
}

#[track_caller]
fn wrote(output: &Output, status: i32, stdout: &str, stderr: &str) {
    assert_eq!(String::from_utf8_lossy(&output.stderr), stderr);
    assert_eq!(String::from_utf8_lossy(&output.stdout), stdout);
    assert_eq!(output.status.code(), Some(status));
}

#[test]
fn made_once() {
    let tree = Tree::new("once");
    tree.put("crates/stored/src/gone");
    wrote(&tree.tmb(), 0, &tree.ran(), PROVED);
    assert_eq!(tree.calls(), CALLS);
    wrote(&tree.tmb(), 0, &tree.ran(), "");
    assert_eq!(tree.calls(), "");
    // What the command is not made of makes nothing anew; what it is made of does.
    tree.put("docs/other");
    wrote(&tree.tmb(), 0, &tree.ran(), "");
    for source in ["docs/tmb.1", "install", "command/src/new.rs"] {
        let touched = Command::new("touch").arg(tree.root.join(source)).status();
        assert!(touched.unwrap().success());
        wrote(&tree.tmb(), 0, &tree.ran(), UNCHANGED);
        assert_eq!(tree.calls(), "cargo build\n");
        wrote(&tree.tmb(), 0, &tree.ran(), "");
    }
    // Also what is gone.
    tree.remove("command/src/new.rs");
    wrote(&tree.tmb(), 0, &tree.ran(), UNCHANGED);
    fs::remove_file(tree.root.join("target/tmb/bin/tmb-list")).unwrap();
    wrote(&tree.tmb(), 0, &tree.ran(), UNCHANGED);
    tree.calls();
    // A changed crate is proved again; what stands on it is made again, and nothing else.
    let again =
        |name: &str, left: u32| format!("making tmb: {name} is proved, crates left: {left}\n");
    let command = "making tmb: the command";
    tree.put("crates/list/src/new");
    let said = UNCHANGED.replace(command, &(again("list", 2) + command));
    wrote(&tree.tmb(), 0, &tree.ran(), &said);
    assert_eq!(tree.calls(), "list: rt run\ncargo build\n");
    let library = "making tmb: the library is being made\n".to_string();
    tree.put("crates/station/src/new");
    let both = again("station", 1) + &again("station_c", 0);
    let said = UNCHANGED.replace(command, &(library.clone() + &both + command));
    wrote(&tree.tmb(), 0, &tree.ran(), &said);
    assert_eq!(tree.calls(), "station_c: rt lib\ncargo build\n");
    tree.remove("crates/stored/src/gone");
    let both = again("stored", 3) + &again("list", 2) + &library + &both;
    let said = UNCHANGED.replace(command, &(both + command));
    wrote(&tree.tmb(), 0, &tree.ran(), &said);
    assert_eq!(tree.calls(), CALLS);
    // What rt keeps of its own in a crate's out/ is no change, nor is a crate that nothing here stands on.
    fs::create_dir(tree.root.join("crates/unneeded/out")).unwrap();
    tree.put("crates/list/out/kept");
    wrote(&tree.tmb(), 0, &tree.ran(), "");
    tree.put("crates/unneeded/src/new");
    wrote(&tree.tmb(), 0, &tree.ran(), UNCHANGED);
    assert_eq!(tree.calls(), "cargo build\n");
}

/// The command's standard input is not read by what makes it, and its words and folder are the caller's,
/// also through a symbolic link.
#[test]
fn called_from_anywhere() {
    let tree = Tree::new("anywhere");
    let link = tree.root.join("elsewhere/a link");
    symlink("../tmb", &link).unwrap();
    for said in [PROVED, ""] {
        let mut command = tree.command(&link);
        // Not this installation's affair.
        command.env("DESTDIR", "/nowhere");
        command
            .args(["", "-", "two words", "*"])
            .stdin(Stdio::piped());
        let mut child = command.spawn().unwrap();
        child.stdin.take().unwrap().write_all(b"input").unwrap();
        let here = tree.root.join("elsewhere");
        let ran = format!("<{}><><-><two words><*>input", here.display());
        wrote(&child.wait_with_output().unwrap(), 0, &ran, said);
    }
}

/// A file that is changed while the command is made is newer than the command.
#[test]
fn edited_meanwhile() {
    let tree = Tree::new("edited");
    tree.put("edited-meanwhile");
    wrote(&tree.tmb(), 0, &tree.ran(), PROVED);
    wrote(&tree.tmb(), 0, &tree.ran(), UNCHANGED);
    tree.remove("edited-meanwhile");
    wrote(&tree.tmb(), 0, &tree.ran(), UNCHANGED);
    wrote(&tree.tmb(), 0, &tree.ran(), "");
}

#[test]
fn several_at_once() {
    let tree = Tree::new("several");
    tree.put("slow");
    let run = || {
        tree.command("tmb")
            .args(["check", "a mesh"])
            .spawn()
            .unwrap()
    };
    let children = [run(), run(), run(), run()];
    let outputs = children.map(|child| child.wait_with_output().unwrap());
    let mut made = 0;
    for output in outputs {
        let said = String::from_utf8(output.stderr).unwrap();
        if said == PROVED {
            made += 1;
        } else {
            let waited = "making tmb: another run is making it: waiting\n";
            assert!(said == waited || said.is_empty(), "{said}");
        }
        assert_eq!(String::from_utf8(output.stdout).unwrap(), tree.ran());
        assert_eq!(output.status.code(), Some(0));
    }
    assert_eq!((made, tree.calls().as_str()), (1, CALLS));
    // Installations wait for each other too.
    let run = |prefix: &str| tree.command("install").arg(prefix).spawn().unwrap();
    for child in [run("one"), run("two")] {
        assert_eq!(child.wait_with_output().unwrap().status.code(), Some(0));
    }
    assert_eq!(tree.calls(), "cargo build\n".repeat(2));
}

/// Nothing is run, the end of the log and where it stands are said, and the next time it is tried again.
#[test]
fn the_making_fails() {
    let tree = Tree::new("fails");
    let log = |said: &str| {
        let log = tree.root.join("target/install.log");
        format!("making tmb: {said} (the whole log is {})\n", log.display())
    };
    let first = PROVED.lines().next().unwrap().to_string() + "\n";
    tree.put("rt-fails");
    let told = "rt: the library laws did not build, so nothing above it was checked\n";
    let said = first + told + &log("the services could not be proved");
    for _ in 0..2 {
        wrote(&tree.tmb(), 2, "", &said);
        assert_eq!(tree.calls(), "list: rt run\n");
    }
    tree.remove("rt-fails");
    tree.put("cargo-fails");
    let output = tree.tmb();
    let said = String::from_utf8_lossy(&output.stderr);
    let last =
        "error: it does not compile\n".to_string() + &log("the command could not be compiled");
    assert!(said.starts_with(PROVED) && said.ends_with(&last), "{said}");
    assert_eq!((output.status.code(), output.stdout.len()), (Some(2), 0));
    tree.remove("cargo-fails");
    wrote(&tree.tmb(), 0, &tree.ran(), UNCHANGED);
    // Once it is made, another failure does not let the old command run as the new one.
    tree.put("rt-fails");
    tree.put("crates.txt");
    assert_eq!(tree.tmb().status.code(), Some(2));
}

/// An installation that was broken off, whenever, is not taken for a whole one.
#[test]
fn half_made() {
    let tree = Tree::new("half");
    // The last file that is put there can't be.
    let program = tree.root.join("target/tmb/bin/tmb");
    fs::create_dir_all(program.join("in the way")).unwrap();
    let output = tree.tmb();
    let said = String::from_utf8_lossy(&output.stderr);
    assert!(
        said.ends_with(&format!("{} can't be written\n", program.display())),
        "{said}"
    );
    assert_eq!((output.status.code(), output.stdout.len()), (Some(2), 0));
    let bin = fs::read_dir(program.with_file_name("")).unwrap();
    let mut names: Vec<_> = bin.map(|entry| entry.unwrap().file_name()).collect();
    names.sort();
    assert_eq!(names, ["tmb", "tmb-list"], "no part is left");
    fs::remove_dir_all(&program).unwrap();
    wrote(&tree.tmb(), 0, &tree.ran(), UNCHANGED);
    wrote(&tree.tmb(), 0, &tree.ran(), "");
}

/// A run that is killed leaves no lock and nothing that is taken for whole.
#[test]
fn killed() {
    let tree = Tree::new("killed");
    tree.put("slow");
    let child = tree.command("tmb").process_group(0).spawn().unwrap();
    while !tree.root.join("calls").exists() {
        thread::sleep(Duration::from_millis(10));
    }
    let all = format!("-{}", child.id());
    let killed = Command::new("kill").args(["-9", "--", &all]).status();
    assert!(killed.unwrap().success());
    assert_eq!(child.wait_with_output().unwrap().stdout, b"");
    assert_eq!(tree.calls(), "list: rt run\n");
    tree.remove("slow");
    wrote(&tree.tmb(), 0, &tree.ran(), PROVED);
}

/// Words that nobody reads don't break it off.
#[test]
fn nobody_listens() {
    let tree = Tree::new("nobody");
    let mut reader = Command::new("true").stdin(Stdio::piped()).spawn().unwrap();
    let closed = reader.stdin.take().unwrap();
    reader.wait().unwrap();
    let mut command = tree.command("tmb");
    command.args(["check", "a mesh"]).stderr(closed);
    wrote(&command.output().unwrap(), 0, &tree.ran(), "");
    assert_eq!(tree.calls(), CALLS);
}

#[test]
fn a_tool_is_missing() {
    let mut tree = Tree::new("tools");
    let tools = tree.root.join("tools");
    fs::create_dir(&tools).unwrap();
    let all: Vec<PathBuf> = std::env::split_paths(&tree.path).collect();
    let add = |name: &str| {
        let found = all
            .iter()
            .map(|folder| folder.join(name))
            .find(|path| path.exists());
        symlink(found.unwrap(), tools.join(name)).unwrap();
    };
    for name in [
        "bash", "env", "uname", "dirname", "readlink", "find", "mkdir", "rm", "mv", "cat", "chmod",
    ] {
        add(name);
    }
    for name in ["awk", "sed", "tail", "tr", "cp", "touch"] {
        add(name);
    }
    tree.path = tools.clone().into();
    let missing = |tool: &str| format!("making tmb: {tool}, is not on the path\n");
    let flock = missing("flock, which lets one at a time make it");
    let rt = missing("rt, which proves the services");
    let cargo = missing("cargo, which compiles the command");
    wrote(&tree.tmb(), 2, "", &flock);
    wrote(&tree.install("x"), 2, "", &rt);
    add("flock");
    wrote(&tree.tmb(), 2, "", &rt);
    add("rt");
    wrote(&tree.tmb(), 2, "", &cargo);
    add("cargo");
    wrote(&tree.tmb(), 0, &tree.ran(), PROVED);
    // Once it is made, none of them is needed.
    for name in ["flock", "rt", "cargo"] {
        fs::remove_file(tools.join(name)).unwrap();
    }
    wrote(&tree.tmb(), 0, &tree.ran(), "");
}

#[test]
fn wrong_arguments() {
    let tree = Tree::new("arguments");
    let help = tree.install("--help");
    let usage = String::from_utf8(help.stdout.clone()).unwrap();
    wrote(&help, 0, &usage, "");
    assert!(usage.starts_with("usage: ./install PREFIX\n"));
    for arguments in [&[][..], &[""], &["one", "two"], &["-x"]] {
        let output = tree.command("install").args(arguments).output().unwrap();
        wrote(&output, 2, "", &usage);
    }
    for name in ["a\"", "a\\b", "$a", "a#", "`a`", "a\nb", "a "] {
        let said = "making tmb: PREFIX ends with a space or has a control character or one of \
                    \" \\ $ # `: tmb.pc could not name it\n";
        wrote(&tree.install(name), 2, "", said);
    }
    assert_eq!(tree.calls(), "");
}

/// DESTDIR is put before PREFIX, and tmb.pc has PREFIX alone; relative names are the caller's; whatever the
/// caller's file mode mask is, all may read.
#[test]
fn where_it_goes() {
    let tree = Tree::new("where");
    let elsewhere = tree.root.join("elsewhere");
    let names = [
        ("include/tmb.h", 0o644),
        ("lib/libstation.a", 0o644),
        ("lib/pkgconfig/tmb.pc", 0o644),
        ("share/man/man1/tmb.1", 0o644),
        ("bin/tmb-list", 0o755),
        ("bin/tmb", 0o755),
    ];
    let here = elsewhere.display().to_string();
    for (staged, prefix, to, named) in [
        (
            "",
            "one place//",
            "one place".to_string(),
            format!("{here}/one place"),
        ),
        (
            "staged",
            "/two",
            "staged/two".to_string(),
            "/two".to_string(),
        ),
        (
            "staged",
            "three",
            format!("staged{here}/three"),
            format!("{here}/three"),
        ),
        (
            "staged/four",
            "/",
            "staged/four".to_string(),
            "".to_string(),
        ),
    ] {
        let mut masked = Command::new("bash");
        masked.args(["-c", "umask 077; exec \"$0\" \"$@\""]);
        masked.arg(tree.root.join("install")).arg(prefix);
        masked.current_dir(&elsewhere).env("PATH", &tree.path);
        masked.env("DESTDIR", staged).env_remove("CARGO_TARGET_DIR");
        let output = masked.output().unwrap();
        let to = elsewhere.join(to);
        let printed: String = names
            .iter()
            .map(|(name, _)| format!("{}\n", to.join(name).display()))
            .collect();
        assert_eq!(String::from_utf8(output.stdout).unwrap(), printed);
        assert_eq!(output.status.code(), Some(0));
        for (name, mode) in names {
            let path = to.join(name);
            assert_eq!(
                fs::metadata(&path).unwrap().permissions().mode() & 0o777,
                mode
            );
            let folder = fs::metadata(path.parent().unwrap()).unwrap();
            assert_eq!(folder.permissions().mode() & 0o777, 0o755);
            let beside = fs::read_dir(path.parent().unwrap()).unwrap();
            assert!(beside.count() <= 2, "no part is left");
        }
        let package = fs::read_to_string(to.join("lib/pkgconfig/tmb.pc")).unwrap();
        assert_eq!(
            package.lines().next(),
            Some(format!("prefix={named}").as_str())
        );
        let version = concat!("Version: ", env!("CARGO_PKG_VERSION"));
        assert!(package.lines().any(|line| line == version));
    }
}
