//! Files: read whole, but never without end; written whole or not at all. `-` is standard input or
//! output.

use crate::refusals::{words, wrong, Ending};
use std::ffi::{OsStr, OsString};
use std::fs::{self, File, OpenOptions, Permissions};
use std::io::{self, ErrorKind, Read, Write};
use std::os::fd::AsFd;
use std::os::unix::ffi::{OsStrExt, OsStringExt};
use std::path::{Path, PathBuf};

pub fn is_standard(name: &OsStr) -> bool {
    name == "-"
}

/// A name in a message: what is no text, and what would break the line, is replaced.
pub fn shown(name: &OsStr) -> String {
    let text = name.to_string_lossy();
    text.replace(char::is_control, "\u{FFFD}")
}

/// The name of an input in a message.
pub fn shown_input(name: &OsStr) -> String {
    if is_standard(name) {
        "standard input".to_string()
    } else {
        shown(name)
    }
}

/// A whole file; of a longer one the first `most` bytes and one more.
pub fn read(name: &OsStr, most: usize) -> Result<Vec<u8>, Ending> {
    let mut bytes = Vec::new();
    open(name)
        .and_then(|file| file.take(most as u64 + 1).read_to_end(&mut bytes))
        .map_err(|error| wrong(&shown_input(name), &error))?;
    Ok(bytes)
}

/// std's own handle of standard input takes one that can't be read for an empty one.
fn open(name: &OsStr) -> io::Result<File> {
    if is_standard(name) {
        Ok(File::from(io::stdin().as_fd().try_clone_to_owned()?))
    } else {
        File::open(name)
    }
}

/// Writes to standard output. std's own handle takes one that can't be written for a good one.
pub fn print(bytes: &[u8]) -> io::Result<()> {
    File::from(io::stdout().as_fd().try_clone_to_owned()?).write_all(bytes)
}

/// Writes an output whole or not at all; whether a regular file has it now.
pub fn write(name: &OsStr, bytes: &[u8]) -> Result<bool, Ending> {
    if is_standard(name) {
        let printed = print(bytes).map_err(|error| wrong("standard output", &error));
        return printed.map(|()| false);
    }
    write_file(Path::new(name), bytes).map_err(|error| wrong(&shown(name), &error))
}

/// The output is opened as it stands, so that one that may not be written is not replaced either;
/// what is no regular file takes the bytes directly.
fn write_file(path: &Path, bytes: &[u8]) -> io::Result<bool> {
    let permissions = match OpenOptions::new().write(true).open(path) {
        Ok(mut file) => {
            let old = file.metadata()?;
            if !old.is_file() {
                return file.write_all(bytes).map(|()| false);
            }
            Some(old.permissions())
        }
        Err(error) if error.kind() == ErrorKind::NotFound && path.file_name().is_some() => None,
        Err(error) => return Err(error),
    };
    replace(&target(path), bytes, permissions).map(|()| true)
}

/// Where symbolic links lead, also to a file that is not there yet.
fn target(path: &Path) -> PathBuf {
    let mut path = path.to_path_buf();
    // The path was opened just now, so there is no circle; the bound is the system's own.
    for _ in 0..40 {
        match fs::read_link(&path) {
            Ok(link) => path = path.with_file_name(link),
            Err(_) => break,
        }
    }
    path
}

/// Writes a new file beside the wanted one, then puts it in its place.
fn replace(path: &Path, bytes: &[u8], permissions: Option<Permissions>) -> io::Result<()> {
    let folder = match path.parent() {
        Some(folder) if !folder.as_os_str().is_empty() => File::open(folder)?,
        _ => File::open(".")?,
    };
    let _deaf = Deaf::new();
    let (part, file) = create_part(path)?;
    if let Err(error) = fill(&file, bytes, permissions).and_then(|()| fs::rename(&part, path)) {
        // What is half written must not stay.
        let _ = fs::remove_file(&part);
        return Err(error);
    }
    folder.sync_all().map_err(|error| {
        io::Error::other(format!(
            "written, but its folder can't be synced: {}",
            words(&error)
        ))
    })
}

/// Creates `.NAME.PID.part` beside the file; if that is left over from a run that was killed, the
/// next one that is free. A long name is shortened, so that there is room for the rest.
fn create_part(path: &Path) -> io::Result<(PathBuf, File)> {
    let name = path.file_name().unwrap_or_default().as_bytes();
    let process = std::process::id();
    let mut again = 0u32;
    loop {
        let mut part = [b".", &name[..name.len().min(200)]].concat();
        match again {
            0 => part.extend(format!(".{process}.part").bytes()),
            _ => part.extend(format!(".{process}.{again}.part").bytes()),
        }
        let part = path.with_file_name(OsString::from_vec(part));
        match File::create_new(&part) {
            Ok(file) => return Ok((part, file)),
            Err(error) if error.kind() == ErrorKind::AlreadyExists => again += 1,
            Err(error) => return Err(error),
        }
    }
}

/// Writes the bytes down to the disk, with the permission bits of the file that is replaced.
fn fill(mut file: &File, bytes: &[u8], permissions: Option<Permissions>) -> io::Result<()> {
    let now = file.metadata()?.permissions();
    // Some file systems know one set of bits alone and let nobody ask for it.
    if let Some(permissions) = permissions.filter(|old| *old != now) {
        file.set_permissions(permissions)?;
    }
    file.write_all(bytes)?;
    file.sync_all()
}

/// While it lives, signals that would end the run are not heard, so that no part is left: hanging up
/// (1), interrupt (2), end (15), and a file past the size that is allowed (25), whose write then fails.
struct Deaf([(i32, usize); 4]);

extern "C" {
    fn signal(number: i32, action: usize) -> usize;
}

impl Deaf {
    fn new() -> Deaf {
        const IGNORED: usize = 1;
        // SAFETY: signal takes a number and an action; 1 is the action that ignores.
        Deaf([1, 2, 15, 25].map(|number| (number, unsafe { signal(number, IGNORED) })))
    }
}

impl Drop for Deaf {
    fn drop(&mut self) {
        for (number, action) in self.0 {
            // SAFETY: the action is the one that signal gave back for this number.
            unsafe { signal(number, action) };
        }
    }
}
