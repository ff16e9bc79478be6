//! Links the archive of the proved services, `libstation.a`.

use std::env;
use std::path::{Path, PathBuf};

fn main() {
    println!("cargo:rerun-if-env-changed=STATION_DIR");
    let package = PathBuf::from(env::var_os("CARGO_MANIFEST_DIR").expect("cargo gives the folder"));
    let given = env::var_os("STATION_DIR").filter(|folder| !folder.is_empty());
    let folder = package.join(given.unwrap_or_else(|| Path::new("../target/staticlib").into()));
    let archive = folder.join("libstation.a");
    // Also where it is missing: it may be there the next time.
    println!("cargo:rerun-if-changed={}", archive.display());
    if !archive.is_file() {
        eprintln!(
            "{} is not there: run `./install` or `.ci/run`, which make it, or set STATION_DIR to the folder \
             that holds libstation.a",
            archive.display()
        );
        std::process::exit(1);
    }
    println!("cargo:rustc-link-search=native={}", folder.display());
    println!("cargo:rustc-link-lib=static=station");
    // A package that depends on this one finds the archive as DEP_STATION_ARCHIVE.
    println!("cargo:archive={}", archive.display());
}
