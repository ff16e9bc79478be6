//! The C program of the tests is linked with the archive that the command's package links.

fn main() {
    let archive = std::env::var("DEP_STATION_ARCHIVE").expect("the command's package gives it");
    println!("cargo:rustc-env=STATION_ARCHIVE={archive}");
}
