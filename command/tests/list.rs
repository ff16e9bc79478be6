//! The listing, whatever stands beside `tmb`.

mod common;
use common::*;
use std::os::unix::fs::symlink;

/// `tmb` alone in a folder lists, and another `tmb-list` beside it is not asked.
#[test]
fn tmb_needs_no_second_program() {
    let mut desk = Desk::new("list-alone");
    desk.link_program();
    gives(
        &desk.run_with_input(&["list", "-"], &k1()),
        &second::list(&k1()),
    );
    symlink("/bin/false", desk.program.with_file_name("tmb-list")).unwrap();
    gives(
        &desk.run_with_input(&["list", "-"], &k1()),
        &second::list(&k1()),
    );
}

/// Many lines: one for each of 256 leaves, and the heading.
#[test]
fn a_long_listing() {
    let desk = Desk::new("list-long");
    let mesh = separate(256);
    let lines = second::list(&mesh);
    assert_eq!(lines.split_inclusive(|&byte| byte == b'\n').count(), 257);
    gives(&desk.run_with_input(&["list", "-"], &mesh), &lines);
}
