//! The program `tmb`. Exit status 0: accepted; 1: refused; 2: not carried out.

use std::ffi::OsString;
use std::io::Write;
use std::process::ExitCode;

fn main() -> ExitCode {
    let arguments: Vec<OsString> = std::env::args_os().skip(1).collect();
    match tmb::commands::run(&arguments) {
        Ok(()) => ExitCode::SUCCESS,
        Err(ending) => {
            // Standard error is the last resort: nothing is left to do if it fails too.
            let _ = writeln!(std::io::stderr(), "{ending}");
            ExitCode::from(ending.status())
        }
    }
}
