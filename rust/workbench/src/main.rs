//! `./naszeptan VERB ..`: the status is 0 where all went well, 1 for what a tape
//! did, and 2 for a mistake of use or a read or a write that failed.

use std::ffi::OsString;
use std::io::{self, Write};
use std::process::ExitCode;

fn main() -> ExitCode {
    let words: Vec<OsString> = std::env::args_os().skip(1).collect();
    match workbench::verbs::call(&words) {
        Ok(status) => ExitCode::from(status),
        Err(failed) => {
            // Where that cannot be written either, the status is left.
            let _ = writeln!(io::stderr(), "naszeptan: {}", failed.why);
            ExitCode::from(failed.status)
        }
    }
}
