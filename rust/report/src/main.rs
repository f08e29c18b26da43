//! Reports the failures of a tape: `report TAPE [--json] [--against FILE]` and
//! the words of a profile.
//!
//! Its status is 0. It is 1 where a value read on hardware contradicts, or the
//! run stopped at an event that is refused; the report is whole then. It is 2
//! where a file is no tape or has a ragged line, and for every other mistake;
//! then nothing is written but one line on standard error.

use std::io::{self, Write};
use std::process::ExitCode;

use report::command::{command, failed, Told};

fn main() -> ExitCode {
    match report() {
        Ok(true) => ExitCode::SUCCESS,
        Ok(false) => ExitCode::FAILURE,
        Err(why) => {
            // Where that cannot be written either, the status is left.
            let _ = writeln!(io::stderr(), "naszeptan: report: {why}");
            ExitCode::from(2)
        }
    }
}

/// Whether all is well.
fn report() -> Result<bool, String> {
    let Told { report, well } = command(std::env::args_os().skip(1), &mut io::stdin())?;
    let mut stream = io::stdout().lock();
    let written = stream
        .write_all(report.as_bytes())
        .and_then(|()| stream.flush());
    written.map_err(|why| failed("standard output", &why))?;
    Ok(well)
}
