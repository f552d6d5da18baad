//! Checks the sections of a recording: `check [FILE]`, standard input without a file.
//!
//! A line a section: its offset, and the number of the check that it does not pass, 0 if it is
//! sound. It ends with 0 if all are sound, with 1 if one is refused or the input or the output fails.

mod recording;

use std::process::ExitCode;

use fossknut::Refusal;

fn main() -> ExitCode {
    let mut refused = false;
    let printed = recording::print_lines("check", |section| {
        let number = fossknut::check(section).map_or_else(Refusal::number, |()| 0);
        refused |= number != 0;
        number.to_string()
    });
    match printed {
        Err(failed) => failed,
        Ok(()) if refused => ExitCode::FAILURE,
        Ok(()) => ExitCode::SUCCESS,
    }
}
