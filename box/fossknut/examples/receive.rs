//! Receives the datagrams of a recording: `receive [FILE]`, standard input without a file.
//!
//! A line a section: its offset, the receiver's answer, and the length of the unit that it
//! delivers. It ends with 0 whatever the answers are, with 1 if the input or the output fails.

mod recording;

use std::process::ExitCode;

use fossknut::{Answer, Receiver, Settings};

fn main() -> ExitCode {
    let settings = Settings {
        address: [0x02, 0x00, 0x5E, 0x10, 0x20, 0x30],
        range: 6,
        limit: 16,
    };
    let mut receiver = Receiver::new(settings, [0; 65_535]);
    let printed = recording::print_lines("receive", |section| {
        let answer = receiver.receive(section);
        let length = match answer {
            Answer::Delivered(unit) => unit.len(),
            _ => 0,
        };
        format!("{} {length}", answer.number())
    });
    printed.err().unwrap_or(ExitCode::SUCCESS)
}
