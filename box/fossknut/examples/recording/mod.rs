//! What the examples share: a recording that is read, and cut into sections.

use std::env;
use std::ffi::OsString;
use std::fs::File;
use std::io::{self, BufWriter, ErrorKind, Read, Write};
use std::os::unix::io::{AsFd, OwnedFd};
use std::process::ExitCode;
use std::thread::sleep;
use std::time::Duration;

/// Reads the file that the command names, standard input without one, and prints a line for each of
/// its sections: the offset, and what `line` says of the section.
///
/// What fails is said in one line on the error output: then the program `name` ends with 1, and with
/// 2 where it is not called as it must be.
pub fn print_lines(name: &str, line: impl FnMut(&[u8]) -> String) -> Result<(), ExitCode> {
    let failed = |what: &str, error: io::Error| {
        say(&format!("fossknut: {name}: {what}: {}", reason(&error)));
        ExitCode::FAILURE
    };
    let mut words = env::args_os().skip(1);
    let file = words.next();
    if words.next().is_some() {
        say(&format!("usage: {name} [FILE]"));
        return Err(ExitCode::from(2));
    }
    let shown = file
        .as_ref()
        .map_or("the input".into(), |file| file.to_string_lossy());
    let recording = read(&file).map_err(|error| failed(&shown, error))?;
    print(&recording, line).map_err(|error| failed("the output cannot be written", error))
}

fn read(file: &Option<OsString>) -> io::Result<Vec<u8>> {
    let mut recording = Vec::new();
    let input = match file {
        Some(file) => File::open(file)?,
        None => own(io::stdin())?,
    };
    Patient(input).read_to_end(&mut recording)?;
    Ok(recording)
}

fn print(recording: &[u8], mut line: impl FnMut(&[u8]) -> String) -> io::Result<()> {
    let mut lines = BufWriter::new(Patient(own(io::stdout())?));
    let mut offset = 0;
    while offset < recording.len() {
        let section = first_section(&recording[offset..]);
        writeln!(lines, "{offset} {}", line(section))?;
        offset += section.len();
    }
    lines.flush()
}

/// The bytes that stand for the next section, whatever its table_id (01, "Listing"): 3 +
/// section_length of them, or what is left if that is less.
fn first_section(rest: &[u8]) -> &[u8] {
    if rest.len() < 3 {
        return rest;
    }
    let section_length = u16::from_be_bytes([rest[1], rest[2]]) & 0x0FFF;
    &rest[..rest.len().min(3 + usize::from(section_length))]
}

/// Standard input or output as a file: `Stdin` and `Stdout` take one that cannot be used for one
/// that is empty, and say nothing.
fn own(stream: impl AsFd) -> io::Result<File> {
    let descriptor: OwnedFd = stream.as_fd().try_clone_to_owned()?;
    Ok(File::from(descriptor))
}

/// A file that waits where the other side is slow, though whoever opened it has set it not to block.
struct Patient(File);

impl Read for Patient {
    fn read(&mut self, bytes: &mut [u8]) -> io::Result<usize> {
        wait_for(|| self.0.read(bytes))
    }
}

impl Write for Patient {
    fn write(&mut self, bytes: &[u8]) -> io::Result<usize> {
        wait_for(|| self.0.write(bytes))
    }

    fn flush(&mut self) -> io::Result<()> {
        self.0.flush()
    }
}

fn wait_for(mut attempt: impl FnMut() -> io::Result<usize>) -> io::Result<usize> {
    loop {
        match attempt() {
            Err(error) if error.kind() == ErrorKind::WouldBlock => sleep(Duration::from_millis(5)),
            done => return done,
        }
    }
}

/// What the system says of an error, without its number.
fn reason(error: &io::Error) -> String {
    let text = error.to_string();
    match text.find(" (os error ") {
        Some(end) => text[..end].into(),
        None => text,
    }
}

/// Where the error output fails too, the exit status is all that can be said.
fn say(line: &str) {
    let _ = writeln!(io::stderr(), "{line}");
}
