//! The second program: what the proved programs do, from the papers alone.

#![forbid(unsafe_code)]

use std::io::{self, BufReader, Read, Write};
use std::os::unix::io::OwnedFd;
use std::os::unix::net::{UnixDatagram, UnixStream};
use std::process::{Child, Command, ExitCode, Stdio};
use std::time::Duration;
use std::{env, thread};

use second::generator::recordings::{named, uncut_length, NAMES};
use second::{archive, listing, vectors};

const USAGE: &str = "\
usage: second list                the listing of the recording on standard input
       second send                the sections of the unit on standard input
       second vectors             the vectors and samples
       second generate            the names of the recordings
       second generate NAME       that recording, or one of these units:
                                  bytes-N      N bytes
                                  datagram-N   an IPv4 datagram of N bytes
                                  datagram6-N  an IPv6 datagram of N bytes
       second dribble COMMAND..   the command, given standard input in reads of one byte each
       second unblocked COMMAND.. the command, whose input and output are set not to wait";

fn main() -> ExitCode {
    let words: Vec<String> = env::args().skip(1).collect();
    let words: Vec<&str> = words.iter().map(String::as_str).collect();
    let done = match words[..] {
        ["list"] => listing::list(io::stdin().lock(), io::stdout().lock()),
        ["send"] => archive::archive(io::stdin().lock(), io::stdout().lock(), io::stderr().lock()),
        ["vectors"] => io::stdout().write_all(vectors::lines().as_bytes()),
        ["generate"] => print_names(),
        ["generate", name] => match named(name) {
            Some(bytes) => io::stdout().write_all(&bytes),
            None => return fail(&format!("second: nothing has the name {name}")),
        },
        ["dribble", program, ref arguments @ ..] => dribble(program, arguments),
        ["unblocked", program, ref arguments @ ..] => unblocked(program, arguments),
        _ => return fail(USAGE),
    };
    match done {
        Ok(()) => ExitCode::SUCCESS,
        // Whoever reads the output has seen enough.
        Err(error) if error.kind() == io::ErrorKind::BrokenPipe => ExitCode::SUCCESS,
        Err(error) => fail(&format!("second: {error}")),
    }
}

fn fail(why: &str) -> ExitCode {
    eprintln!("{why}");
    ExitCode::FAILURE
}

fn print_names() -> io::Result<()> {
    let cuts = (0..=uncut_length()).map(|length| format!("cut-{length}"));
    let names: Vec<String> = NAMES.iter().map(ToString::to_string).chain(cuts).collect();
    writeln!(io::stdout(), "{}", names.join("\n"))
}

/// A read of a datagram socket gives one datagram, however many wait: here one byte, and none at
/// the end.
fn dribble(program: &str, arguments: &[&str]) -> io::Result<()> {
    let (ours, theirs) = UnixDatagram::pair()?;
    let mut child = Command::new(program)
        .args(arguments)
        .stdin(Stdio::from(OwnedFd::from(theirs)))
        .spawn()?;
    // Whether the command reads all of it is its own affair: only its end ends this program.
    thread::spawn(move || -> io::Result<()> {
        for byte in BufReader::new(io::stdin()).bytes() {
            ours.send(&[byte?])?;
        }
        loop {
            ours.send(&[])?;
        }
    });
    ended_well(&mut child)
}

/// Reads and writes of the command are told to come again, where a pipe would wait: its input comes
/// late and in pieces, and its output is full at first.
fn unblocked(program: &str, arguments: &[&str]) -> io::Result<()> {
    const LATE: Duration = Duration::from_millis(200);
    let (mut ours, theirs) = UnixStream::pair()?;
    let (mut from, mut to) = UnixStream::pair()?;
    theirs.set_nonblocking(true)?;
    to.set_nonblocking(true)?;
    let filled = fill(&mut to)?;
    let mut child = Command::new(program)
        .args(arguments)
        .stdin(Stdio::from(OwnedFd::from(theirs)))
        .stdout(Stdio::from(OwnedFd::from(to)))
        .spawn()?;
    thread::spawn(move || -> io::Result<()> {
        let mut input = Vec::new();
        io::stdin().read_to_end(&mut input)?;
        for piece in input.chunks(input.len() / 8 + 1) {
            thread::sleep(LATE / 8);
            ours.write_all(piece)?;
        }
        Ok(())
    });
    thread::sleep(LATE);
    io::copy(&mut (&mut from).take(filled), &mut io::sink())?;
    io::copy(&mut from, &mut io::stdout().lock())?;
    ended_well(&mut child)
}

/// Writes until nothing more is taken, and tells how much was.
fn fill(to: &mut UnixStream) -> io::Result<u64> {
    let mut filled = 0;
    loop {
        match to.write(&[0; 4096]) {
            Ok(length) => filled += length as u64,
            Err(error) if error.kind() == io::ErrorKind::WouldBlock => return Ok(filled),
            Err(error) => return Err(error),
        }
    }
}

fn ended_well(child: &mut Child) -> io::Result<()> {
    let status = child.wait()?;
    if status.success() {
        Ok(())
    } else {
        Err(io::Error::new(io::ErrorKind::Other, status.to_string()))
    }
}
