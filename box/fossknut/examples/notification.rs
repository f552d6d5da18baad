//! Reads INT sections from standard input, a line each: a device's address and the section, in
//! hexadecimal digits.
//!
//! A line a section: the answer's number, and with 3 the location: network_id,
//! original_network_id, transport_stream_id, service_id and component_tag.

use std::io::{self, Write};

use fossknut::notification::{read, Location, Refusal};

fn main() -> io::Result<()> {
    for line in io::stdin().lines() {
        let line = line?;
        let (device, section) = parse(&line).ok_or(io::ErrorKind::InvalidData)?;
        let answer = match read(device, &section) {
            Ok(Some(location)) => format!("3 {}", text(location)),
            Ok(None) => "4".into(),
            Err(refusal) => Refusal::number(refusal).to_string(),
        };
        writeln!(io::stdout(), "{answer}")?;
    }
    Ok(())
}

fn parse(line: &str) -> Option<([u8; 6], Vec<u8>)> {
    let (device, section) = line.split_once(' ')?;
    Some((bytes(device)?.try_into().ok()?, bytes(section)?))
}

fn bytes(digits: &str) -> Option<Vec<u8>> {
    let places = (0..digits.len()).step_by(2);
    places
        .map(|place| u8::from_str_radix(digits.get(place..place + 2)?, 16).ok())
        .collect()
}

fn text(location: Location) -> String {
    format!(
        "{:04X} {:04X} {:04X} {:04X} {:02X}",
        location.network_id(),
        location.original_network_id(),
        location.transport_stream_id(),
        location.service_id(),
        location.component_tag()
    )
}
