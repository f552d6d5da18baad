//! INT sections for other readers: `notifications questions` writes lines of a device's address and
//! a section, in hexadecimal digits; `notifications fields` what the second program reads in each:
//! its fields, `-` where it is not answered by 3 or 4.

use std::fmt::Write as _;
use std::io::{self, Write};

use second::generator::notifications::{
    any_notification, bytes_changed, faulty, with_loops, CHECKS,
};
use second::generator::{seal, subsets, OURS};
use second::notification::fields;
use second::random::Random;
use second::telling;

fn main() -> io::Result<()> {
    let line = match std::env::args().nth(1).as_deref() {
        Some("questions") => question,
        Some("fields") => |_, section: &[u8]| fields(section).unwrap_or_else(|| "-".to_string()),
        _ => return Err(io::ErrorKind::InvalidInput.into()),
    };
    let mut out = io::stdout().lock();
    for (device, section) in notifications() {
        writeln!(out, "{}", line(device, &section))?;
    }
    Ok(())
}

fn question(device: [u8; 6], section: &[u8]) -> String {
    format!("{} {}", digits(&device), digits(section))
}

fn digits(bytes: &[u8]) -> String {
    bytes.iter().fold(String::new(), |mut digits, byte| {
        write!(digits, "{byte:02X}").expect("a String takes any text");
        digits
    })
}

/// Those that tell readings apart, every set of faults, sound ones, and some with bytes changed.
fn notifications() -> Vec<([u8; 6], Vec<u8>)> {
    let mut random = Random::new(7);
    let telling = telling::notifications().into_iter();
    let mut notifications: Vec<_> = telling.map(|told| (told.device, told.section)).collect();
    notifications.push((OURS, crc_32_like_a_loop()));
    notifications.extend(subsets(&CHECKS).map(|faults| faulty(&mut random, &faults)));
    for _ in 0..1_000 {
        notifications.push(any_header(&mut random));
        notifications.push(bytes_changed(&mut random));
    }
    notifications
}

/// A target loop without its operational loop, and a CRC_32 that begins as an empty loop does.
fn crc_32_like_a_loop() -> Vec<u8> {
    let mut halves = (0..=u16::MAX).map(|platform| {
        let mut section = with_loops(&[Vec::new(), Vec::new()]);
        section[8..10].copy_from_slice(&platform.to_be_bytes());
        hash_and_seal(&mut section);
        section
    });
    let is_it = |section: &Vec<u8>| {
        let crc_32 = section.len() - 4;
        section[crc_32] & 0x0F == 0 && section[crc_32 + 1] == 0
    };
    halves.find(is_it).expect("one of 4,096 does")
}

/// A sound section with any version, numbers, platform_id and processing_order.
fn any_header(random: &mut Random) -> ([u8; 6], Vec<u8>) {
    let (device, mut section) = any_notification(random);
    section[5] = random.byte() | 1;
    section[7] = random.byte();
    section[6] = random.between(0, section[7].into()) as u8;
    section[8..12].copy_from_slice(&random.bytes(4));
    hash_and_seal(&mut section);
    (device, section)
}

fn hash_and_seal(section: &mut [u8]) {
    section[4] = section[8] ^ section[9] ^ section[10];
    seal(section);
}
