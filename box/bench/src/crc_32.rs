//! CRC_32 beside tables in plain Rust, in GB/s (10^9 bytes a second).

use second::random::Random;
use second::tables;

use crate::timing::{opaque, seconds, Calls};

type Crc32 = fn(&[u8]) -> u32;

/// Called by pointer, all of them, so that the call costs each the same.
const PROGRAMS: [(&str, Crc32); 4] = [
    ("fossknut", fossknut::crc_32),
    ("bytewise", tables::bytewise),
    ("by-8", tables::slicing_by_8),
    ("by-16", tables::slicing_by_16),
];
const SIZES: [usize; 5] = [16, 64, 188, 1_024, 4_096];

pub fn agree() -> Result<(), String> {
    let bytes = Random::new(1).bytes(5_000);
    for length in (0..600).chain(SIZES) {
        let slice = &bytes[length % 16..][..length];
        for (name, crc_32) in PROGRAMS {
            if crc_32(slice) != second::crc_32(slice) {
                return Err(format!("{name} is wrong over {length} bytes"));
            }
        }
    }
    Ok(())
}

pub fn print_speeds() {
    println!("\nCRC_32, GB/s");
    print!("{:>5}", "bytes");
    for (name, _) in PROGRAMS {
        print!("{name:>10}");
    }
    for (name, _) in &PROGRAMS[1..] {
        print!("  fossknut/{name}");
    }
    println!();
    for size in SIZES {
        print_row(size, speeds(size));
    }
}

fn print_row(size: usize, speeds: [f64; PROGRAMS.len()]) {
    print!("{size:>5}");
    for speed in speeds {
        print!("{speed:>10.2}");
    }
    for ((name, _), speed) in PROGRAMS.iter().zip(speeds).skip(1) {
        let width = "  fossknut/".len() + name.len();
        print!("{:>width$.2}", speeds[0] / speed);
    }
    println!();
}

fn speeds(size: usize) -> [f64; PROGRAMS.len()] {
    let bytes = &Random::new(2).bytes(size)[..];
    let programs = PROGRAMS.map(|(_, crc_32)| -> Calls {
        Box::new(move |calls| {
            for _ in 0..calls {
                opaque(opaque(crc_32)(opaque(bytes)));
            }
        })
    });
    seconds(programs).map(|seconds| size as f64 / seconds / 1e9)
}
