//! CRC_32 of files: `crc_32 FILE..`.
//!
//! A line a file: eight hexadecimal digits, and the name.

use std::io::{self, Write};
use std::{env, fs};

fn main() -> io::Result<()> {
    for file in env::args_os().skip(1) {
        let crc_32 = fossknut::crc_32(&fs::read(&file)?);
        writeln!(io::stdout(), "{crc_32:08X} {}", file.to_string_lossy())?;
    }
    Ok(())
}
