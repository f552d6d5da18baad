//! The speed of the proved library beside plain Rust, warm caches.

#[cfg(feature = "before")]
mod before;
mod crc_32;
mod machine;
mod notification;
mod receiver;
mod sender;
mod timing;

use std::process::ExitCode;

fn main() -> ExitCode {
    println!("{}", machine::MEASURED);
    // A wrong program may be as fast as it likes.
    if let Err(wrong) = all_agree() {
        eprintln!("bench: {wrong}");
        return ExitCode::FAILURE;
    }
    if machine::is_emulated() {
        eprintln!("bench: no speed is given: under emulation a time says nothing");
        return ExitCode::FAILURE;
    }
    crc_32::print_speeds();
    receiver::print_times();
    sender::print_speeds();
    notification::print_times();
    ExitCode::SUCCESS
}

/// All programs give what the second program gives.
fn all_agree() -> Result<(), String> {
    crc_32::agree()?;
    receiver::agree()?;
    sender::agree()?;
    notification::agree()
}

#[cfg(test)]
mod tests {
    #[test]
    fn all_agree() {
        assert_eq!(super::all_agree(), Ok(()));
    }
}
