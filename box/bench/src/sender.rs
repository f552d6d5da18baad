//! The sender beside the second program's, in MB/s of units (10^6 bytes a second).

use second::generator::datagrams::any_datagram;
use second::listing::SETTINGS;
use second::random::Random;
use second::receiver::Settings;

use crate::timing::{opaque, seconds, Calls};

type Send = fn(usize, &[u8], &mut [u8]) -> usize;

const PROGRAMS: [(&str, Send); 2] = [("fossknut", by_fossknut), ("second", by_second)];
const PIECE_SIZES: [usize; 2] = [4_080, 1_008];
const UNIT: usize = 65_280;
const OUTPUT: usize = UNIT + 16 * LIMIT;
const LIMIT: usize = 255;

fn by_fossknut(piece_size: usize, unit: &[u8], output: &mut [u8]) -> usize {
    let settings = fossknut::Settings {
        address: SETTINGS.address,
        range: SETTINGS.range,
        limit: LIMIT,
    };
    fossknut::send(&settings, false, Some(piece_size), unit, output).unwrap_or(0)
}

fn by_second(piece_size: usize, unit: &[u8], output: &mut [u8]) -> usize {
    let settings = Settings {
        limit: LIMIT,
        ..SETTINGS
    };
    second::sender::send(&settings, false, Some(piece_size), unit, output).length
}

pub fn agree() -> Result<(), String> {
    let unit = any_datagram(&mut Random::new(3), UNIT);
    for piece_size in PIECE_SIZES {
        let [ours, seconds] = PROGRAMS.map(|(_, send)| {
            let mut output = vec![0; OUTPUT];
            let length = send(piece_size, &unit, &mut output);
            output.truncate(length);
            output
        });
        if ours.is_empty() || ours != seconds {
            return Err(format!("sections of {piece_size} differ"));
        }
    }
    Ok(())
}

pub fn print_speeds() {
    println!("\nunits of {UNIT} bytes cut by the sender, MB/s");
    let [(ours, _), (second, _)] = PROGRAMS;
    println!("piece size{ours:>10}{second:>10}  {ours}/{second}");
    for piece_size in PIECE_SIZES {
        let [ours, second] = speeds(piece_size);
        let ratio = ours / second;
        println!("{piece_size:>10}{ours:>10.0}{second:>10.0}{ratio:>17.2}");
    }
}

fn speeds(piece_size: usize) -> [f64; PROGRAMS.len()] {
    let unit = &any_datagram(&mut Random::new(4), UNIT)[..];
    let programs = PROGRAMS.map(|(_, send)| -> Calls {
        let mut output = vec![0; OUTPUT];
        Box::new(move |calls| {
            for _ in 0..calls {
                opaque(opaque(send)(piece_size, opaque(unit), &mut output));
            }
        })
    });
    seconds(programs).map(|seconds| UNIT as f64 / seconds / 1e6)
}
