//! The receiver's time for a section that is delivered: without LLC/SNAP, where the IP header says
//! where the unit ends, with LLC/SNAP, where nothing is asked, and by the second program.

use fossknut::Answer;
use second::generator::datagrams::any_datagram;
use second::generator::{sound, with_llc_snap, OURS};
use second::listing::SETTINGS;
use second::random::Random;
use second::section::{CRC_32, HEADER, SHORTEST};

use crate::timing::{opaque, seconds, Calls};

/// The shortest section of a unit without LLC/SNAP is the first.
const LENGTHS: [usize; 4] = [36, 188, 1_024, 4_096];

/// A section of that many bytes, whose payload is a datagram.
fn section(length: usize) -> Vec<u8> {
    let datagram = any_datagram(&mut Random::new(7), length - SHORTEST);
    sound(OURS, 0, 0, &datagram)
}

fn receiver() -> fossknut::Receiver<[u8; 4_096]> {
    let settings = fossknut::Settings {
        address: SETTINGS.address,
        range: SETTINGS.range,
        limit: SETTINGS.limit,
    };
    fossknut::Receiver::new(settings, [0; 4_096])
}

pub fn agree() -> Result<(), String> {
    for length in LENGTHS {
        let section = section(length);
        let unit = &section[HEADER..length - CRC_32];
        for given in [section.clone(), with_llc_snap(&section)] {
            let answer = second::receiver::Receiver::new(SETTINGS, vec![0; 4_096]).receive(&given);
            if receiver().receive(&given) != Answer::Delivered(unit)
                || (answer.number, answer.length) != (0, unit.len())
            {
                return Err(format!("a section of {length} bytes is not delivered"));
            }
        }
    }
    Ok(())
}

pub fn print_times() {
    println!("\na section received and delivered, ns");
    println!("bytes  without LLC/SNAP      with  without/with    second");
    for length in LENGTHS {
        let section = section(length);
        let flagged = with_llc_snap(&section);
        let programs = [
            by_fossknut(section.clone()),
            by_fossknut(flagged),
            by_second(section),
        ];
        let [without, with, second] = seconds(programs).map(|seconds| seconds * 1e9);
        let ratio = without / with;
        println!("{length:>5}{without:>18.1}{with:>10.1}{ratio:>14.2}{second:>10.1}");
    }
}

fn by_fossknut(section: Vec<u8>) -> Calls<'static> {
    let mut receiver = receiver();
    Box::new(move |calls| {
        for _ in 0..calls {
            opaque(receiver.receive(opaque(&section[..])).number());
        }
    })
}

fn by_second(section: Vec<u8>) -> Calls<'static> {
    let mut receiver = second::receiver::Receiver::new(SETTINGS, vec![0; 4_096]);
    Box::new(move |calls| {
        for _ in 0..calls {
            opaque(receiver.receive(opaque(&section[..])).number);
        }
    })
}
