//! Writes the sample recordings, what the check and the listing give for each, and the sample units:
//! `samples FOLDER`.

use std::fmt::Write;
use std::fs;
use std::path::PathBuf;

use second::generator::datagrams::{ipv4_of_length, udp_over_ipv4, udp_over_ipv6};
use second::generator::{
    in_checksum_form, sound, with_byte, with_damaged_bit, with_llc_snap, OURS,
};
use second::listing::{list, SETTINGS};
use second::random::Random;
use second::recording::{offers, LISTING_OF_01};
use second::sender::send;

fn main() -> std::io::Result<()> {
    let folder = PathBuf::from(std::env::args_os().nth(1).expect("a folder to write to"));
    fs::create_dir_all(&folder)?;
    let file = |name: &str, extension| folder.join(name).with_extension(extension);
    for (name, recording) in [
        ("three-sound-sections", three_sound_sections()),
        ("one-damaged-section", one_damaged_section()),
        ("each-number-once", each_number_once()),
        ("listing-of-the-papers", LISTING_OF_01.to_vec()),
        ("a-lost-section", a_lost_section()),
        ("both-forms", both_forms()),
        ("sent-by-default", sent_by_default()),
        ("stuffing", stuffing()),
    ] {
        fs::write(file(name, "bin"), &recording)?;
        fs::write(file(name, "check"), checks(&recording))?;
        list(&recording[..], fs::File::create(file(name, "list"))?)?;
    }
    fs::write(file("ipv4", "datagram"), ipv4())?;
    fs::write(file("ipv6", "datagram"), ipv6())
}

fn ipv4() -> Vec<u8> {
    udp_over_ipv4(b"Frost tonight: cover the beds.\n")
}

fn ipv6() -> Vec<u8> {
    udp_over_ipv6(b"No frost: leave the beds open.\n")
}

/// The shortest unit that there is without LLC/SNAP: an IPv4 header that nothing follows.
fn shortest() -> Vec<u8> {
    ipv4_of_length(&mut Random::new(0), 20).expect("a header has 20 bytes")
}

/// One run for our address, whose payloads are these.
fn run(payloads: &[&[u8]]) -> Vec<Vec<u8>> {
    let last = payloads.len() as u8 - 1;
    let sections = (0..=last).zip(payloads);
    sections
        .map(|(number, payload)| sound(OURS, number, last, payload))
        .collect()
}

/// A line an offer: offset and number.
fn checks(recording: &[u8]) -> String {
    let mut lines = String::new();
    for (offset, section) in offers(recording) {
        let number = second::check(section);
        writeln!(lines, "{offset} {number}").expect("a String takes any text");
    }
    lines
}

/// One run for our address, with payloads of 17, 0 and 3 bytes.
fn three_sound_sections() -> Vec<u8> {
    let unit = shortest();
    run(&[&unit[..17], &[], &unit[17..]]).concat()
}

/// The same, with one bit of the first payload received wrong.
fn one_damaged_section() -> Vec<u8> {
    with_damaged_bit(&three_sound_sections())
}

/// Sections on which the check answers 0, 13, 15, 24, 16, 17, 18, 19, 12 and 14, in this order: 14
/// where the recording stops inside a section.
fn each_number_once() -> Vec<u8> {
    let sound = sound(OURS, 0, 0, &shortest());
    [
        &sound[..],
        &with_byte(&sound, 0, 0x4C),
        &with_byte(&sound, 1, 0xF0),
        &with_byte(&sound, 1, 0x70),
        &with_damaged_bit(&sound),
        &with_byte(&sound, 5, 0xC0),
        &with_byte(&sound, 6, 1),
        &with_byte(&sound, 5, 0xC5),
        &[0x3E, 0xB0, 0x05, 0x30, 0x20, 0xC1, 0x00, 0x00],
        &sound[..19],
    ]
    .concat()
}

/// The first and the last of three sections, and a whole unit after them.
fn a_lost_section() -> Vec<u8> {
    let unit = udp_over_ipv4(b"Fossfrogknut");
    let sections = run(&[&unit[..32], &unit[32..36], &unit[36..]]);
    let alone = run(&[&udp_over_ipv4(b"knut")]);
    [&sections[0][..], &sections[2], &alone[0]].concat()
}

/// An uplink that has both forms of a section, with CRC_32 and with a checksum: a unit in two
/// sections; the same with its second section in the checksum form, then with CRC_32; another unit
/// in the checksum form, then with CRC_32. The two checksums are made up, since nobody looks at
/// them.
fn both_forms() -> Vec<u8> {
    let unit = udp_over_ipv4(b"Fossknut");
    let sections = run(&[&unit[..32], &unit[32..]]);
    let (first, second) = (&sections[0], &sections[1]);
    let alone = sound(OURS, 0, 0, &udp_over_ipv4(b"frog"));
    [
        &first[..],
        second,
        first,
        &in_checksum_form(second, [0; 4]),
        second,
        &in_checksum_form(&alone, [0x12, 0x34, 0x56, 0x78]),
        &alone,
    ]
    .concat()
}

/// A unit of 1,009 bytes, one more than a section carries where no piece size is given; 28 of them
/// are the headers of IP and UDP.
fn sent_by_default() -> Vec<u8> {
    let text: Vec<u8> = b"a night of curves "
        .iter()
        .copied()
        .cycle()
        .take(1_009 - 28)
        .collect();
    let mut sections = vec![0; 1_024 + 17];
    let answer = send(&SETTINGS, false, None, &udp_over_ipv4(&text), &mut sections);
    assert_eq!((answer.number, answer.length), (0, sections.len()));
    sections
}

/// The IPv4 sample with stuffing after it, in one section; the IPv6 sample in three, of which the
/// first has a part of the header, and the last nothing but stuffing. Then what has no end without
/// LLC/SNAP, each after the same with it: the IPv4 sample without its last byte, an empty unit.
fn stuffing() -> Vec<u8> {
    let (ipv4, ipv6) = (ipv4(), ipv6());
    let stuffing = [0xFF; 8];
    let short = sound(OURS, 0, 0, &ipv4[..ipv4.len() - 1]);
    let empty = sound(OURS, 0, 0, &[]);
    [
        sound(OURS, 0, 0, &[&ipv4[..], &stuffing].concat()),
        run(&[&ipv6[..17], &ipv6[17..], &stuffing]).concat(),
        with_llc_snap(&short),
        short,
        with_llc_snap(&empty),
        empty,
    ]
    .concat()
}
