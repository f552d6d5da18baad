//! The INT reader's time against the section's length: by the byte it has to stay the same.

use fossknut::notification::Location;
use second::generator::notifications::{descriptor, filler, with_loops};
use second::generator::OURS;
use second::random::Random;

use crate::timing::{opaque, seconds, Calls};

/// What stands before the pair that is found, so that reader and search go through all of it. The
/// ranges all miss; what decides is the first byte, or the last one of both ends, which is the most
/// that can be compared, or any.
const KINDS: [(&str, Fill); 6] = [
    ("long descriptors", long_descriptors),
    ("empty descriptors", empty_descriptors),
    ("empty pairs", empty_pairs),
    ("ranges, first byte", |room| ranges(room, |_| (0, UP))),
    ("ranges, last byte", |room| ranges(room, |_| (5, DOWN))),
    ("ranges, any byte", |room| {
        ranges(room, |random| (random.below(6), random.pick(&[UP, DOWN])))
    }),
];
const LENGTHS: [usize; 6] = [128, 256, 512, 1_024, 2_048, 4_096];

type Fill = fn(usize) -> Vec<Vec<u8>>;

fn long_descriptors(room: usize) -> Vec<Vec<u8>> {
    let target = filler(&mut Random::new(5), room - 4);
    vec![vec![], target, vec![]]
}

fn empty_descriptors(room: usize) -> Vec<Vec<u8>> {
    let target = descriptor(0x80, &[]).repeat((room - 4) / 2);
    vec![vec![], target, vec![]]
}

fn empty_pairs(room: usize) -> Vec<Vec<u8>> {
    vec![vec![]; 1 + room / 4 * 2]
}

/// One more, and one less.
const UP: u8 = 1;
const DOWN: u8 = 0xFF;

/// Ranges of one address each, which differs from the device's in one byte: which, and by what it is
/// changed, `differ` gives. Their pair has a location, since nobody is looked for in one that has
/// none.
fn ranges(room: usize, differ: fn(&mut Random) -> (usize, u8)) -> Vec<Vec<u8>> {
    const MOST: usize = 255 / 12;
    let mut random = Random::new(6);
    let location = descriptor(0x13, b"elsewhere");
    let (mut target, mut left) = (Vec::new(), room - 4 - location.len());
    while left >= 14 {
        let mut entries = Vec::new();
        for _ in 0..MOST.min((left - 2) / 12) {
            let (byte, change) = differ(&mut random);
            let mut address = OURS;
            address[byte] = address[byte].wrapping_add(change);
            entries.extend([address, address].concat());
        }
        left -= 2 + entries.len();
        target.extend(descriptor(0x0E, &entries));
    }
    target.extend(filler(&mut random, left));
    vec![vec![], target, location]
}

/// A section of about `length` bytes, of whose pairs the last is found.
fn section(fill: Fill, length: usize) -> Vec<u8> {
    let last = [vec![], descriptor(0x13, b"location!")];
    let room = length - with_loops(&[&[vec![]][..], &last].concat()).len();
    with_loops(&[fill(room), last.to_vec()].concat())
}

pub fn agree() -> Result<(), String> {
    for (name, fill) in KINDS {
        for length in LENGTHS {
            let section = section(fill, length);
            let offset = second::notification::read(OURS, &section).offset;
            let found = fossknut::notification::read(OURS, &section);
            if section.get(offset..offset + 9) != Some(b"location!")
                || found.ok().flatten().map(Location::bytes) != section.get(offset..offset + 9)
            {
                return Err(format!(
                    "an INT section of {length} bytes, {name}, is read wrong"
                ));
            }
            #[cfg(feature = "before")]
            if crate::before::notification(OURS, &section) != (3, offset) {
                return Err(format!(
                    "an INT section of {length} bytes, {name}, was read otherwise before"
                ));
            }
        }
    }
    Ok(())
}

pub fn print_times() {
    println!("\nan INT section read by fossknut, ns, and ns per byte");
    print!("{:>5}", "bytes");
    for (name, _) in KINDS {
        print!("{name:>20}");
    }
    println!();
    for length in LENGTHS {
        print!("{length:>5}");
        for nanoseconds in times(length) {
            print!("{nanoseconds:>12.0}{:>8.2}", nanoseconds / length as f64);
        }
        println!();
    }
    #[cfg(feature = "before")]
    print_beside_before();
}

fn times(length: usize) -> [f64; KINDS.len()] {
    let programs = KINDS.map(|(_, fill)| now(section(fill, length)));
    seconds(programs).map(|seconds| seconds * 1e9)
}

fn now(section: Vec<u8>) -> Calls<'static> {
    Box::new(move |calls| {
        for _ in 0..calls {
            let found = fossknut::notification::read(OURS, opaque(&section[..]));
            opaque(found.is_ok());
        }
    })
}

/// The longest sections, by this reader and by the earlier one, which take turns.
#[cfg(feature = "before")]
fn print_beside_before() {
    let longest = LENGTHS[LENGTHS.len() - 1];
    println!("\nan INT section of {longest} bytes, ns");
    println!("{:>20}{:>12}{:>12}  now/before", "", "before", "now");
    for (name, fill) in KINDS {
        let section = section(fill, longest);
        let before: Calls = {
            let section = section.clone();
            Box::new(move |calls| {
                for _ in 0..calls {
                    opaque(crate::before::notification(OURS, opaque(&section[..])));
                }
            })
        };
        let [before, now] = seconds([before, now(section)]).map(|seconds| seconds * 1e9);
        let ratio = now / before;
        println!("{name:>20}{before:>12.0}{now:>12.0}{ratio:>12.2}");
    }
}
