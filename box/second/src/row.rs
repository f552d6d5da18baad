//! Demand 3, told over a whole row of events at once: nothing is kept from one to the next.
//!
//! Strike out the sound sections for other addresses: they hand over nothing. At any other event a
//! datagram is handed over exactly when the struck row ends there in a whole run, and it is the
//! payloads joined, without LLC/SNAP as far as their IP header says (02, request 3). The sections of
//! a run share all six bytes of their address (02, request 5); other addresses are those that differ
//! where compared.

use crate::check;
use crate::datagram::unit_length;
use crate::receiver::{room, Settings};
use crate::section::Section;

/// What a receiver is given.
#[derive(Clone, Debug, PartialEq, Eq)]
pub enum Event {
    /// A section, of any length.
    Section(Vec<u8>),
    /// A gap notice.
    Gap,
}

/// What an event is to the row.
enum Kind<'a> {
    /// A sound section for another address.
    Struck,
    /// Sound, for us, and none of 20 and 21.
    Receivable(Section<'a>),
    /// A gap notice, or any other section.
    Break,
}

/// A whole run that ends at an event.
#[derive(Clone, Debug, PartialEq, Eq)]
pub struct Whole {
    /// The events of its sections, as places in the row.
    pub events: Vec<usize>,
    /// Their payloads joined, up to where the unit ends.
    pub unit: Vec<u8>,
}

/// For each event the whole run that ends there, by settings that are good and one buffer.
///
/// # Panics
///
/// If two whole runs end at one event, which the demand rules out.
pub fn whole_runs(
    settings: &Settings,
    buffer_length: usize,
    events: &[Event],
) -> Vec<Option<Whole>> {
    let kinds: Vec<Kind> = events.iter().map(|event| kind(settings, event)).collect();
    let room = room(buffer_length);
    (0..events.len())
        .map(|at| ending_at(&kinds, at, room))
        .collect()
}

fn kind<'a>(settings: &Settings, event: &'a Event) -> Kind<'a> {
    match event {
        Event::Section(bytes) if check(bytes) == 0 => {
            let section = Section(bytes);
            if !settings.are_addressed_by(section.mac_address()) {
                Kind::Struck
            } else if settings.bar(&section).is_none() {
                Kind::Receivable(section)
            } else {
                Kind::Break
            }
        }
        _ => Kind::Break,
    }
}

/// The one whole run among all the stretches of the struck row that end at this event.
fn ending_at(kinds: &[Kind], at: usize, room: usize) -> Option<Whole> {
    if matches!(kinds[at], Kind::Struck) {
        return None;
    }
    let mut found = None;
    let mut stretch: Vec<(usize, &Section)> = Vec::new();
    for (place, kind) in kinds[..=at].iter().enumerate().rev() {
        match kind {
            Kind::Struck => continue,
            Kind::Receivable(section) => stretch.insert(0, (place, section)),
            Kind::Break => break,
        }
        if let Some(whole) = whole(&stretch, room) {
            assert!(found.is_none(), "two whole runs end at event {at}");
            found = Some(whole);
        }
    }
    found
}

/// The stretch as a whole run: its numbers are 0 to L in order, its payloads fit, and their unit has
/// an end.
fn whole(stretch: &[(usize, &Section)], room: usize) -> Option<Whole> {
    if !is_numbered(stretch) {
        return None;
    }
    let payloads: Vec<&[u8]> = stretch
        .iter()
        .map(|(_, section)| section.payload())
        .collect();
    let joined = payloads.concat();
    if joined.len() > room {
        return None;
    }
    let llc_snap = stretch[0].1.llc_snap_flag() == 1;
    Some(Whole {
        events: stretch.iter().map(|&(place, _)| place).collect(),
        unit: joined[..unit_length(llc_snap, &joined)?].to_vec(),
    })
}

/// Numbers 0 to L in order, one full address, one L and one flag.
fn is_numbered(stretch: &[(usize, &Section)]) -> bool {
    let first = stretch[0].1;
    stretch.len() == usize::from(first.last_section_number()) + 1
        && stretch.iter().zip(0..).all(|((_, section), number)| {
            section.section_number() == number
                && section.mac_address() == first.mac_address()
                && section.last_section_number() == first.last_section_number()
                && section.llc_snap_flag() == first.llc_snap_flag()
        })
}

#[cfg(test)]
mod tests {
    use super::*;
    use crate::generator::datagrams::bare_ipv4;
    use crate::generator::rows::any_row;
    use crate::generator::{sound, OURS};
    use crate::listing::SETTINGS;
    use crate::random::Random;
    use crate::receiver::Receiver;
    use crate::telling::{rows, Row};

    /// The row by the receiver's steps, one after the other.
    fn by_steps(
        settings: &Settings,
        buffer_length: usize,
        events: &[Event],
    ) -> Vec<Option<Vec<u8>>> {
        let mut receiver = Receiver::new(*settings, vec![0; buffer_length]);
        let step = |event| match event {
            &Event::Gap => {
                receiver.gap();
                None
            }
            Event::Section(bytes) => {
                let answer = receiver.receive(bytes);
                (answer.number == 0).then(|| receiver.buffer[..answer.length].to_vec())
            }
        };
        events.iter().map(step).collect()
    }

    #[test]
    fn as_the_receiver_hands_over() {
        let mut random = Random::new(1);
        let (mut handed_over, mut joined) = (0, 0);
        for turn in 0..20_000 {
            let row = any_row(&mut random);
            let whole = whole_runs(&row.settings, row.buffer_length, &row.events);
            let steps = by_steps(&row.settings, row.buffer_length, &row.events);
            for (at, (whole, step)) in whole.iter().zip(&steps).enumerate() {
                let unit = whole.as_ref().map(|whole| &whole.unit);
                assert_eq!(unit, step.as_ref(), "event {at} of row {turn}: {row:?}");
                handed_over += usize::from(whole.is_some());
                joined += usize::from(matches!(whole, Some(whole) if whole.events.len() > 1));
            }
        }
        assert!(handed_over > 20_000, "{handed_over}");
        assert!(joined > 10_000, "{joined}");
    }

    #[test]
    fn as_the_answers_of_telling_rows_say() {
        let is_fresh = |row: &Row| row.state.is_none() && row.settings.are_good();
        for row in rows().into_iter().filter(is_fresh) {
            let whole = whole_runs(&row.settings, row.buffer_length, &row.events);
            let whole = row.events.iter().zip(whole);
            let handed_over = whole.filter_map(|(event, whole)| match event {
                Event::Section(_) => Some(whole.map(|run| run.unit.len())),
                Event::Gap => None,
            });
            let answers = row.answers.iter();
            let wanted = answers.map(|&(number, length)| (number == 0).then_some(length));
            assert!(handed_over.eq(wanted), "{}", row.source);
        }
    }

    #[test]
    fn the_run_of_most_sections() {
        let settings = Settings {
            limit: 255,
            ..SETTINGS
        };
        let unit = bare_ipv4(255);
        let sections = unit.iter().zip(0..);
        let events: Vec<Event> = sections
            .map(|(&byte, number)| Event::Section(sound(OURS, number, 254, &[byte])))
            .collect();
        let whole = whole_runs(&settings, 255, &events);
        assert!(whole[..254].iter().all(Option::is_none));
        assert_eq!(whole[254].as_ref().map(|run| &run.unit), Some(&unit));
        assert_eq!(whole_runs(&settings, 254, &events)[254], None);
    }

    #[test]
    fn no_section_serves_two_datagrams() {
        let mut random = Random::new(2);
        for _ in 0..2_000 {
            let row = any_row(&mut random);
            let whole = whole_runs(&row.settings, row.buffer_length, &row.events);
            let mut served: Vec<usize> = whole
                .into_iter()
                .flatten()
                .flat_map(|run| run.events)
                .collect();
            let sections = served.len();
            served.sort_unstable();
            served.dedup();
            assert_eq!(served.len(), sections, "{row:?}");
        }
    }
}
