//! The names and texts that the wrapper gives the numbers.

use fossknut::{notification, pes, Refusal};

/// The numbers that a type of refusals has, each of which has to lead back to it.
macro_rules! numbers {
    ($refusal:ty) => {{
        let of_number = |number| <$refusal>::from_number(number).map(<$refusal>::number);
        let numbers: Vec<u8> = (0..=0xFF).filter_map(of_number).collect();
        let all = <$refusal>::ALL.iter().map(|refusal| refusal.number());
        assert_eq!(all.collect::<Vec<_>>(), numbers);
        numbers
    }};
}

#[test]
fn each_number_of_the_papers_has_one_refusal() {
    let sections: Vec<u8> = (10..=25).chain(50..=54).collect();
    assert_eq!(numbers!(Refusal), sections);
    let notifications: Vec<u8> = (12..=18).chain(30..=33).collect();
    assert_eq!(numbers!(notification::Refusal), notifications);
    assert_eq!(numbers!(pes::Refusal), [40, 41, 42, 43]);
}

#[test]
fn the_text_is_the_number_and_the_meaning() {
    let error: Box<dyn std::error::Error> = Box::new(Refusal::Indicators);
    let text = "15: section_syntax_indicator and private_indicator equal";
    assert_eq!(error.to_string(), text);
    let text = "24: checksum form: section_syntax_indicator 0, private_indicator 1";
    assert_eq!(Refusal::ChecksumForm.to_string(), text);
    let text = "54: no LLC/SNAP, and the unit is not exactly one IP datagram";
    assert_eq!(Refusal::IpDatagram.to_string(), text);
}
