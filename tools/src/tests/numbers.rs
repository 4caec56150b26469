//! What is said of a number, of which host/numbers.txt has the list.

use crate::commands::{number_line, refusal};
use crate::numbers::Number;
use jidlekuvo_reference::Fault;

#[test]
fn numbers_are_told() {
    for number in 0..=255u8 {
        let (line, listed) = (number_line(&number.to_string()), Number::of(number));
        assert_eq!(line.is_ok(), listed.is_some(), "{number}");
        let Some(listed) = listed else { continue };
        let line = line.expect("it is listed");
        assert!(line.starts_with(&format!("{number} {}: {}", listed.who(), listed.sentence())), "{line}");
        assert_eq!(line.contains("its place"), !listed.place().is_empty(), "{line}");
    }
    assert!(number_line("late").is_err() && number_line("256").is_err());
}

#[test]
fn a_refusal_without_a_finding_has_the_sentence_of_its_number() {
    let fault = Fault { number: 12, place: 3 };
    let general = "refused 12 3\ntwo actions on one peripheral are not ordered\n";
    assert_eq!(refusal(fault, None), general);
    assert_eq!(refusal(fault, Some("why".into())), "refused 12 3\nwhy\n");
    assert_eq!(refusal(Fault { number: 9, place: 0 }, None), "refused 9 0\n");
}
