//! Refusals: numbers, places, and the sentences that are shown.

mod common;

use common::{TRIAL, call_free_vars, record};
use std::error::Error;
use tulgarent::{Answer, Refusal};

fn refusal(number: u64, place: u64) -> Refusal {
    Answer { number, place, ..Answer::default() }.refusal().expect("a number other than 0 refuses")
}

#[test]
fn acceptance_is_no_refusal() {
    assert_eq!(Answer { words: 17, replacements: 3, passes: 2, ..Answer::default() }.refusal(), None);
}

#[test]
fn a_number_and_a_place_come_back_as_they_went_in() {
    for number in (1..40).chain([u64::MAX]) {
        for place in [0, 1, 2, 77] {
            let refusal = refusal(number, place);
            assert_eq!((refusal.number(), refusal.place()), (number, place as usize), "{refusal:?}");
        }
    }
}

#[test]
fn every_number_of_the_library_has_a_variant() {
    for number in 1..=14 {
        let known = !matches!(refusal(number, 0), Refusal::Other { .. });
        assert_eq!(known, number != 13, "{number}");
    }
}

/// A place that the number does not have is kept, under the variant of an archive that is newer.
#[test]
fn variants_without_a_place_are_those_of_place_0() {
    for number in [2, 3, 4, 14] {
        assert!(!matches!(refusal(number, 0), Refusal::Other { .. }), "{number}");
        assert_eq!(refusal(number, 5), Refusal::Other { number, place: 5 });
    }
}

#[test]
fn the_text_ends_as_the_program_prints_it() {
    for number in 1..=20 {
        for place in [0, 2, 3] {
            let text = refusal(number, place).to_string();
            assert!(text.ends_with(&format!("(refused {number} {place})")), "{text}");
        }
    }
}

/// Place 2 of the signature has three causes, and the sentence is right for each.
#[test]
fn the_sentence_for_value_eq_fits_a_short_signature_too() {
    let good = record(TRIAL);
    let short = good[..2].to_vec();
    let no_head = [&good[..2], &[0x0100_0004], &good[3..]].concat();
    let no_primitive = [&good[..2], &[0x0100_0001], &good[3..]].concat();
    for signature in [short, no_head, no_primitive] {
        let refusal = call_free_vars(&signature, &[0x0400_0000], &mut []).expect_err("the signature is bad");
        assert_eq!(refusal, Refusal::Signature { place: 2 });
        let sentence = "word 2 of the signature is missing, or is not the number of a head that is primitive";
        assert_eq!(refusal.to_string(), format!("{sentence} (refused 1 2)"));
    }
}

/// At every other length a short signature lacks the word at its end.
#[test]
fn a_short_signature_lacks_a_word() {
    let good = record(TRIAL);
    for length in (0..good.len()).filter(|&length| length != 2) {
        let refusal = call_free_vars(&good[..length], &[0x0400_0000], &mut []).expect_err("the signature is short");
        assert_eq!(refusal, Refusal::Signature { place: length });
        let sentence = format!("word {length} of the signature is wrong, missing or surplus");
        assert_eq!(refusal.to_string(), format!("{sentence} (refused 1 {length})"));
    }
}

#[test]
fn refusals_are_errors() {
    let boxed: Box<dyn Error + Send + Sync> = Box::new(Refusal::Ragged);
    assert_eq!(boxed.to_string(), "a byte slice is not whole words of 4 bytes (refused 14 0)");
}
