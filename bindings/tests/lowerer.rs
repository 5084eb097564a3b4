//! The owner of all memory: counters over several rules, and refusals that change nothing.
#![cfg(feature = "alloc")]

mod common;

use common::{P1, P1_LOWERED, TRIAL, bytes, record};
use tulgarent::{Lowerer, Refusal, SignatureParts, Sort, WRITTEN_WORDS, Word, room_to_lower};

fn trial() -> Lowerer {
    Lowerer::new(&record(TRIAL)).expect("the trial's signature is good")
}

#[test]
fn counters_go_on_from_rule_to_rule() {
    let mut lowerer = trial();
    assert_eq!(lowerer.counters(), [0; 4]);
    let lowered = lowerer.lower(&record(P1)).expect("P1 is accepted");
    assert_eq!(Word::slice_bits(lowered.words), record(P1_LOWERED));
    assert_eq!((lowered.replacements, lowered.passes), (3, 2));
    assert_eq!(lowerer.counters(), [0, 2, 0, 1]);
    // The fresh variables of the second time are others: each count of head 1 is two more.
    let again = lowerer.lower(&record(P1)).expect("P1 is accepted again").to_string();
    assert_eq!(again, "rule/1/4 f1/2 x1 @1.3 let @1.2 @1.3 let x3 @1.3 let x2 @1.2 set f3/1 x1 x3");
    assert_eq!(lowerer.counters(), [0, 4, 0, 2]);
    // A delete of head 3 takes a count that no variable shows.
    let delete = record("04001001 10010000 02000003 10030000");
    assert_eq!(lowerer.lower(&delete).map(|lowered| lowered.to_string()), Ok("rule/1/1 f1/1 @1.4 delete f3/0".into()));
    assert_eq!(lowerer.counters(), [0, 5, 0, 3]);
}

/// Each cause of a refusal that a rule can have, in between accepted rules.
#[test]
fn a_refusal_changes_nothing() {
    let nested = format!("04001000 {} 40000001", "10010001 ".repeat(32));
    let refused = [
        ("", Refusal::Length),
        ("04001000 00000000", Refusal::Unfit { place: 1 }),
        (nested.as_str(), Refusal::TooDeep { place: 33 }),
        ("04001001 10010000 02000008 40000001", Refusal::Unbound { place: 3 }),
        ("04001001 10010001 40000001 02000001 40000001 10010000", Refusal::AlreadyDefined { place: 3 }),
        ("04001001 10010000 02000003 10020000", Refusal::CounterAtEnd { place: 3 }),
    ];
    let mut lowerer = Lowerer::with_counters(&record(TRIAL), &[7, 8, 65_536, 9]).expect("four counters suffice");
    for (count, (rule, refusal)) in refused.into_iter().enumerate() {
        let before = lowerer.counters().to_vec();
        assert_eq!(lowerer.lower(&record(rule)), Err(refusal));
        assert_eq!(lowerer.counters(), before, "{rule}");
        // The next rule takes the count that the refused one did not use up.
        let next = lowerer.lower(&record("04001000 10010000")).expect("a call is accepted").to_string();
        assert_eq!(next, format!("rule/1/0 f1/1 @1.{}", 8 + count));
    }
}

#[test]
fn settling_and_free_variables_leave_the_counters() {
    let mut lowerer = Lowerer::with_counters(&record(TRIAL), &[1, 2, 3, 4]).expect("four counters suffice");
    let flat = record("04002001 10010002 40000001 40000002 10010002 40000001 40000003 02000005 40000002 40000003");
    let settled = lowerer.settle(&flat).expect("the rule is flat");
    assert_eq!(settled.to_string(), "rule/1/2 f1/2 x1 x3 let x2 x3 union x2 x3");
    assert_eq!((settled.replacements, settled.passes), (1, 2));
    assert_eq!(lowerer.free_vars(&flat).map(<[Word]>::len), Ok(2));
    assert_eq!(lowerer.settle(&record("04001000 10010000")), Err(Refusal::NoTerms { place: 1 }));
    assert_eq!(lowerer.free_vars(&record("04001000 08000003")), Err(Refusal::EqualityCount { place: 1 }));
    assert_eq!(lowerer.counters(), [1, 2, 3, 4]);
}

#[test]
fn bad_signatures_make_no_lowerer() {
    let good = record(TRIAL);
    for length in 0..good.len() {
        assert_eq!(Lowerer::new(&good[..length]).err(), Some(Refusal::Signature { place: length }));
    }
    assert_eq!(Lowerer::new(&[good.clone(), vec![0]].concat()).err(), Some(Refusal::Signature { place: 8 }));
    assert_eq!(Lowerer::new(&bytes(&good)[..30]).err(), Some(Refusal::Ragged));
}

#[test]
fn stored_counters_are_taken_up() {
    let signature = record(TRIAL);
    assert_eq!(Lowerer::with_counters(&signature, &[0; 3]).err(), Some(Refusal::Counters));
    let lowerer = Lowerer::with_counters(&signature, &[1, 2, 3, 4, 5]).expect("more than enough");
    assert_eq!(lowerer.counters(), [1, 2, 3, 4]);
    assert_eq!(Word::slice_bits(lowerer.signature()), signature);
}

/// A copy goes its own way.
#[test]
fn copies_have_their_own_counters() {
    let mut first = trial();
    let mut second = first.clone();
    let rule = record("04001000 10010000");
    assert_eq!(first.lower(&rule), second.lower(&rule));
    assert!(first.lower(&rule).is_ok());
    assert_eq!((first.counters(), second.counters()), ([0, 2, 0, 0].as_slice(), [0, 1, 0, 0].as_slice()));
}

/// Each thread of a service may have one, and refusals go from thread to thread.
#[test]
fn a_lowerer_goes_to_another_thread() {
    let mut lowerer = trial();
    let answer = std::thread::spawn(move || lowerer.lower(&record(P1)).map(|lowered| lowered.words.to_vec()));
    assert_eq!(answer.join().expect("the thread ends").map(|words| words.len()), Ok(17));
}

/// The largest signature, and the rules that give the longest results.
#[test]
fn there_is_room_for_every_result() {
    let sorts = [vec![Sort::Primitive], vec![Sort::Function; 4_095]].concat();
    let parts = SignatureParts { globals: 4_096, value_eq: 0, union_to_set: false, sorts: &sorts };
    let mut lowerer = Lowerer::new(&parts.words().collect::<Vec<_>>()).expect("the signature is good");
    assert_eq!(lowerer.counters().len(), 4_096);
    let calls = WRITTEN_WORDS - 2;
    let rule = [vec![0x0400_1000, 0x1fff_0000 + calls as u32], vec![0x1ffe_0000; calls]].concat();
    let lowered = lowerer.lower(&rule).expect("the rule is accepted");
    assert_eq!(lowered.words.len(), room_to_lower(WRITTEN_WORDS) - 6);
    // 511 atoms of one head without inputs: every output but the first is said to equal the first.
    let atoms = (0..511).flat_map(|number| [0x1001_0001, 0x2000_0000 + number]);
    let flat: Vec<u32> = [0x0400_0000 + 4_096 * 511].into_iter().chain(atoms).collect();
    assert_eq!(lowerer.settle(&flat).map(|settled| settled.words.len()), Ok(2 * flat.len() - 3));
}

/// What is only worked in is not shown.
#[test]
fn a_lowerer_is_shown_by_its_signature_and_counters() {
    let signature = [0x0100_0001_u32, 0x0100_0000, 0x0100_0000, 0x0100_0000, 0x0100_0002];
    let lowerer = Lowerer::with_counters(&signature, &[5]).expect("the signature is good");
    let words = "Word(s1), Word(s0), Word(s0), Word(s0), Word(s2)";
    assert_eq!(format!("{lowerer:?}"), format!("Lowerer {{ signature: [{words}], counters: [5], .. }}"));
}
