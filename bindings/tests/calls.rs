//! What the trial rules leave out: the other calls, the other refusals, and slices of every shape.

mod common;

use common::{
    Counted, Counts, MARK, P1, TRIAL, bytes, call_free_vars, call_lower, call_settle, free_vars, lower, lower_from,
    record, settle,
};
use tulgarent::{
    FLAT_WORDS, Refusal, SCRATCH_BYTES, SCRATCH_WORDS, WRITTEN_WORDS, room_for_free_vars, room_to_lower, room_to_settle,
};

#[test]
fn a_flat_rule_is_settled() {
    let rule = "04003001 10010002 40000001 40000002 10010002 40000001 40000003 08000002 40000004 20000001
        02000008 40000004";
    assert_eq!(settle(TRIAL, rule), Err(Refusal::Unfit { place: 10 }), "an expression is no flat action");
    let rule = "04002001 10010002 40000001 40000002 10010002 40000001 40000003 02000005 40000002 40000003";
    let settled = "04001002 10010002 40000001 40000003 02000001 40000002 40000003 02000005 40000002 40000003";
    let counts = Counts { words: 10, replacements: 1, passes: 2 };
    assert_eq!(settle(TRIAL, rule), Ok((record(settled), counts)));
}

#[test]
fn free_variables_ascend() {
    let rule = "04000003 02000007 40000002 10010001 80010000 02000005 40000002 40000003 02000005 40000001 40000000";
    assert_eq!(free_vars(TRIAL, rule), Ok(record("40000001 40000003 80010000")));
    assert_eq!(free_vars(TRIAL, "04000000"), Ok(vec![]));
}

#[test]
fn records_are_turned_back_by_number_and_place() {
    assert_eq!(lower("01000001 01000000 01000000 01000000 01000000", P1), Err(Refusal::Signature { place: 2 }));
    assert_eq!(lower("", P1), Err(Refusal::Signature { place: 0 }));
    assert_eq!(lower(TRIAL, ""), Err(Refusal::Length));
    assert_eq!(lower(TRIAL, "04001000 00000000"), Err(Refusal::Unfit { place: 1 }));
    assert_eq!(lower(TRIAL, "04000000 04000000"), Err(Refusal::Unfit { place: 1 }));
    assert_eq!(lower(TRIAL, "04000001"), Err(Refusal::Unfit { place: 1 }));
    assert_eq!(settle(TRIAL, "04001000 10010000"), Err(Refusal::NoTerms { place: 1 }));
    assert_eq!(free_vars(TRIAL, "04001000 08000003"), Err(Refusal::EqualityCount { place: 1 }));
}

#[test]
fn limits_of_length() {
    let bare = |facts: usize| [vec![0x0400_0000 + 4_096 * facts as u32], vec![0x2000_0000; facts]].concat();
    let lowered = |words: usize| lower_from(&record(TRIAL), &bare(words - 1), &[0; 4], 4).0.map(|(words, _)| words);
    assert_eq!(lowered(WRITTEN_WORDS), Ok(vec![0x0400_0000]));
    assert_eq!(lowered(WRITTEN_WORDS + 1), Err(Refusal::Length));
    let too_long = vec![0x0400_0000; FLAT_WORDS + 1];
    assert_eq!(call_free_vars(&record(TRIAL), &too_long, &mut []), Err(Refusal::Length));
}

#[test]
fn too_little_is_lent() {
    let (signature, rule) = (record(TRIAL), record(P1));
    let lower = |counters: usize, scratch: usize| {
        call_lower(&signature, &rule, &mut vec![0; counters], &mut [MARK; 17], &mut vec![0; scratch])
    };
    assert_eq!(lower(3, 0), Err(Refusal::Counters));
    assert_eq!(lower(4, SCRATCH_WORDS - 1), Err(Refusal::Scratch));
    assert_eq!(lower(5, SCRATCH_WORDS + 1).map(|lowered| lowered.words), Ok(17));
}

/// The slices of a byte call, in the order in which they are lent.
const SLICES: usize = 5;

/// Lowers P1 with each slice standing so far from where its memory begins, and so many bytes longer.
fn lower_p1(offsets: [usize; SLICES], longer: [usize; SLICES]) -> Counted {
    let contents =
        [bytes(&record(TRIAL)), bytes(&record(P1)), vec![0; 16], vec![0xa5; 4 * 17], vec![0xff; SCRATCH_BYTES]];
    let mut slices: [Vec<u8>; SLICES] = std::array::from_fn(|i| {
        let mut memory = vec![0; offsets[i]];
        memory.extend(&contents[i]);
        memory.resize(memory.len() + longer[i], 0);
        memory
    });
    let [signature, rule, counters, output, scratch] = &mut slices;
    let [s, r, c, o, t] = offsets;
    call_lower(&signature[s..], &rule[r..], &mut counters[c..], &mut output[o..], &mut scratch[t..])
}

#[test]
fn slices_stand_anywhere() {
    for shift in 0..8 {
        let lowered = lower_p1(std::array::from_fn(|i| (shift * (i + 1)) % 8), [0; SLICES]);
        assert_eq!(lowered, Ok(Counts { words: 17, replacements: 3, passes: 2 }), "{shift}");
    }
}

#[test]
fn ragged_slices_are_turned_back() {
    for slice in 0..SLICES {
        for bytes in 1..4 {
            let mut longer = [0; SLICES];
            longer[slice] = bytes;
            assert_eq!(lower_p1([0; SLICES], longer), Err(Refusal::Ragged), "{slice} {bytes}");
        }
    }
}

/// A slice of nothing has a pointer that leads nowhere.
#[test]
fn empty_slices_are_slices() {
    let signature = bytes(&record(TRIAL));
    assert_eq!(call_lower::<u8>(&[], &[], &mut [], &mut [], &mut []), Err(Refusal::Signature { place: 0 }));
    assert_eq!(call_lower(&signature, &[], &mut [], &mut [], &mut []), Err(Refusal::Counters));
    assert_eq!(call_settle(&signature, &[], &mut [], &mut []), Err(Refusal::Scratch));
    assert_eq!(call_free_vars(&signature, &[], &mut []), Err(Refusal::Length));
    let rule = bytes(&record("04000000"));
    assert_eq!(call_free_vars(&signature, &rule, &mut []), Ok(0));
    assert_eq!(call_lower::<u32>(&[], &[], &mut [], &mut [], &mut []), Err(Refusal::Signature { place: 0 }));
    assert_eq!(call_free_vars(&record(TRIAL), &record("04000000"), &mut []), Ok(0));
    let mut scratch = vec![0; SCRATCH_BYTES];
    assert_eq!(call_settle(&signature, &rule, &mut [], &mut scratch), Err(Refusal::Output { needed: 1 }));
}

/// The rules that grow most: n words give 4n - 6 lowered and 2n - 3 settled.
#[test]
fn the_room_suffices() {
    // (f (g) (g) .. (g)): every call gives a binding and a term.
    let calls_of_nothing =
        |count: usize| [vec![0x0400_1000, 0x1003_0000 + count as u32], vec![0x1001_0000; count]].concat();
    for count in [1, 2, 100, WRITTEN_WORDS - 2] {
        let rule = calls_of_nothing(count);
        let (answer, _) = lower_from(&record(TRIAL), &rule, &[0; 4], room_to_lower(rule.len()));
        assert_eq!(answer.map(|(words, _)| words.len()), Ok(4 * rule.len() - 6));
    }
    // Atoms of one head without inputs: every output but the first is said to equal the first.
    let clashes = |count: u32| {
        let atoms = (0..count).flat_map(|number| [0x1001_0001, 0x2000_0000 + number]);
        [0x0400_0000 + 4_096 * count].into_iter().chain(atoms).collect::<Vec<_>>()
    };
    for count in [1, 2, 100, 511] {
        let rule = clashes(count);
        let mut output = vec![0; room_to_settle(rule.len())];
        let answer = call_settle(&record(TRIAL), &rule, &mut output, &mut vec![0; SCRATCH_WORDS]);
        assert_eq!(answer.map(|settled| settled.words), Ok(2 * rule.len() - 3));
    }
    // A union of two is where free variables are densest.
    let rule = record("04000001 02000005 40000001 40000002");
    assert_eq!(call_free_vars(&record(TRIAL), &rule, &mut vec![0; room_for_free_vars(rule.len())]), Ok(2));
}
