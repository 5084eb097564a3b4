//! The readings taken where document 01 leaves a point open, each by the smallest record that shows it.

mod common;

use common::{AMPLE, FLAG_OFF, TRIAL, bytes, free_vars, lower, lower_from, refusal, refused, settle, words};
use oracle::{Lowered, program};

/// Lowering the rule under the trial signature is refused so.
fn lower_refused(rule: &str, number: u64, place: u64) {
    assert_eq!(lower(&words(TRIAL), &words(rule)), Err(refusal(number, place)), "lower {rule}");
}

/// Settling, and the free variables too, refuse the flat rule so.
fn flat_refused(rule: &str, number: u64, place: u64) {
    assert_eq!(settle(&words(TRIAL), &words(rule)), Err(refusal(number, place)), "settle {rule}");
    assert_eq!(free_vars(&words(TRIAL), &words(rule)), Err(refusal(number, place)), "free_vars {rule}");
}

fn lowered(rule: &str, expected: &str) {
    let answer = lower(&words(TRIAL), &words(rule)).expect(rule);
    assert_eq!(answer.words, words(expected), "lower {rule}");
}

fn settled(rule: &str, expected: &str, replacements: usize, passes: usize) {
    let answer = settle(&words(TRIAL), &words(rule));
    assert_eq!(answer, Ok(Lowered { words: words(expected), replacements, passes }), "settle {rule}");
}

fn freed(rule: &str, expected: &str) {
    assert_eq!(free_vars(&words(TRIAL), &words(rule)), Ok(words(expected)), "free_vars {rule}");
}

mod signature {
    use super::*;

    /// Each of the three calls refuses the signature with 1 at this place.
    fn bad(signature: &str, place: u64) {
        let signature = words(signature);
        let rule = words("04000000");
        assert_eq!(lower(&signature, &rule), Err(refusal(1, place)));
        assert_eq!(settle(&signature, &rule), Err(refusal(1, place)));
        assert_eq!(free_vars(&signature, &rule), Err(refusal(1, place)));
    }

    #[test]
    fn the_lowest_bad_index_wins_in_a_short_or_long_one() {
        bad("01000004 01001001 01000000", 1);
        bad("01000004 01000001", 2);
        bad("01000001 01000000 01000000 01000002 01000002 01000000", 3);
        bad("01000001 01000000 01000000 01000001 01000003 01000000", 4);
    }

    #[test]
    fn a_surplus_word_beats_a_value_eq_that_is_no_primitive() {
        bad("01000001 01000000 01000000 01000001 01000000 01000000", 5);
        bad("01000001 01000000 01000000 01000001 01000000", 2);
    }

    #[test]
    fn empty_and_limits() {
        bad("", 0);
        bad("01000000", 0);
        bad("01001001", 0);
        bad("40000001", 0);
        bad("00000000", 0);
        bad("01000001 01000000 01000001 01000001 01000002", 2);
        bad("01000001 01000000 01000000 01000001", 4);
    }

    #[test]
    fn the_largest_numbers_are_good() {
        let mut signature = words("01001000 01001000 01000fff 01000000");
        signature.resize(4 + 4_096, 0x0100_0002);
        let rule = words("04001000 08000002 40000fff 1fff0000");
        let answer = lower(&signature, &rule).expect("accepted");
        // The call's variable is replaced by the global, the highest name there is.
        assert_eq!(answer.words, words("04001001 1fff0001 40000fff 02000001 8fff0000 40000fff"));
    }
}

mod the_program {
    use super::*;

    fn lines(text: &str) -> String {
        words(text).iter().map(|word| format!("{word:08x}\n")).collect()
    }

    #[test]
    fn all_of_it_is_signature_if_its_length_cannot_be_had() {
        assert_eq!(program(b""), "refused 1 0\n");
        assert_eq!(program(lines("40000001 04000000").as_bytes()), "refused 1 0\n");
        assert_eq!(program(lines("01000000 04000000").as_bytes()), "refused 1 0\n");
        assert_eq!(program(lines("01001001 04000000").as_bytes()), "refused 1 0\n");
        assert_eq!(program(lines("01000004 01000001").as_bytes()), "refused 1 2\n");
    }

    #[test]
    fn a_signature_alone_leaves_an_empty_rule() {
        assert_eq!(program(lines(TRIAL).as_bytes()), "refused 4 0\n");
    }

    #[test]
    fn malformed_lines_come_before_all_else() {
        assert_eq!(program(b"01000004"), "refused 13 1\n");
        assert_eq!(program(b"01000004\r\n"), "refused 13 1\n");
        assert_eq!(program(b"\n"), "refused 13 1\n");
        assert_eq!(program(b"0100000A\n"), "refused 13 1\n");
        assert_eq!(program(b"0100004\n01000001\n"), "refused 13 1\n");
        assert_eq!(program(b"010000004\n"), "refused 13 1\n");
        // A bad signature word stands before the bad line, and another bad line behind it.
        assert_eq!(program(b"40000001\n01000001 \n\n"), "refused 13 2\n");
        assert_eq!(program(b"40000001\n01000001\n\n"), "refused 13 3\n");
    }

    #[test]
    fn there_is_no_line_4613() {
        let full = "01001000\n".repeat(4_612);
        assert_eq!(program(full.as_bytes()), "refused 1 2\n");
        assert_eq!(program(format!("{full}0").as_bytes()), "refused 13 4613\n");
        assert_eq!(program(format!("{full}01000000\n").as_bytes()), "refused 13 4613\n");
        assert_eq!(program(format!("{}01000000", "01001000\n".repeat(4_611)).as_bytes()), "refused 13 4612\n");
    }
}

mod order_of_tests {
    use super::*;

    /// Lengths in bytes of counters, output and scratch, for a signature and rule in bytes.
    fn lower_with(signature: &[u8], rule: &[u8], counters: usize, output: usize, scratch: usize) -> (u64, u64) {
        let mut counters = vec![0; counters];
        let mut output = vec![0xa5; output];
        let answer = oracle::lower_bytes(signature, rule, &mut counters, &mut output, scratch);
        assert!(answer.number == 0 || (counters.iter().all(|&b| b == 0) && output.iter().all(|&b| b == 0xa5)));
        (answer.number, answer.place)
    }

    #[test]
    fn lower_tests_14_then_1_2_3_4_5_and_10() {
        let good = bytes(&words(TRIAL));
        let bad = bytes(&words("40000000"));
        let rule = bytes(&words("04001000 10010000"));
        let unfit = bytes(&words("00000000"));
        let scratch = AMPLE - 4;
        assert_eq!(lower_with(&bad, &[], 12, 0, scratch + 1), (14, 0));
        assert_eq!(lower_with(&bad, &[], 12, 0, scratch), (1, 0));
        assert_eq!(lower_with(&good, &[], 12, 0, scratch), (2, 0));
        assert_eq!(lower_with(&good, &[], 16, 0, scratch), (3, 0));
        assert_eq!(lower_with(&good, &[], 16, 0, AMPLE), (4, 0));
        assert_eq!(lower_with(&good, &[0; 4 * 513], 16, 0, AMPLE), (4, 0));
        assert_eq!(lower_with(&good, &[0; 4 * 512], 16, 0, AMPLE), (5, 0));
        assert_eq!(lower_with(&good, &unfit, 16, 0, AMPLE), (5, 0));
        assert_eq!(lower_with(&good, &rule, 16, 8, AMPLE), (10, 3));
        assert_eq!(lower_with(&good, &rule, 16, 12, AMPLE), (0, 0));
    }

    #[test]
    fn any_ragged_slice_of_lower_is_14() {
        let (signature, rule) = (bytes(&words(TRIAL)), bytes(&words("04000000")));
        assert_eq!(lower_with(&signature[..31], &rule, 16, 4, AMPLE), (14, 0));
        assert_eq!(lower_with(&signature, &rule[..3], 16, 4, AMPLE), (14, 0));
        assert_eq!(lower_with(&signature, &rule, 17, 4, AMPLE), (14, 0));
        assert_eq!(lower_with(&signature, &rule, 16, 5, AMPLE), (14, 0));
        assert_eq!(lower_with(&signature, &rule, 16, 4, AMPLE + 3), (14, 0));
    }

    #[test]
    fn settle_tests_scratch_and_no_counters() {
        let good = bytes(&words(TRIAL));
        let call = |signature: &[u8], rule: &[u8], output: usize, scratch: usize| {
            oracle::settle_bytes(signature, rule, &mut vec![0; output], scratch)
        };
        assert_eq!(call(&good[..4], &[], 0, 3), refused(14, 0));
        assert_eq!(call(&good[..4], &[], 0, 0), refused(1, 1));
        assert_eq!(call(&good, &[], 0, AMPLE - 4), refused(3, 0));
        assert_eq!(call(&good, &[], 0, AMPLE), refused(4, 0));
        assert_eq!(call(&good, &[0; 4 * 1_025], 0, AMPLE), refused(4, 0));
        assert_eq!(call(&good, &[0; 4 * 1_024], 0, AMPLE), refused(5, 0));
        assert_eq!(call(&good, &bytes(&words("04000000")), 0, AMPLE), refused(10, 1));
    }

    #[test]
    fn free_variables_test_no_scratch() {
        let good = bytes(&words(TRIAL));
        let call = |signature: &[u8], rule: &[u8], output: usize| {
            oracle::free_vars_bytes(signature, rule, &mut vec![0; output])
        };
        assert_eq!(call(&good[..4], &[], 3), refused(14, 0));
        assert_eq!(call(&good[..4], &[], 0), refused(1, 1));
        assert_eq!(call(&good, &[], 0), refused(4, 0));
        assert_eq!(call(&good, &[0; 4 * 1_025], 0), refused(4, 0));
        assert_eq!(call(&good, &bytes(&words("04000001 02000005 40000001 40000002")), 4), refused(10, 2));
    }
}

mod records {
    use super::*;

    #[test]
    fn five_comes_first_at_one_place() {
        let inside = |word: &str| format!("04001000 {} {word}", "10010001 ".repeat(32));
        lower_refused(&inside("80010000"), 5, 33);
        lower_refused(&inside("40000001"), 6, 33);
        flat_refused("04001000 10040000", 5, 1);
        flat_refused("04001000 10010000", 11, 1);
    }

    #[test]
    fn equalities_by_their_count() {
        flat_refused("04001000 0fffffff", 12, 1);
        flat_refused("04001000 08000001 40000001", 12, 1);
        flat_refused("04001000 10010001 08000002", 5, 2);
        lower_refused("04001000 08000001 40000001", 5, 1);
        lower_refused("04001000 10010001 08000002 40000001 40000001", 5, 2);
    }

    #[test]
    fn depth_is_of_expressions() {
        let chain = |calls: usize| format!("{}20000001", "10010001 ".repeat(calls));
        // The kind 3 word of set and delete is no call.
        for (action, value) in [("02000002", "20000001"), ("02000003", ""), ("02000004", "")] {
            let rule = |calls: usize| format!("04000001 {action} 10030001 {} {value}", chain(calls));
            assert!(lower(&words(TRIAL), &words(&rule(31))).is_ok());
            lower_refused(&rule(32), 6, 35);
        }
        // The constructor call of a union is one.
        let union = |calls: usize| format!("04000001 02000005 40000000 10020001 {}", chain(calls));
        assert!(lower(&words(TRIAL), &words(&union(30))).is_ok());
        lower_refused(&union(31), 6, 35);
        // An empty call is 1 deep.
        assert!(lower(&words(TRIAL), &words(&format!("04001000 {}10010000", "10010001 ".repeat(31)))).is_ok());
        lower_refused(&format!("04001000 {}10010000", "10010001 ".repeat(32)), 6, 33);
        lower_refused(&format!("04001000 {}", "10010001 ".repeat(32)), 5, 33);
    }

    #[test]
    fn payloads_that_do_not_fit() {
        flat_refused("04001000 10010001 80040000", 5, 2);
        flat_refused("04001000 10010001 40001000", 5, 2);
        flat_refused("04001000 10010001 20010000", 5, 2);
        flat_refused("05000000", 5, 0);
        flat_refused("06000000", 5, 0);
        flat_refused("00000000", 5, 0);
        lower_refused("05000000", 5, 0);
        lower_refused("04001000 40001000", 5, 1);
        lower_refused("04001000 20010000", 5, 1);
        lower_refused("04001000 10040000", 5, 1);
        lower_refused("04001000 80010000", 5, 1);
        lower_refused("04001000 00800000", 5, 1);
        lower_refused("04000001 02000001 20000001 20000001", 5, 2);
        lower_refused("04000001 02000006 40000001", 5, 2);
        lower_refused("04000001 02000002 40000001 40000001", 5, 2);
    }

    #[test]
    fn actions_that_do_not_occur() {
        lower_refused("04000001 02000007 40000001 10010000", 5, 1);
        flat_refused("04000001 02000008 10010000", 5, 1);
        for word in ["02000000", "02000009", "03ffffff"] {
            lower_refused(&format!("04000001 {word}"), 5, 1);
            flat_refused(&format!("04000001 {word}"), 5, 1);
        }
        flat_refused("04000001 02000001 20000001 20000001", 5, 2);
        flat_refused("04000001 02000007 20000001 10010000", 5, 2);
    }

    #[test]
    fn a_large_count_is_no_five_by_itself() {
        lower_refused("04001000 1001ffff 40000001", 5, 3);
        lower_refused("04001000 1001ffff 40000001 00000001", 5, 3);
        flat_refused("04001000 1001ffff 40000001", 5, 3);
        lower_refused("04fff000 20000001", 5, 2);
        lower_refused("04000000 40000001", 5, 1);
        flat_refused("04000000 40000001 00000000", 5, 1);
    }

    #[test]
    fn counts_leave_out_value_and_answer_but_not_an_output() {
        lowered("04000001 02000002 10030001 20000001 20000002", "04000001 02000002 10030001 20000001 20000002");
        lowered("04000001 02000008 10010001 20000001", "04000001 02000007 80010000 10010001 20000001");
        lowered("04001000 10010001 20000001", "04001000 10010002 20000001 80010000");
    }
}

mod head {
    use super::*;

    #[test]
    fn a_bare_name_fact_binds_nothing() {
        lower_refused("04001001 40000001 02000008 40000001", 7, 3);
        lowered("04001001 40000001 02000001 40000001 20000001", "04000001 02000001 40000001 20000001");
    }

    #[test]
    fn a_name_equal_to_itself_is_bound() {
        lowered("04001001 08000002 40000001 40000001 02000006 20000007", "04000001 02000006 20000007");
        lowered(
            "04001001 08000002 40000001 40000001 02000005 40000001 20000001",
            "04000001 02000005 40000001 20000001",
        );
        lower_refused("04001001 08000002 40000001 40000001 02000001 40000001 20000001", 8, 4);
    }

    #[test]
    fn a_let_of_a_global() {
        let rule = "04000002 02000001 40000000 20000001 02000005 40000000 20000002";
        lowered(rule, "04000002 02000001 40000000 20000001 02000005 40000000 20000002");
        // Read as the global: a variable here would be free no longer, and a global never is.
        freed(rule, "");
        lower_refused("04000002 02000001 40000000 20000001 02000001 40000000 20000001", 8, 4);
    }

    #[test]
    fn let_tests_its_name_first() {
        lower_refused("04001001 08000002 40000001 40000001 02000001 40000001 40000009", 8, 4);
        lower_refused("04000001 02000001 40000001 40000001", 7, 3);
    }

    /// Head 3's counter is at its end.
    fn at_its_end(rule: &str) -> Result<(Lowered, Vec<u32>), oracle::Refusal> {
        lower_from(&words(TRIAL), &words(rule), &[0, 0, 0, 65_536])
    }

    #[test]
    fn nine_comes_before_arguments_in_facts_and_after_them_in_actions() {
        assert_eq!(at_its_end("04001000 10030001 10030000"), Err(refusal(9, 1)));
        assert_eq!(at_its_end("04000001 02000008 10030001 10030000"), Err(refusal(9, 3)));
        assert_eq!(at_its_end("04000001 02000008 10030001 40000001"), Err(refusal(7, 3)));
        assert_eq!(at_its_end("04000001 02000002 10030001 20000001 40000001"), Err(refusal(7, 4)));
        assert_eq!(at_its_end("04000001 02000002 10030001 20000001 20000001"), Err(refusal(9, 2)));
        assert_eq!(at_its_end("04000001 02000003 10030001 40000001"), Err(refusal(7, 3)));
        assert_eq!(at_its_end("04000001 02000003 10030001 20000001"), Err(refusal(9, 2)));
        assert_eq!(at_its_end("04000001 02000004 10030000"), Err(refusal(9, 2)));
        // A type error after the exhausted counter comes too late, one before it does not.
        assert_eq!(at_its_end("04001001 10030000 02000008 40000001"), Err(refusal(9, 1)));
        assert_eq!(at_its_end("04000002 02000008 40000001 02000008 10030000"), Err(refusal(7, 2)));
    }

    #[test]
    fn nine_at_a_union_that_becomes_a_set() {
        let call = |signature: &str, rule: &str| {
            lower_from(&words(signature), &words(rule), &[0, 0, 65_536, 0]).map(|(lowered, _)| lowered.words)
        };
        let union = "04000001 02000005 40000000 10020001 20000001";
        assert_eq!(call(TRIAL, union), Err(refusal(9, 3)));
        assert_eq!(call(TRIAL, "04000001 02000005 40000001 10020001 20000001"), Err(refusal(7, 2)));
        assert_eq!(call(TRIAL, "04000001 02000005 10020001 20000001 40000000"), Err(refusal(9, 2)));
        assert_eq!(call(FLAG_OFF, union), Err(refusal(9, 3)));
    }

    #[test]
    fn a_counter_far_past_its_end() {
        let answer = lower_from(&words(TRIAL), &words("04002000 10010000 10010000"), &[0, u32::MAX, 0, 0]);
        assert_eq!(answer, Err(refusal(9, 1)));
    }

    #[test]
    fn extra_counts_of_set_delete_subsume_and_union_as_set() {
        let after = |signature: &str, rule: &str| {
            lower_from(&words(signature), &words(rule), &[0; 4]).map(|(_, counters)| counters)
        };
        assert_eq!(after(TRIAL, "04000001 02000002 10030000 20000001"), Ok(vec![0, 0, 0, 1]));
        assert_eq!(after(TRIAL, "04000001 02000003 10030000"), Ok(vec![0, 0, 0, 1]));
        assert_eq!(after(TRIAL, "04000001 02000004 10030000"), Ok(vec![0, 0, 0, 1]));
        assert_eq!(after(TRIAL, "04000001 02000005 40000000 10020000"), Ok(vec![0, 0, 1, 0]));
        assert_eq!(after(FLAG_OFF, "04000001 02000005 40000000 10020000"), Ok(vec![0, 0, 1, 0]));
        assert_eq!(after(TRIAL, "04000001 02000005 20000001 20000002"), Ok(vec![0; 4]));
    }

    #[test]
    fn a_value_eq_of_settling_uses_no_count() {
        let rule = words("04001000 08000002 20000001 20000002");
        let (_, after) = lower_from(&words(TRIAL), &rule, &[65_536, 0, 0, 0]).expect("accepted");
        assert_eq!(after, [65_536, 0, 0, 0]);
    }

    #[test]
    fn a_type_error_uses_up_no_count() {
        let rule = words("04001001 10010000 02000008 40000009");
        assert_eq!(lower_from(&words(TRIAL), &rule, &[5, 6, 7, 8]), Err(refusal(7, 3)));
    }

    #[test]
    fn counters_past_the_heads_stay() {
        let (_, after) = lower_from(&words(TRIAL), &words("04001000 10030000"), &[9; 6]).expect("accepted");
        assert_eq!(after, [9, 9, 9, 10, 9, 9]);
    }
}

mod settling {
    use super::*;

    #[test]
    fn unequal_terms_are_unequal_words() {
        let two_globals = "01000004 01000002 01000000 01000001 01000002 01000000 01000001 01000000";
        let answer = settle(&words(two_globals), &words("04001000 08000002 40000000 40000001"));
        assert_eq!(answer.map(|lowered| lowered.words), Ok(words("04001000 10000003 40000000 40000001 20000000")));
        settled("04001000 08000002 40000000 20000000", "04001000 10000003 40000000 20000000 20000000", 0, 1);
    }

    #[test]
    fn outputs_that_repeat_give_repeated_equalities() {
        // Three equalities (1, 2), (1, 2), (1, 3) give three value-eq atoms; the next pass drops the repeated one.
        settled(
            "04004000 10010001 20000001 10010001 20000002 10010001 20000002 10010001 20000003",
            "04003000 10000003 20000001 20000002 20000000 10000003 20000001 20000003 20000000 10010001 20000001",
            0,
            2,
        );
    }

    #[test]
    fn the_last_pass_still_drops_repeated_atoms() {
        settled("04002000 10010001 20000001 10010001 20000001", "04001000 10010001 20000001", 0, 1);
    }

    #[test]
    fn value_eq_atoms_are_grouped_like_any_other() {
        settled(
            "04002000 10000003 20000001 20000002 40000001 08000002 20000001 20000002",
            "04001001 10000003 20000001 20000002 20000000 02000001 40000001 20000000",
            1,
            2,
        );
    }

    #[test]
    fn one_head_with_different_counts_is_never_alike() {
        let rule = "04002000 10010001 40000001 10010002 40000001 40000002";
        settled(rule, rule, 0, 1);
    }

    #[test]
    fn settle_asks_nothing_of_the_head() {
        let rule = "04000003 02000005 40000001 80010000 02000001 40000001 40000002 02000001 40000001 20000003";
        settled(rule, rule, 0, 1);
    }

    #[test]
    fn the_first_candidate_is_by_its_terms_now() {
        // (x = y), (x = 1): after the first, the second is (y = 1).
        settled(
            "04002000 08000002 40000001 40000002 08000002 40000001 20000001",
            "04000002 02000001 40000002 20000001 02000001 40000001 40000002",
            2,
            1,
        );
    }

    #[test]
    fn actions_keep_their_terms() {
        settled(
            "04001001 08000002 40000001 40000002 02000005 40000001 40000002",
            "04000002 02000001 40000001 40000002 02000005 40000001 40000002",
            1,
            1,
        );
    }

    #[test]
    fn groups_follow_their_first_atoms() {
        settled(
            "04004000 10030001 40000001 10010001 40000002 10010001 40000003 10030001 40000004",
            "04002002 10030001 40000004 10010001 40000003 02000001 40000002 40000003 02000001 40000001 40000004",
            2,
            2,
        );
    }

    #[test]
    fn the_bound_on_passes_is_tight() {
        let rule = "04002000 10000003 20000001 20000002 20000001 10000003 20000001 20000002 20000002";
        let answer = settle(&words(TRIAL), &words(rule)).expect("accepted");
        assert_eq!(answer.passes, 3);
    }
}

mod sizes {
    use super::*;

    /// A union of two calls, each over empty calls: so many words in all, an even number.
    fn widest(length: usize) -> Vec<u32> {
        let empty = (length - 4) / 2;
        let mut rule = words("04000001 02000005");
        for _ in 0..2 {
            rule.push(0x1001_0000 + empty as u32);
            rule.extend(vec![0x1001_0000; empty]);
        }
        rule
    }

    /// One call without inputs, with a new literal as output each time.
    fn clashing(atoms: usize) -> Vec<u32> {
        let mut rule = vec![0x0400_0000 + 4_096 * atoms as u32];
        rule.extend((1..=atoms as u32).flat_map(|literal| [0x1001_0001, 0x2000_0000 + literal]));
        rule
    }

    #[test]
    fn the_largest_result_of_a_written_rule() {
        assert_eq!(widest(512).len(), 512);
        assert_eq!(lower(&words(TRIAL), &widest(512)).expect("accepted").words.len(), 4 * 512 - 6);
    }

    #[test]
    fn the_largest_result_of_a_flat_rule() {
        assert_eq!(clashing(511).len(), 1_023);
        assert_eq!(settle(&words(TRIAL), &clashing(511)).expect("accepted").words.len(), 2 * 1_023 - 3);
    }

    #[test]
    fn a_lowered_rule_may_be_too_long_to_settle() {
        let long = lower(&words(TRIAL), &widest(258)).expect("accepted").words;
        assert_eq!(long.len(), 1_026);
        assert_eq!(settle(&words(TRIAL), &long), Err(refusal(4, 0)));
        assert_eq!(free_vars(&words(TRIAL), &long), Err(refusal(4, 0)));
    }
}

mod free_variables {
    use super::*;

    #[test]
    fn names_and_fresh_variables_ascending() {
        freed("04000001 02000002 10030003 80010000 40000002 40000000 40000001", "40000001 40000002 80010000");
        freed("04000001 02000005 20000001 40000003", "40000003");
        freed("04000002 02000003 10030001 40000002 02000004 10030001 40000001", "40000001 40000002");
    }

    #[test]
    fn a_target_goes_after_its_terms() {
        freed("04000001 02000001 40000001 40000001", "");
        freed("04000001 02000007 80010000 10010002 80010000 40000001", "40000001");
        freed("04000002 02000005 40000001 40000002 02000001 40000001 20000001", "40000001 40000002");
        freed("04000002 02000001 40000001 20000001 02000005 40000001 40000002", "40000002");
    }

    #[test]
    fn removing_a_global_does_nothing() {
        freed("04000002 02000001 40000000 40000001 02000005 40000000 40000002", "40000001 40000002");
    }

    #[test]
    fn the_body_must_read_well_and_is_else_ignored() {
        freed("04002001 10010001 40000005 08000002 40000006 40000007 02000006 20000001", "");
        flat_refused("04001001 10010000 02000006 20000001", 11, 1);
        flat_refused("04001001 08000003 02000006 20000001", 12, 1);
    }
}
