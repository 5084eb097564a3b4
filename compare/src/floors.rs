//! What the figures of a run must come to. A mistake that only long rules show is found only if long rules are run: a
//! run that has not come to the ends of what the calls take says so, and fails.

use crate::figures::{Figure, Tally};
use crate::words::{CALL, DELETE, EXPRESSION, LET, PANIC, SET, SUBSUME, UNION};

/// The numbers that each call can give: lower, settle, free variables.
pub const NUMBERS_OF: [&[usize]; 3] =
    [&[1, 2, 3, 4, 5, 6, 7, 8, 9, 10, 14], &[1, 3, 4, 5, 10, 11, 12, 14], &[1, 4, 5, 10, 11, 12, 14]];

/// The floor of each figure for lower, settle and free variables; 0 where the call has no such figure.
///
/// Those of rules, actions and places are as large as document 01's limits let them be: a rule has 512 words, or 1,024 if
/// it is flat, and a signature 4,100. Those of results, replacements and passes are as large as any that were found.
pub const FLOORS: &[(Figure, [u64; 3])] = &[
    (Figure::Rule, [512, 1_024, 1_024]),
    (Figure::Result, [2_042, 2_043, 1_021]),
    (Figure::Replacements, [510, 510, 0]),
    (Figure::Passes, [465, 341, 0]),
    (Figure::Actions(LET), [170, 341, 341]),
    (Figure::Actions(SET), [170, 341, 341]),
    (Figure::Actions(DELETE), [255, 511, 511]),
    (Figure::Actions(SUBSUME), [255, 511, 511]),
    (Figure::Actions(UNION), [170, 341, 341]),
    (Figure::Actions(PANIC), [255, 511, 511]),
    (Figure::Actions(CALL), [0, 341, 341]),
    (Figure::Actions(EXPRESSION), [255, 0, 0]),
    (Figure::Place(1), [4_100, 4_100, 4_100]),
    (Figure::Place(5), [512, 1_024, 1_024]),
    (Figure::Place(6), [511, 0, 0]),
    (Figure::Place(7), [511, 0, 0]),
    (Figure::Place(8), [509, 0, 0]),
    (Figure::Place(9), [511, 0, 0]),
    (Figure::Place(10), [2_042, 2_043, 1_021]),
    (Figure::Place(11), [0, 1_023, 1_023]),
    (Figure::Place(12), [0, 1_023, 1_023]),
];

/// What is missing, a line each: refusals that a call never gave, and figures below their floors.
pub fn missing(calls: &[Tally; 3]) -> Vec<String> {
    let mut missing = Vec::new();
    for (tally, numbers) in calls.iter().zip(NUMBERS_OF) {
        let unmet = numbers.iter().filter(|&&number| tally.refused[number] == 0);
        missing.extend(unmet.map(|number| format!("{}: no case was refused by {number}", tally.name)));
    }
    for (figure, floors) in FLOORS {
        for (tally, &floor) in calls.iter().zip(floors) {
            let reached = tally.largest(*figure);
            if reached < floor {
                missing.push(format!("{}: {figure} is {reached}, below its floor of {floor}", tally.name));
            }
        }
    }
    missing
}

#[cfg(test)]
mod tests {
    use super::{FLOORS, NUMBERS_OF, missing};
    use crate::case::{Call, Case};
    use crate::figures::{Figure, of_calls};
    use tulgarent::Answer;

    #[test]
    fn nothing_run_is_all_missing() {
        let floors = FLOORS.iter().flat_map(|(_, floors)| floors).filter(|&&floor| floor > 0).count();
        let numbers: usize = NUMBERS_OF.iter().map(|numbers| numbers.len()).sum();
        assert_eq!(missing(&of_calls()).len(), floors + numbers);
    }

    #[test]
    fn a_floor_is_met_by_its_own_call_alone() {
        let line = "free variables: longest result is 20, below its floor of 1021";
        let mut calls = of_calls();
        let row = |words| Answer { number: 0, place: 0, words, replacements: 0, passes: 0 };
        let case = Case::new(Call::FreeVars, Vec::new(), Vec::new());
        calls[Call::Settle as usize].count(&case, &row(2_043));
        calls[Call::FreeVars as usize].count(&case, &row(20));
        assert!(missing(&calls).iter().any(|missing| missing == line));
        calls[Call::FreeVars as usize].count(&case, &row(1_021));
        assert!(
            !missing(&calls)
                .iter()
                .any(|missing| missing.contains(&Figure::Result.to_string()) && missing.contains("free"))
        );
    }
}
