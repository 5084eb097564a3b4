//! Cases that are mostly turned back: damaged records and signatures, and slices around what is asked for.

use super::flat::{far_flat, flat, lowered};
use super::growing::growing;
use super::settling::{cascades, globals, value_eq};
use super::written::{counters, written, written_limits};
use crate::case::{Call, Case, Five, ample_output};
use crate::draw::Draw;
use crate::records::{Signature, Writer, any_word, spoil};
use crate::words::{NAMES, SCRATCH_WORDS, signature_word};

type Make = fn(&mut Draw) -> Case;

const GOOD_ONES: &[Make] =
    &[written, written, written_limits, cascades, growing, value_eq, globals, counters, flat, flat, far_flat, lowered];

pub fn damaged(draw: &mut Draw) -> Case {
    let mut case = draw.pick(GOOD_ONES)(draw);
    spoil(draw, &mut case.rule);
    case.output = ample_output(case.call, case.rule.len());
    case
}

/// From one head to all there may be, from no global to all, half of them damaged.
pub fn signatures(draw: &mut Draw) -> Case {
    let heads = draw.pick(&[1, 2, 5, 300, NAMES as usize - 1, NAMES as usize]);
    let mut signature = Signature::of_heads(draw, heads);
    signature.globals = draw.pick(&[0, 1, 3, NAMES - 1, NAMES]);
    let length = draw.between(1, 40);
    let call = draw.pick(&[Call::Lower, Call::Lower, Call::Lower, Call::Settle, Call::FreeVars]);
    let mut writer = Writer::new(draw, &signature);
    let rule = if call == Call::Lower { writer.written(length) } else { writer.flat(length) };
    let mut case = Case::new(call, signature.words(), rule);
    if draw.once_in(2) {
        damage(draw, &mut case.signature);
    }
    case
}

/// The front is where most can go wrong.
fn damage(draw: &mut Draw, signature: &mut Vec<u32>) {
    let place = draw.pick(&[0, 1, 2, 3, 4, signature.len() - 1]);
    match draw.below(5) {
        0 => signature.truncate(place),
        1 => signature.push(any_word(draw)),
        2 => signature[place] = any_word(draw),
        3 => signature[place] = signature_word(draw.pick(&[0, 1, 2, 3, NAMES - 1, NAMES, NAMES + 1])),
        _ => spoil(draw, signature),
    }
}

/// Lengths of what is lent, around what is asked for.
pub fn slices(draw: &mut Draw) -> Case {
    let good: Make = draw.pick(&[written, written, flat, lowered, growing, value_eq]);
    let mut case = good(draw);
    match draw.below(6) {
        0..=2 => case.output = near(draw, needed(&case)),
        3 => case.scratch = draw.pick(&[0, 1, SCRATCH_WORDS - 1, SCRATCH_WORDS, SCRATCH_WORDS + 1]),
        4 if case.call == Call::Lower => {
            let counters = near(draw, case.counters.len());
            case.counters.resize(counters, 7);
        }
        _ => case.ragged = ragged(draw),
    }
    second_cause(draw, &mut case);
    case
}

/// Two causes at once show which is tested first.
fn second_cause(draw: &mut Draw, case: &mut Case) {
    match draw.below(24) {
        0 => case.ragged = ragged(draw),
        1 => spoil(draw, &mut case.signature),
        2 => case.scratch = near(draw, case.scratch),
        3 => case.rule.clear(),
        4 => spoil(draw, &mut case.rule),
        5 => case.counters.truncate(1),
        _ => (),
    }
}

fn near(draw: &mut Draw, number: usize) -> usize {
    (number + draw.pick(&[0, 0, 1, 2])).saturating_sub(draw.pick(&[0, 1, 1, 2]))
}

/// The words that the result has, by the Rust; for a rule that is refused, 0.
pub fn needed(case: &Case) -> usize {
    let Case { signature, rule, .. } = case;
    let words = match case.call {
        Call::Lower => oracle::lower(signature, rule, &mut case.counters.clone()).map(|lowered| lowered.words),
        Call::Settle => oracle::settle(signature, rule).map(|settled| settled.words),
        Call::FreeVars => oracle::free_vars(signature, rule),
    };
    words.map_or(0, |words| words.len())
}

fn ragged(draw: &mut Draw) -> Five<u8> {
    let mut ragged = Five::default();
    let slice = match draw.below(5) {
        0 => &mut ragged.signature,
        1 => &mut ragged.rule,
        2 => &mut ragged.counters,
        3 => &mut ragged.output,
        _ => &mut ragged.scratch,
    };
    *slice = 1 + draw.below(3) as u8;
    ragged
}
