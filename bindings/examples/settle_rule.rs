//! Settles a flat rule that is built of typed words, with all memory lent and nothing allocated.
//!
//!     cargo run --offline --example settle_rule

use tulgarent::{Action, Flat, Output, Refusal, SCRATCH_WORDS, Scratch, Signature, Word, room_to_settle, settle};

/// Two heads, no globals, value-eq is head 0, unions stay unions; then a primitive and a function.
const SIGNATURE: [u32; 6] = [0x0100_0002, 0x0100_0000, 0x0100_0000, 0x0100_0000, 0x0100_0002, 0x0100_0000];

// A number too large for its kind would stop the compiler here.
const HEADER: Word = Word::header(2, 1).unwrap();
const F1: Word = Word::head(1, 2).unwrap();
const X1: Word = Word::name(1).unwrap();
const X2: Word = Word::name(2).unwrap();
const X3: Word = Word::name(3).unwrap();

/// Two atoms of head 1 with one input, and a union of their outputs. Settling finds that the outputs are one.
const RULE: [Word; 10] = [HEADER, F1, X1, X2, F1, X1, X3, Word::action(Action::Union), X2, X3];

fn main() -> Result<(), Refusal> {
    let mut output = [Word::UNIT; room_to_settle(RULE.len())];
    let mut scratch = [Word::UNIT; SCRATCH_WORDS];
    let signature = Signature(Word::slice(&SIGNATURE));
    let settled = settle(signature, Flat(&RULE), Output(&mut output), Scratch(&mut scratch))?;
    println!("ok {} {} {}", settled.words.len(), settled.replacements, settled.passes);
    println!("{settled}");
    Ok(())
}
