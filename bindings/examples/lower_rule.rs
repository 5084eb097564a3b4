//! Lowers a rule with an owner of all memory. Prints the counts as the program `lower` would, then each word of the result
//! beside its notation.
//!
//!     cargo run --offline --example lower_rule

use tulgarent::{Lowerer, Refusal, SignatureParts, Sort, Word};

/// Head 0 is value-eq, name 0 is a global, and unions may become sets.
const SIGNATURE: SignatureParts = SignatureParts {
    globals: 1,
    value_eq: 0,
    union_to_set: true,
    sorts: &[Sort::Primitive, Sort::Function, Sort::Constructor, Sort::Function],
};

/// Both facts call head 1 with name 1. Settling finds that the two calls are one.
#[rustfmt::skip]
const RULE: [u32; 13] = [
    0x0400_2001,                                        // two facts, one action
    0x0800_0002, 0x4000_0002, 0x1001_0001, 0x4000_0001, // (= x2 (f1 x1))
    0x0800_0002, 0x4000_0003, 0x1001_0001, 0x4000_0001, // (= x3 (f1 x1))
    0x0200_0002, 0x1003_0001, 0x4000_0001, 0x4000_0003, // (set (f3 x1) x3)
];

fn main() -> Result<(), Refusal> {
    let mut lowerer = Lowerer::new(&SIGNATURE.words().collect::<Vec<Word>>())?;
    let lowered = lowerer.lower(&RULE)?;
    println!("ok {} {} {}", lowered.words.len(), lowered.replacements, lowered.passes);
    lowered.words.iter().for_each(|word| println!("{word:08x} {word}"));
    println!("counters {:?}", lowerer.counters());
    Ok(())
}
