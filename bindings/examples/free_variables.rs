//! Lists the free variables of a flat rule's actions, over bytes as they might come from a file.
//!
//!     cargo run --offline --example free_variables

use tulgarent::{Flat, Output, Refusal, Signature, WORD_BYTES, free_vars};

/// One head, a primitive, which is value-eq; name 0 is a global.
const SIGNATURE: [u8; 20] = *b"\x01\0\0\x01\x01\0\0\x01\0\0\0\x01\0\0\0\x01\x02\0\0\x01";

/// No atoms, one action: the union of name 7 and the global.
const RULE: [u8; 16] = *b"\x01\0\0\x04\x05\0\0\x02\x07\0\0\x40\0\0\0\x40";

fn main() -> Result<(), Refusal> {
    // A rule has no more free variables than words.
    let mut output = [0; RULE.len()];
    let free = free_vars(Signature(&SIGNATURE), Flat(&RULE), Output(&mut output))?;
    println!("ok {} 0 0", free.len() / WORD_BYTES);
    println!("{free:02x?}");
    Ok(())
}
