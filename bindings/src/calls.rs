//! The three calls over lent slices. Each slice is wrapped in a type that says what it is lent for, so that two of them
//! exchanged are two types exchanged, which does not compile.

use crate::abi::Element;
use crate::answer::Lowered;
use crate::refusal::Refusal;

/// A signature: 4 words and one for each head. [`SignatureParts`](crate::SignatureParts) writes one.
#[derive(Debug, Clone, Copy)]
pub struct Signature<'a, T>(pub &'a [T]);

/// A written rule, of 1 to [`WRITTEN_WORDS`](crate::WRITTEN_WORDS) words.
#[derive(Debug, Clone, Copy)]
pub struct Written<'a, T>(pub &'a [T]);

/// A flat rule, of 1 to [`FLAT_WORDS`](crate::FLAT_WORDS) words.
#[derive(Debug, Clone, Copy)]
pub struct Flat<'a, T>(pub &'a [T]);

/// A word for each head: the count that its next fresh variable takes. To be kept from one rule to the next.
#[derive(Debug)]
pub struct Counters<'a, T>(pub &'a mut [T]);

/// Where the result goes. What stands past it is left as it was, and all of it if the call refuses.
#[derive(Debug)]
pub struct Output<'a, T>(pub &'a mut [T]);

/// Memory to work in, [`SCRATCH_WORDS`](crate::SCRATCH_WORDS) of it. It may hold anything before and after a call.
#[derive(Debug)]
pub struct Scratch<'a, T>(pub &'a mut [T]);

/// Lowers a written rule and settles it.
///
/// The counters move on only if the rule is accepted; entries past the last head stay.
///
/// ```
/// use tulgarent::{Counters, Output, SCRATCH_WORDS, Scratch, Signature, Written, lower};
///
/// // Two heads, no globals, value-eq is head 0, unions stay unions; a primitive and a function.
/// let signature = [0x0100_0002_u32, 0x0100_0000, 0x0100_0000, 0x0100_0000, 0x0100_0002, 0x0100_0000];
/// // One fact, (f1 x5), and no actions.
/// let rule = [0x0400_1000_u32, 0x1001_0001, 0x4000_0005];
/// let (mut counters, mut output, mut scratch) = ([0; 2], [0; 12], vec![0; SCRATCH_WORDS]);
///
/// let lowered = lower(
///     Signature(&signature),
///     Written(&rule),
///     Counters(&mut counters),
///     Output(&mut output),
///     Scratch(&mut scratch),
/// )?;
/// assert_eq!(lowered.words, [0x0400_1000, 0x1001_0002, 0x4000_0005, 0x8001_0000]);
/// assert_eq!(counters, [0, 1]);
/// # Ok::<(), tulgarent::Refusal>(())
/// ```
///
/// With output and scratch exchanged it does not compile:
///
/// ```compile_fail,E0308
/// # use tulgarent::{Counters, Output, SCRATCH_WORDS, Scratch, Signature, Written, lower};
/// # let signature = [0x0100_0002_u32, 0x0100_0000, 0x0100_0000, 0x0100_0000, 0x0100_0002, 0x0100_0000];
/// # let rule = [0x0400_1000_u32, 0x1001_0001, 0x4000_0005];
/// # let (mut counters, mut output, mut scratch) = ([0; 2], [0; 12], vec![0; SCRATCH_WORDS]);
/// let lowered = lower(
///     Signature(&signature),
///     Written(&rule),
///     Counters(&mut counters),
///     Scratch(&mut scratch),
///     Output(&mut output),
/// )?;
/// # Ok::<(), tulgarent::Refusal>(())
/// ```
///
/// # Errors
/// Refusals 1 to 10, and over bytes 14.
pub fn lower<'o, T: Element>(
    signature: Signature<'_, T>,
    rule: Written<'_, T>,
    counters: Counters<'_, T>,
    output: Output<'o, T>,
    scratch: Scratch<'_, T>,
) -> Result<Lowered<'o, T>, Refusal> {
    let Output(output) = output;
    raw::lower(signature, rule, counters, Output(output), scratch).lowered(output)
}

/// Settles a flat rule: equalities go, and atoms alike in head and inputs are merged.
///
/// ```
/// use tulgarent::{Flat, Output, SCRATCH_WORDS, Scratch, Signature, Word, settle};
///
/// // Two heads, no globals, value-eq is head 0, unions stay unions; a primitive and a function.
/// let signature = [0x0100_0002_u32, 0x0100_0000, 0x0100_0000, 0x0100_0000, 0x0100_0002, 0x0100_0000];
/// // Two atoms with one input: f1 gives both x2 and x3 for x1.
/// let rule = [0x0400_2000_u32, 0x1001_0002, 0x4000_0001, 0x4000_0002, 0x1001_0002, 0x4000_0001, 0x4000_0003];
/// let (mut output, mut scratch) = ([Word::UNIT; 14], [Word::UNIT; SCRATCH_WORDS]);
///
/// let (signature, rule) = (Word::slice(&signature), Word::slice(&rule));
/// let settled = settle(Signature(signature), Flat(rule), Output(&mut output), Scratch(&mut scratch))?;
/// assert_eq!(settled.to_string(), "rule/1/1 f1/2 x1 x3 let x2 x3");
/// assert_eq!((settled.replacements, settled.passes), (1, 2));
/// # Ok::<(), tulgarent::Refusal>(())
/// ```
///
/// Output and scratch can't be exchanged here either:
///
/// ```compile_fail,E0308
/// # use tulgarent::{Flat, Output, SCRATCH_WORDS, Scratch, Signature, settle};
/// # let (mut output, mut scratch) = ([0; 14], vec![0; SCRATCH_WORDS]);
/// # let (signature, rule) = ([0_u32; 6], [0_u32; 7]);
/// let settled = settle(Signature(&signature), Flat(&rule), Scratch(&mut scratch), Output(&mut output))?;
/// # Ok::<(), tulgarent::Refusal>(())
/// ```
///
/// # Errors
/// Refusals 1, 3, 4, 5, 10, 11 and 12, and over bytes 14.
pub fn settle<'o, T: Element>(
    signature: Signature<'_, T>,
    rule: Flat<'_, T>,
    output: Output<'o, T>,
    scratch: Scratch<'_, T>,
) -> Result<Lowered<'o, T>, Refusal> {
    let Output(output) = output;
    raw::settle(signature, rule, Output(output), scratch).lowered(output)
}

/// Writes the free variables of a flat rule's actions in ascending order, and gives the part of the output where they
/// stand.
///
/// ```
/// use tulgarent::{Flat, Output, Signature, free_vars};
///
/// // One head, a primitive, which is value-eq; no globals.
/// let signature = [0x0100_0001_u32, 0x0100_0000, 0x0100_0000, 0x0100_0000, 0x0100_0002];
/// // No atoms and one action, (union x7 x3).
/// let rule = [0x0400_0001_u32, 0x0200_0005, 0x4000_0007, 0x4000_0003];
/// let mut output = [0; 4];
///
/// let free = free_vars(Signature(&signature), Flat(&rule), Output(&mut output))?;
/// assert_eq!(free, [0x4000_0003, 0x4000_0007]);
/// # Ok::<(), tulgarent::Refusal>(())
/// ```
///
/// A written rule is no flat one, so this does not compile:
///
/// ```compile_fail,E0308
/// # use tulgarent::{Output, Signature, Written, free_vars};
/// # let (signature, rule, mut output) = ([0_u32; 5], [0_u32; 4], [0_u32; 4]);
/// let free = free_vars(Signature(&signature), Written(&rule), Output(&mut output))?;
/// # Ok::<(), tulgarent::Refusal>(())
/// ```
///
/// # Errors
/// Refusals 1, 4, 5, 10, 11 and 12, and over bytes 14.
pub fn free_vars<'o, T: Element>(
    signature: Signature<'_, T>,
    rule: Flat<'_, T>,
    output: Output<'o, T>,
) -> Result<&'o [T], Refusal> {
    let Output(output) = output;
    raw::free_vars(signature, rule, Output(output)).written(output)
}

/// The archive's answers as they are, number 0 for acceptance: for tools that look at every number.
pub mod raw {
    use super::{Counters, Flat, Output, Scratch, Signature, Written};
    use crate::abi::{self, Element, bytes_of, bytes_of_mut};
    use crate::answer::Answer;

    /// [`crate::lower`], with the answer as it is.
    ///
    /// ```
    /// use tulgarent::{Counters, Output, Scratch, Signature, Written, raw};
    ///
    /// let (mut counters, mut output, mut scratch) = ([0_u8; 0], [0; 0], [0; 0]);
    /// let (counters, output) = (Counters(&mut counters), Output(&mut output));
    /// let answer = raw::lower(Signature(&[]), Written(&[]), counters, output, Scratch(&mut scratch));
    /// assert_eq!((answer.number, answer.place), (1, 0));
    /// ```
    pub fn lower<T: Element>(
        signature: Signature<'_, T>,
        rule: Written<'_, T>,
        counters: Counters<'_, T>,
        output: Output<'_, T>,
        scratch: Scratch<'_, T>,
    ) -> Answer {
        abi::lower(
            bytes_of(signature.0),
            bytes_of(rule.0),
            bytes_of_mut(counters.0),
            bytes_of_mut(output.0),
            bytes_of_mut(scratch.0),
        )
    }

    /// [`crate::settle`], with the answer as it is.
    ///
    /// ```
    /// use tulgarent::{Flat, Output, Scratch, Signature, raw};
    ///
    /// let answer = raw::settle(Signature(&[0_u8; 3]), Flat(&[]), Output(&mut []), Scratch(&mut []));
    /// assert_eq!((answer.number, answer.place), (14, 0));
    /// ```
    pub fn settle<T: Element>(
        signature: Signature<'_, T>,
        rule: Flat<'_, T>,
        output: Output<'_, T>,
        scratch: Scratch<'_, T>,
    ) -> Answer {
        abi::settle(bytes_of(signature.0), bytes_of(rule.0), bytes_of_mut(output.0), bytes_of_mut(scratch.0))
    }

    /// [`crate::free_vars`], with the answer as it is.
    ///
    /// ```
    /// use tulgarent::{Flat, Output, Signature, raw};
    ///
    /// let answer = raw::free_vars(Signature(&[0_u32; 5]), Flat(&[]), Output(&mut []));
    /// assert_eq!((answer.number, answer.place), (1, 0));
    /// ```
    pub fn free_vars<T: Element>(signature: Signature<'_, T>, rule: Flat<'_, T>, output: Output<'_, T>) -> Answer {
        abi::free_vars(bytes_of(signature.0), bytes_of(rule.0), bytes_of_mut(output.0))
    }
}
