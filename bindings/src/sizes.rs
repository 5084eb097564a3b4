//! How much to lend, and how long a rule may be.

/// Bytes in a word.
pub const WORD_BYTES: usize = size_of::<u32>();
/// Words of scratch that [`lower`](crate::lower) and [`settle`](crate::settle) ask for.
pub const SCRATCH_WORDS: usize = 16_384;
/// The same in bytes.
pub const SCRATCH_BYTES: usize = SCRATCH_WORDS * WORD_BYTES;
/// The longest written rule.
pub const WRITTEN_WORDS: usize = 512;
/// The longest flat rule that is taken as input.
pub const FLAT_WORDS: usize = 1_024;
/// Words of output that suffice for every call and every rule.
pub const RESULT_WORDS: usize = room_to_lower(WRITTEN_WORDS);

const _: () = assert!(RESULT_WORDS >= room_to_settle(FLAT_WORDS) && RESULT_WORDS >= room_for_free_vars(FLAT_WORDS));

/// Words of output that always suffice to lower a written rule of so many words.
///
/// ```
/// assert_eq!(tulgarent::room_to_lower(13), 52);
/// ```
#[must_use]
pub const fn room_to_lower(rule_words: usize) -> usize {
    rule_words.saturating_mul(4)
}

/// Words of output that always suffice to settle a flat rule of so many words.
///
/// ```
/// assert_eq!(tulgarent::room_to_settle(10), 20);
/// ```
#[must_use]
pub const fn room_to_settle(rule_words: usize) -> usize {
    rule_words.saturating_mul(2)
}

/// Words of output that always suffice for the free variables of a flat rule of so many words.
///
/// ```
/// assert_eq!(tulgarent::room_for_free_vars(11), 11);
/// ```
#[must_use]
pub const fn room_for_free_vars(rule_words: usize) -> usize {
    rule_words
}

/// The archive counts in 64 bits. What it counts stands in memory, so it fits; were it ever not so, the largest size is a
/// better answer than a panic.
pub(crate) fn size(count: u64) -> usize {
    usize::try_from(count).unwrap_or(usize::MAX)
}
