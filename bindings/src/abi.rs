//! The one module with `unsafe`: the functions of the archive, and words seen as bytes.

use crate::answer::Answer;
use crate::word::Word;

/// The declarations of `include/tulgarent.h`. A slice goes over as pointer and length, and the archive asks no alignment.
mod archive {
    use super::Answer;

    unsafe extern "C" {
        pub(super) fn tulgarent_lower(
            signature: *const u8,
            signature_len: usize,
            rule: *const u8,
            rule_len: usize,
            counters: *mut u8,
            counters_len: usize,
            output: *mut u8,
            output_len: usize,
            scratch: *mut u8,
            scratch_len: usize,
        ) -> Answer;

        pub(super) fn tulgarent_settle(
            signature: *const u8,
            signature_len: usize,
            rule: *const u8,
            rule_len: usize,
            output: *mut u8,
            output_len: usize,
            scratch: *mut u8,
            scratch_len: usize,
        ) -> Answer;

        pub(super) fn tulgarent_free_vars(
            signature: *const u8,
            signature_len: usize,
            rule: *const u8,
            rule_len: usize,
            output: *mut u8,
            output_len: usize,
        ) -> Answer;
    }
}

/// Lowers a written rule. The slices are byte slices in the archive's own order.
pub(crate) fn lower(
    signature: &[u8],
    rule: &[u8],
    counters: &mut [u8],
    output: &mut [u8],
    scratch: &mut [u8],
) -> Answer {
    // SAFETY: each pointer is a slice's own with its length. Rust keeps the mutable ones apart from all others, and the
    // archive reads and writes within the lengths and keeps nothing.
    unsafe {
        archive::tulgarent_lower(
            signature.as_ptr(),
            signature.len(),
            rule.as_ptr(),
            rule.len(),
            counters.as_mut_ptr(),
            counters.len(),
            output.as_mut_ptr(),
            output.len(),
            scratch.as_mut_ptr(),
            scratch.len(),
        )
    }
}

/// Settles a flat rule.
pub(crate) fn settle(signature: &[u8], rule: &[u8], output: &mut [u8], scratch: &mut [u8]) -> Answer {
    // SAFETY: as in `lower`.
    unsafe {
        archive::tulgarent_settle(
            signature.as_ptr(),
            signature.len(),
            rule.as_ptr(),
            rule.len(),
            output.as_mut_ptr(),
            output.len(),
            scratch.as_mut_ptr(),
            scratch.len(),
        )
    }
}

/// Writes the free variables of a flat rule's actions.
pub(crate) fn free_vars(signature: &[u8], rule: &[u8], output: &mut [u8]) -> Answer {
    // SAFETY: as in `lower`.
    unsafe {
        archive::tulgarent_free_vars(
            signature.as_ptr(),
            signature.len(),
            rule.as_ptr(),
            rule.len(),
            output.as_mut_ptr(),
            output.len(),
        )
    }
}

// Words are seen as bytes where they stand, so the machine's order of bytes must be the records'.
#[cfg(not(target_endian = "little"))]
compile_error!("words are four bytes, lowest byte first: this crate needs a little-endian machine");

mod sealed {
    /// # Safety
    /// Every byte of such a value is part of it, and any bytes are such a value.
    pub unsafe trait Plain: Copy {}

    // SAFETY: a number's bytes are the number, whatever they are.
    unsafe impl Plain for u8 {}
    // SAFETY: as for `u8`.
    unsafe impl Plain for u32 {}
    // SAFETY: it is a `u32` in memory, and every `u32` is a word.
    unsafe impl Plain for super::Word {}
}

/// What records are slices of: words, as [`Word`] or as `u32`, or bytes, four a word, lowest byte first.
///
/// Words are lent where they stand; nothing is copied. Byte slices may stand at any alignment.
#[diagnostic::on_unimplemented(
    message = "records are slices of `Word`, `u32` or `u8`, not of `{Self}`",
    note = "numbers in a list need a type: `[0x0400_1000_u32, ..]`"
)]
pub trait Element: sealed::Plain {
    /// How many of them a word has.
    const IN_A_WORD: usize;
}

impl Element for u8 {
    const IN_A_WORD: usize = crate::WORD_BYTES;
}

impl Element for u32 {
    const IN_A_WORD: usize = 1;
}

impl Element for Word {
    const IN_A_WORD: usize = 1;
}

/// The bytes of the record, where they stand.
pub(crate) fn bytes_of<T: Element>(record: &[T]) -> &[u8] {
    // SAFETY: the same memory under the same borrow. `Plain` says that all of it is bytes, and bytes ask no alignment.
    unsafe { core::slice::from_raw_parts(record.as_ptr().cast(), size_of_val(record)) }
}

/// The bytes of the record, where they stand, to be written.
pub(crate) fn bytes_of_mut<T: Element>(record: &mut [T]) -> &mut [u8] {
    // SAFETY: as in `bytes_of`, and `Plain` says that any bytes may be written there.
    unsafe { core::slice::from_raw_parts_mut(record.as_mut_ptr().cast(), size_of_val(record)) }
}

/// The words that these bits are, where they stand.
pub(crate) const fn words_in(bits: &[u32]) -> &[Word] {
    // SAFETY: the same memory under the same borrow, and a `Word` is a `u32` in memory.
    unsafe { core::slice::from_raw_parts(bits.as_ptr().cast(), bits.len()) }
}

/// The bits of these words, where they stand.
pub(crate) const fn bits_in(words: &[Word]) -> &[u32] {
    // SAFETY: as in `words_in`.
    unsafe { core::slice::from_raw_parts(words.as_ptr().cast(), words.len()) }
}
