//! Words by their kinds, and document 01's limits.

/// The most words a written rule may have.
pub const WRITTEN_WORDS: usize = 512;
/// The most words a flat rule may have.
pub const FLAT_WORDS: usize = 1_024;
pub const SCRATCH_WORDS: usize = 16_384;
/// Names, heads, and the numbers in a rule header are below this.
pub const NAMES: u32 = 4_096;
/// Literals and the counts of fresh variables are below this.
pub const COUNTS: u32 = 65_536;
/// An expression word stands inside fewer calls than this.
pub const CALLS: usize = 32;

pub const LET: u32 = 1;
pub const SET: u32 = 2;
pub const DELETE: u32 = 3;
pub const SUBSUME: u32 = 4;
pub const UNION: u32 = 5;
pub const PANIC: u32 = 6;
pub const CALL: u32 = 7;
pub const EXPRESSION: u32 = 8;

/// The sort of a head.
pub const FUNCTION: u32 = 0;
pub const CONSTRUCTOR: u32 = 1;
pub const PRIMITIVE: u32 = 2;

/// An equality of two.
pub const EQUALITY: u32 = 0x0800_0002;

pub fn fresh(head: u32, count: u32) -> u32 {
    0x8000_0000 + head * COUNTS + count
}

pub fn name(number: u32) -> u32 {
    0x4000_0000 + number
}

pub fn literal(number: u32) -> u32 {
    0x2000_0000 + number
}

pub fn call(head: u32, count: usize) -> u32 {
    0x1000_0000 + head * COUNTS + count as u32
}

pub fn header(body: usize, actions: usize) -> u32 {
    0x0400_0000 + body as u32 * NAMES + actions as u32
}

pub fn action(code: u32) -> u32 {
    0x0200_0000 + code
}

pub fn signature_word(number: u32) -> u32 {
    0x0100_0000 + number
}

/// Whether it is a kind 3 word.
pub fn is_call(word: u32) -> bool {
    word.leading_zeros() == 3
}

/// A kind 3 word's count, else 0.
pub fn count_of(word: u32) -> usize {
    if is_call(word) { (word % COUNTS) as usize } else { 0 }
}

pub fn bytes(words: &[u32]) -> Vec<u8> {
    words.iter().flat_map(|word| word.to_le_bytes()).collect()
}

/// The whole words of these bytes.
pub fn words_of(bytes: &[u8]) -> Vec<u32> {
    bytes.as_chunks().0.iter().map(|word| u32::from_le_bytes(*word)).collect()
}

/// Eight digits a word, one space between.
pub fn hex(words: &[u32]) -> String {
    words.iter().map(|word| format!("{word:08x}")).collect::<Vec<_>>().join(" ")
}

/// The words of such a text.
pub fn record(text: &str) -> Vec<u32> {
    text.split_whitespace().map(|word| u32::from_str_radix(word, 16).expect("eight digits")).collect()
}
