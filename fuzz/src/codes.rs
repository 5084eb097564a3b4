//! Words and counters as codes of one byte, where they are common ones, or of five.
//!
//! A byte put in, left out or changed then changes a word or two, and most changes give words that can stand in a record.

use crate::reader::Reader;
use compare::words::{COUNTS, NAMES, action, call, fresh, header, literal, name, signature_word};

/// Codes from here on say that the four bytes behind them are a word.
const ANY: u8 = 0xe0;

/// Words at the ends of what fits, just outside too.
const LIMITS: [u32; 32] = [
    0,
    1,
    u32::MAX,
    0x0080_0000,
    0x4000_0000 + NAMES - 1,
    0x4000_0000 + NAMES,
    0x7fff_ffff,
    0x2000_0000 + COUNTS - 1,
    0x2000_0000 + COUNTS,
    0x3fff_ffff,
    0x1000_0000 + 8 * COUNTS,
    0x1000_0000 + NAMES * COUNTS - 1,
    0x1000_0000 + COUNTS - 1,
    0x1000_0000 + 4,
    0x1000_0000 + 5,
    0x1000_0000 + COUNTS + 4,
    0x1000_0000 + COUNTS + 40,
    0x1fff_ffff,
    0x0800_0000 + COUNTS,
    0x0fff_ffff,
    0x0400_0000 + NAMES,
    0x0400_0000 + NAMES * NAMES - 1,
    0x07ff_ffff,
    0x0400_0000 + 8 * NAMES + 8,
    0x0200_0000 + 16,
    0x03ff_ffff,
    0x0100_0000 + NAMES - 1,
    0x0100_0000 + NAMES,
    0x0100_0000 + NAMES + 1,
    0x01ff_ffff,
    0x8000_0000 + COUNTS - 1,
    0x8000_0000 + NAMES * COUNTS - 1,
];

/// The word of a code of one byte.
fn common(code: u8) -> u32 {
    let low = u32::from(code % 32);
    let (head, count) = (low / 4, low % 4);
    match code / 32 {
        0 => name(low),
        1 => call(head, count as usize),
        2 if low < 8 => literal(low),
        2 if low < 16 => 0x0800_0000 + low - 8,
        2 => action(low - 16),
        3 => fresh(head, count),
        4 => header(head as usize, count as usize),
        5 => signature_word(low),
        _ => LIMITS[low as usize],
    }
}

pub fn read_word(from: &mut Reader) -> u32 {
    match from.byte() {
        ANY.. => from.word(),
        code => common(code),
    }
}

pub fn write_word(word: u32, to: &mut Vec<u8>) {
    match (0..ANY).find(|&code| common(code) == word) {
        Some(code) => to.push(code),
        None => write_any(word, to),
    }
}

/// The counter that the first code of high ones stands for; 65,536 is among them.
const HIGH: u32 = COUNTS - 16;
/// Codes below this are small counters, from it to `ANY` high ones.
const HIGH_CODES: u8 = 0xc0;

pub fn read_counter(from: &mut Reader) -> u32 {
    match from.byte() {
        ANY.. => from.word(),
        code @ HIGH_CODES.. => HIGH + u32::from(code - HIGH_CODES),
        code => code.into(),
    }
}

pub fn write_counter(counter: u32, to: &mut Vec<u8>) {
    match (0..ANY).find(|&code| read_counter(&mut Reader::new(&[code])) == counter) {
        Some(code) => to.push(code),
        None => write_any(counter, to),
    }
}

fn write_any(word: u32, to: &mut Vec<u8>) {
    to.push(ANY);
    to.extend(word.to_le_bytes());
}
