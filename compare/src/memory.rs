//! The memory that is lent: slices between guards, at any alignment, with dirt in them.

use crate::case::{Case, Five};
use crate::draw::Draw;
use crate::words::{SCRATCH_WORDS, action, call, header, literal, name};

/// Bytes before and after a slice that no call may touch.
const GUARD: usize = 64;
const GUARD_BYTE: u8 = 0xc3;
/// Offsets count from an address that is a multiple of this.
const ALIGNMENT: usize = 8;

/// A slice between guards.
#[derive(Default)]
pub struct Region {
    memory: Vec<u8>,
    start: usize,
    length: usize,
}

impl Region {
    /// Sets up guards and a slice that holds `contents`.
    pub fn hold(&mut self, offset: u8, contents: &[u8]) {
        let whole = ALIGNMENT + usize::from(offset) + GUARD + contents.len() + GUARD;
        if self.memory.len() < whole {
            self.memory.resize(whole, 0);
        }
        self.start = self.memory.as_ptr().align_offset(ALIGNMENT) % ALIGNMENT + usize::from(offset) + GUARD;
        self.length = contents.len();
        let (start, end) = (self.start, self.start + self.length);
        self.memory[start - GUARD..start].fill(GUARD_BYTE);
        self.memory[start..end].copy_from_slice(contents);
        self.memory[end..end + GUARD].fill(GUARD_BYTE);
    }

    pub fn slice(&self) -> &[u8] {
        &self.memory[self.start..self.start + self.length]
    }

    pub fn slice_mut(&mut self) -> &mut [u8] {
        &mut self.memory[self.start..self.start + self.length]
    }

    pub fn guards_hold(&self) -> bool {
        let (start, end) = (self.start, self.start + self.length);
        let guards = [&self.memory[start - GUARD..start], &self.memory[end..end + GUARD]];
        guards.iter().all(|guard| guard.iter().all(|&byte| byte == GUARD_BYTE))
    }
}

/// What the slices hold before a call.
pub struct Contents<'a> {
    pub signature: Vec<u8>,
    pub rule: Vec<u8>,
    pub counters: Vec<u8>,
    pub output: &'a [u8],
    pub scratch: &'a [u8],
}

/// Long runs of bytes to fill output and scratch from. A choice's remainder by their number says which one the output has.
pub struct Dirt([Vec<u8>; RUNS]);

pub const RUNS: usize = 4;

/// Where in a run a slice's dirt may begin.
const STARTS: usize = 4_096;
/// Words of the longest output or scratch that is lent.
pub const LONGEST_WORDS: usize = SCRATCH_WORDS + 63;
/// The longest slice that is filled: such a one, and less than a word past it.
const LONGEST: usize = 4 * (LONGEST_WORDS + 1);

impl Dirt {
    /// All zeros, all ones, words that could stand in a record, and bytes by chance.
    pub fn new() -> Dirt {
        let mut draw = Draw::of_case(0, "dirt", 0);
        let length = STARTS + LONGEST;
        let mut likely = Vec::with_capacity(length + 4);
        while likely.len() < length {
            likely.extend(likely_word(&mut draw).to_le_bytes());
        }
        let chance = (0..length).map(|_| draw.word() as u8).collect();
        Dirt([vec![0; length], vec![0xff; length], likely, chance])
    }

    /// What a slice of so many bytes holds. Two different slices of a case get different runs or places.
    fn bytes(&self, choice: u32, length: usize) -> &[u8] {
        let run = &self.0[choice as usize % RUNS];
        let start = choice as usize / RUNS % STARTS;
        &run[start..start + length]
    }

    pub fn contents(&self, case: &Case) -> Contents<'_> {
        let lengths: Five<usize> = case.lengths();
        Contents {
            signature: case.signature_bytes(),
            rule: case.rule_bytes(),
            counters: case.counters_bytes(),
            output: self.bytes(case.dirt, lengths.output),
            scratch: self.bytes(case.dirt.rotate_left(16), lengths.scratch),
        }
    }
}

impl Default for Dirt {
    fn default() -> Dirt {
        Dirt::new()
    }
}

/// A word that a careless reader of scratch would take for its own.
fn likely_word(draw: &mut Draw) -> u32 {
    match draw.below(6) {
        0 => name(draw.below(8)),
        1 => literal(draw.below(4)),
        2 => call(draw.below(4), draw.between(0, 3)),
        3 => header(draw.between(0, 3), draw.between(0, 3)),
        4 => action(1 + draw.below(8)),
        _ => draw.below(600),
    }
}

#[cfg(test)]
mod tests {
    use super::{ALIGNMENT, Dirt, Region};
    use crate::case::{Call, Case};
    use crate::records::Signature;

    #[test]
    fn a_slice_stands_where_it_is_asked_to() {
        let mut region = Region::default();
        for (offset, length) in [(0, 0), (1, 5), (7, 4_096), (3, 12)] {
            let contents = vec![1; length];
            region.hold(offset, &contents);
            assert_eq!(region.slice(), contents);
            assert_eq!(region.slice().as_ptr().addr() % ALIGNMENT, usize::from(offset));
            assert!(region.guards_hold());
        }
    }

    #[test]
    fn a_step_outside_is_seen() {
        for outside in [-1, 12] {
            let mut region = Region::default();
            region.hold(2, &[0; 12]);
            let place = region.start.strict_add_signed(outside);
            region.memory[place] ^= 1;
            assert!(!region.guards_hold());
        }
    }

    #[test]
    fn dirt_is_as_long_as_what_is_lent() {
        let dirt = Dirt::new();
        for choice in [0, 1, 2, 3, 4_095 * 4 + 3, u32::MAX] {
            let case = Case { dirt: choice, ..Case::new(Call::Lower, Signature::trial().words(), vec![0; 512]) };
            let contents = dirt.contents(&case);
            assert_eq!((contents.output.len(), contents.scratch.len()), (4 * 2_048, 4 * 16_384));
        }
    }
}
