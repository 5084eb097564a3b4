//! Records that are well formed whatever the bytes: each byte chooses among what may stand next.

use crate::codes::read_word;
use crate::input::Records;
use crate::reader::Reader;
use compare::case::Call;
use compare::records::{Signature, joined};
use compare::words::{
    CALL, COUNTS, DELETE, EQUALITY, EXPRESSION, LET, NAMES, PANIC, PRIMITIVE, SET, SUBSUME, UNION, action, call, fresh,
    literal, name,
};

/// Names besides the limits that are used, few so that they meet.
const FEW_NAMES: u32 = 12;
/// Calls inside calls go no deeper than this, two more than are allowed.
const DEPTH: usize = 34;
/// Rules are ended when they have so many words: some more than a rule may have.
const WRITTEN_END: usize = 510;
const FLAT_END: usize = 1_022;
/// Bytes from here on ask for something out of the ordinary.
const RARE: u8 = 0xf8;

pub fn spell(called: Call, from: &mut Reader) -> Records {
    let signature = signature(from);
    // Only lower takes counters.
    let heads = if called == Call::Lower { signature.sorts.len() } else { 0 };
    let counters = counters(from, heads);
    let (spoilt_signature, spoilt_rule) = (from.byte(), from.byte());
    let mut signature_words = signature.words();
    spoil(spoilt_signature, from, &mut signature_words);
    let damage = Damage::read(spoilt_rule, from);
    let mut speller = Speller { from, heads: signature.heads(), bound: Vec::new() };
    let mut rule = if called == Call::Lower { speller.written() } else { speller.flat() };
    damage.apply(&mut rule);
    Records { signature: signature_words, counters, rule }
}

fn signature(from: &mut Reader) -> Signature {
    let heads = match from.byte() {
        rare @ RARE.. => [NAMES, NAMES - 1, NAMES + 1, 600, 0, 33, 17, 9][usize::from(rare - RARE)],
        byte => 1 + u32::from(byte % 8),
    };
    let globals = match from.byte() {
        rare @ RARE.. => [NAMES, NAMES - 1, NAMES + 1, 600, 5, 6, 7, 8][usize::from(rare - RARE)],
        byte => u32::from(byte % 4),
    };
    let (byte, kinds) = (from.byte(), from.small());
    let value_eq = u32::from(byte % 64) % heads.max(1);
    let mut sorts: Vec<u32> = (0..heads).map(|head| u32::from(kinds >> (2 * (head % 8)) & 3) % 3).collect();
    // Once in four value-eq is what the byte says, which most signatures are turned back for.
    if byte < 0xc0
        && let Some(sort) = sorts.get_mut(value_eq as usize)
    {
        *sort = PRIMITIVE;
    }
    Signature { globals, value_eq, union_to_set: byte & 64 == 0, sorts }
}

/// One head has a high counter, or all have.
fn counters(from: &mut Reader, heads: usize) -> Vec<u32> {
    let (byte, number) = (from.byte(), from.byte());
    let high = [0, 0, 0, 1, COUNTS - 1, COUNTS, COUNTS - 4, u32::MAX][usize::from(byte % 8)];
    let at = usize::from(byte / 8);
    let count = match number {
        rare @ RARE.. => (heads + usize::from(rare - RARE)).saturating_sub(3),
        _ => heads,
    };
    (0..count).map(|head| if at >= 8 || at == head { high } else { 0 }).collect()
}

/// A change to a record that is well formed.
struct Damage {
    kind: u8,
    place: u8,
    word: u32,
}

impl Damage {
    /// Only a byte that asks for damage takes bytes to say which.
    fn read(kind: u8, from: &mut Reader) -> Damage {
        if kind < RARE {
            return Damage { kind: 0, place: 0, word: 0 };
        }
        Damage { kind, place: from.byte(), word: read_word(from) }
    }

    fn apply(&self, words: &mut Vec<u32>) {
        let place = usize::from(self.place) * words.len() / 256;
        if self.kind < RARE || words.is_empty() {
            return;
        }
        match self.kind - RARE {
            0 => drop(words.remove(place)),
            1 => words.insert(place, self.word),
            2 => words.truncate(place),
            3 => words.push(self.word),
            4 => words[place] ^= 1 << (self.word % 32),
            5 => words[place] = words[place].wrapping_add(1),
            6 => words[place] = words[place].wrapping_sub(1),
            _ => words[place] = self.word,
        }
    }
}

fn spoil(kind: u8, from: &mut Reader, words: &mut Vec<u32>) {
    Damage::read(kind, from).apply(words);
}

struct Speller<'a, 'b> {
    from: &'a mut Reader<'b>,
    heads: u32,
    /// Names that facts and lets bind so far.
    bound: Vec<u32>,
}

/// Bytes with this bit begin an action, others a fact or atom.
const ACTS: u8 = 0x80;

impl Speller<'_, '_> {
    fn written(&mut self) -> Vec<u32> {
        self.rule(WRITTEN_END, Speller::fact, Speller::action)
    }

    fn flat(&mut self) -> Vec<u32> {
        self.rule(FLAT_END, Speller::atom, Speller::core_action)
    }

    /// Facts and actions come in any order in the input, so that one more is one more piece of it.
    fn rule(
        &mut self,
        end: usize,
        fact: fn(&mut Self, u8) -> Vec<u32>,
        action: fn(&mut Self, u8) -> Vec<u32>,
    ) -> Vec<u32> {
        let (mut facts, mut actions) = (Vec::new(), Vec::new());
        let mut words = 1;
        while !self.from.is_empty() && words < end {
            let byte = self.from.byte();
            let (list, part) =
                if byte & ACTS == 0 { (&mut facts, fact(self, byte)) } else { (&mut actions, action(self, byte)) };
            words += part.len();
            list.push(part);
        }
        joined(&facts, &actions)
    }

    fn fact(&mut self, byte: u8) -> Vec<u32> {
        let fact = match byte % 8 {
            0..3 => [vec![EQUALITY], self.expr(DEPTH), self.expr(DEPTH)].concat(),
            3..7 => self.call(DEPTH, Speller::expr),
            _ => self.expr(DEPTH),
        };
        // A fact that is a leaf alone binds nothing.
        if fact.len() > 1 {
            self.bound.extend(fact.iter().filter(|word| word.leading_zeros() == 1));
        }
        fact
    }

    fn action(&mut self, byte: u8) -> Vec<u32> {
        let code = [LET, SET, DELETE, SUBSUME, UNION, PANIC, EXPRESSION, UNION][usize::from(byte % 8)];
        let rest = match code {
            LET => self.let_of(),
            SET => [self.call(DEPTH, Speller::read), self.read(DEPTH)].concat(),
            DELETE | SUBSUME => self.call(DEPTH, Speller::read),
            UNION => [self.read(DEPTH), self.read(DEPTH)].concat(),
            PANIC => vec![literal(u32::from(self.from.byte()))],
            _ => self.read(DEPTH),
        };
        [vec![action(code)], rest].concat()
    }

    /// Mostly of a name that is not bound.
    fn let_of(&mut self) -> Vec<u32> {
        let byte = self.from.byte();
        let unbound = (0..NAMES).map(|number| name(4 + number)).find(|name| !self.bound.contains(name));
        let target = if byte < 0xc0 { unbound.unwrap_or(name(0)) } else { any_name(byte) };
        let words = [vec![target], self.read(DEPTH)].concat();
        self.bound.push(target);
        words
    }

    /// An expression of a fact.
    fn expr(&mut self, depth: usize) -> Vec<u32> {
        match self.from.byte() {
            byte @ 0..0x80 => vec![leaf(byte)],
            byte => self.call_of(byte, depth, Speller::expr),
        }
    }

    /// An expression of an action: its names are mostly bound ones.
    fn read(&mut self, depth: usize) -> Vec<u32> {
        match self.from.byte() {
            byte @ 0..0x50 if !self.bound.is_empty() => vec![self.bound[usize::from(byte) % self.bound.len()]],
            byte @ 0..0x80 => vec![leaf(byte)],
            byte => self.call_of(byte, depth, Speller::read),
        }
    }

    fn call(&mut self, depth: usize, argument: fn(&mut Self, usize) -> Vec<u32>) -> Vec<u32> {
        let byte = self.from.byte();
        self.call_of(byte, depth, argument)
    }

    fn call_of(&mut self, byte: u8, depth: usize, argument: fn(&mut Self, usize) -> Vec<u32>) -> Vec<u32> {
        let count = if depth == 0 { 0 } else { self.count(byte) };
        let mut words = vec![call(self.head(byte), count)];
        for _ in 0..count {
            words.extend(argument(self, depth - 1));
        }
        words
    }

    fn head(&self, byte: u8) -> u32 {
        u32::from(byte % 8) % self.heads.max(1)
    }

    /// Mostly up to three; a byte more says how many else.
    fn count(&mut self, byte: u8) -> usize {
        match byte / 8 % 16 {
            15 => usize::from(self.from.byte() % 64),
            few => usize::from(few % 4),
        }
    }

    fn atom(&mut self, byte: u8) -> Vec<u32> {
        if byte.is_multiple_of(4) {
            return [vec![EQUALITY], self.terms(2)].concat();
        }
        let byte = self.from.byte();
        let count = self.count(byte).max(1);
        [vec![call(self.head(byte), count)], self.terms(count)].concat()
    }

    fn core_action(&mut self, byte: u8) -> Vec<u32> {
        let code = [LET, SET, DELETE, SUBSUME, UNION, PANIC, CALL, CALL][usize::from(byte % 8)];
        let rest = match code {
            LET => vec![self.target(), self.term()],
            SET => self.core_call(1),
            DELETE | SUBSUME => self.core_call(0),
            UNION => self.terms(2),
            PANIC => vec![literal(u32::from(self.from.byte()))],
            _ => [vec![self.target()], self.core_call(0)].concat(),
        };
        [vec![action(code)], rest].concat()
    }

    /// A kind 3 word, its terms, and so many values behind them that it does not count.
    fn core_call(&mut self, values: usize) -> Vec<u32> {
        let byte = self.from.byte();
        let count = self.count(byte);
        [vec![call(self.head(byte), count)], self.terms(count + values)].concat()
    }

    fn terms(&mut self, count: usize) -> Vec<u32> {
        (0..count).map(|_| self.term()).collect()
    }

    fn term(&mut self) -> u32 {
        match self.from.byte() {
            byte @ 0..0x80 => leaf(byte),
            byte => self.fresh(byte),
        }
    }

    /// A variable or a global's name.
    fn target(&mut self) -> u32 {
        match self.from.byte() {
            byte @ 0..0x80 => any_name(byte),
            byte => self.fresh(byte),
        }
    }

    fn fresh(&self, byte: u8) -> u32 {
        let count = if byte >= RARE { COUNTS - 1 } else { u32::from(byte / 8 % 4) };
        fresh(self.head(byte), count)
    }
}

fn leaf(byte: u8) -> u32 {
    match byte {
        0..0x58 | 0x80.. => any_name(byte),
        0x58..0x78 => literal(u32::from(byte % 4)),
        _ => [name(NAMES - 1), name(NAMES - 2), literal(COUNTS - 1), literal(COUNTS - 2)][usize::from(byte % 4)],
    }
}

fn any_name(byte: u8) -> u32 {
    name(u32::from(byte) % FEW_NAMES)
}
