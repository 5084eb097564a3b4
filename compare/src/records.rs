//! Records by chance: signatures, written rules and flat rules.

use crate::draw::Draw;
use crate::words::{
    CALL, CONSTRUCTOR, COUNTS, DELETE, EQUALITY, EXPRESSION, FUNCTION, LET, NAMES, PANIC, PRIMITIVE, SET, SUBSUME,
    UNION, action, call, count_of, fresh, header, literal, name, signature_word,
};

/// A signature before it is words.
#[derive(Debug, Clone)]
pub struct Signature {
    pub globals: u32,
    pub value_eq: u32,
    pub union_to_set: bool,
    /// The sort of each head.
    pub sorts: Vec<u32>,
}

impl Signature {
    /// 01's trial signature.
    pub fn trial() -> Signature {
        let sorts = vec![PRIMITIVE, FUNCTION, CONSTRUCTOR, FUNCTION];
        Signature { globals: 1, value_eq: 0, union_to_set: true, sorts }
    }

    /// Few heads and few globals, so that rules meet them often.
    pub fn small(draw: &mut Draw) -> Signature {
        let heads = draw.between(1, 5);
        Signature::of_heads(draw, heads)
    }

    /// Mostly a small one; now and then with very many heads, so that words of high heads occur.
    pub fn any_size(draw: &mut Draw) -> Signature {
        let heads = draw.pick(&[300, NAMES as usize]);
        if draw.once_in(8) { Signature::of_heads(draw, heads) } else { Signature::small(draw) }
    }

    pub fn of_heads(draw: &mut Draw, heads: usize) -> Signature {
        let mut sorts: Vec<u32> = (0..heads).map(|_| draw.below(3)).collect();
        let value_eq = draw.below(heads as u32);
        sorts[value_eq as usize] = PRIMITIVE;
        Signature { globals: draw.below(4), value_eq, union_to_set: !draw.once_in(3), sorts }
    }

    pub fn heads(&self) -> u32 {
        self.sorts.len() as u32
    }

    pub fn words(&self) -> Vec<u32> {
        let front = [self.heads(), self.globals, self.value_eq, self.union_to_set.into()];
        front.iter().chain(&self.sorts).map(|&number| signature_word(number)).collect()
    }
}

/// Writes rules over a signature.
pub struct Writer<'a> {
    draw: &'a mut Draw,
    signature: &'a Signature,
    /// How many names there are besides the globals.
    variables: u32,
    /// How many literals there are.
    literals: u32,
    /// Names that the facts and lets written so far bind.
    bound: Vec<u32>,
}

/// How deep drawn expressions go. Deeper ones are drawn for the limit on depth alone.
const DEPTH: usize = 6;

impl<'a> Writer<'a> {
    pub fn new(draw: &'a mut Draw, signature: &'a Signature) -> Writer<'a> {
        let (variables, literals) = (1 + draw.below(7), 1 + draw.below(3));
        Writer { draw, signature, variables, literals, bound: Vec::new() }
    }

    /// A written rule of exactly so many words.
    pub fn written(&mut self, length: usize) -> Vec<u32> {
        let widest = self.draw.pick(&[4, 8, 8, 16, 40]);
        let for_facts = self.draw.between(0, length - 1);
        let (mut facts, mut actions) = (Vec::new(), Vec::new());
        let mut left = length - 1;
        while left > length - 1 - for_facts {
            let fact = self.fact((left - (length - 1 - for_facts)).min(widest));
            left -= fact.len();
            facts.push(fact);
        }
        while left > 1 {
            let action = self.action(left.min(widest));
            left -= action.len();
            actions.push(action);
        }
        // No action has one word, but a fact can.
        facts.extend((0..left).map(|_| vec![self.leaf()]));
        joined(&facts, &actions)
    }

    /// A fact of at most so many words.
    fn fact(&mut self, room: usize) -> Vec<u32> {
        if room >= 3 && self.draw.once_in(2) {
            let left = self.expr(room - 2, DEPTH);
            let right = self.expr(room - 1 - left.len(), DEPTH);
            let fact = [vec![EQUALITY], left, right].concat();
            self.bind(&fact);
            fact
        } else if self.draw.once_in(12) {
            vec![self.leaf()]
        } else {
            let fact = self.call(room, DEPTH);
            self.bind(&fact);
            fact
        }
    }

    fn bind(&mut self, fact: &[u32]) {
        self.bound.extend(fact.iter().filter(|word| word.leading_zeros() == 1));
    }

    /// An action of at most so many words, at least two.
    fn action(&mut self, room: usize) -> Vec<u32> {
        let codes: &[u32] = if room == 2 {
            &[DELETE, SUBSUME, PANIC, EXPRESSION]
        } else {
            &[LET, SET, DELETE, SUBSUME, UNION, UNION, EXPRESSION, PANIC]
        };
        let code = self.draw.pick(codes);
        let rest = match code {
            LET => self.let_of(room - 1),
            SET => {
                let mut words = self.read_call(room - 2, DEPTH);
                words.extend(self.read(room - 1 - words.len(), DEPTH));
                words
            }
            DELETE | SUBSUME => self.read_call(room - 1, DEPTH),
            UNION => self.union(room - 1),
            PANIC => vec![self.literal()],
            _ => self.read(room - 1, DEPTH),
        };
        [vec![action(code)], rest].concat()
    }

    /// Mostly of a name that is not bound yet.
    fn let_of(&mut self, room: usize) -> Vec<u32> {
        let unbound =
            (0..self.variables + 40).map(|n| name(self.signature.globals + n)).find(|n| !self.bound.contains(n));
        let target = if self.draw.once_in(6) { self.any_name() } else { unbound.unwrap_or(name(NAMES - 1)) };
        let words = [vec![target], self.read(room - 1, DEPTH)].concat();
        self.bound.push(target);
        words
    }

    /// Often a name and a call, in either order, since those may become a set.
    fn union(&mut self, room: usize) -> Vec<u32> {
        let (left, right) = if self.draw.once_in(3) {
            let left = self.read(room - 1, DEPTH);
            let right = self.read(room - left.len(), DEPTH);
            (left, right)
        } else {
            (vec![self.read_name()], self.read_call(room - 1, DEPTH))
        };
        if self.draw.once_in(2) { [left, right].concat() } else { [right, left].concat() }
    }

    /// An expression of a fact: any names.
    fn expr(&mut self, room: usize, depth: usize) -> Vec<u32> {
        if room > 1 && depth > 1 && !self.draw.once_in(3) { self.call(room, depth) } else { vec![self.leaf()] }
    }

    fn call(&mut self, room: usize, depth: usize) -> Vec<u32> {
        self.call_of(room, depth, Writer::expr)
    }

    /// An expression of an action: mostly names that can be read there.
    fn read(&mut self, room: usize, depth: usize) -> Vec<u32> {
        if room > 1 && depth > 1 && self.draw.once_in(2) {
            self.read_call(room, depth)
        } else if self.draw.once_in(4) {
            vec![self.literal()]
        } else {
            vec![self.read_name()]
        }
    }

    fn read_call(&mut self, room: usize, depth: usize) -> Vec<u32> {
        self.call_of(room, depth, Writer::read)
    }

    fn call_of(&mut self, room: usize, depth: usize, argument: fn(&mut Self, usize, usize) -> Vec<u32>) -> Vec<u32> {
        let most = if self.draw.once_in(16) { room - 1 } else { (room - 1).min(3) };
        let count = self.draw.between(0, most);
        let mut words = vec![call(self.draw.below(self.signature.heads()), count)];
        for later in (0..count).rev() {
            let space = room - words.len() - later;
            words.extend(argument(self, space, depth - 1));
        }
        words
    }

    fn leaf(&mut self) -> u32 {
        if self.draw.once_in(4) { self.literal() } else { self.any_name() }
    }

    fn read_name(&mut self) -> u32 {
        if self.bound.is_empty() || self.draw.once_in(24) {
            self.any_name()
        } else if self.signature.globals > 0 && self.draw.once_in(6) {
            name(self.draw.below(self.signature.globals))
        } else {
            self.draw.pick(&self.bound)
        }
    }

    fn any_name(&mut self) -> u32 {
        name(self.draw.below(self.signature.globals + self.variables).min(NAMES - 1))
    }

    fn literal(&mut self) -> u32 {
        literal(self.draw.below(self.literals))
    }

    /// A flat rule of so many words, or one less where no atom can take the last one.
    pub fn flat(&mut self, length: usize) -> Vec<u32> {
        let for_atoms = self.draw.between(0, length - 1);
        let (mut atoms, mut actions) = (Vec::new(), Vec::new());
        let mut left = length - 1;
        while left > 1 && left > length - 1 - for_atoms {
            let atom = self.atom(left);
            left -= atom.len();
            atoms.push(atom);
        }
        while left > 1 {
            let action = self.core_action(left);
            left -= action.len();
            actions.push(action);
        }
        if left == 1
            && let Some(atom) = atoms.iter_mut().find(|atom| atom[0] != EQUALITY)
        {
            atom[0] += 1;
            atom.push(self.term());
        }
        joined(&atoms, &actions)
    }

    /// An atom of at most so many words, at least two.
    fn atom(&mut self, room: usize) -> Vec<u32> {
        if room >= 3 && self.draw.once_in(4) {
            return [vec![EQUALITY], self.terms(2)].concat();
        }
        let most = if self.draw.once_in(24) { room - 1 } else { (room - 1).min(3) };
        let count = self.draw.between(1, most);
        [vec![call(self.draw.below(self.signature.heads()), count)], self.terms(count)].concat()
    }

    fn core_action(&mut self, room: usize) -> Vec<u32> {
        let codes: &[u32] =
            if room == 2 { &[DELETE, SUBSUME, PANIC] } else { &[LET, SET, DELETE, SUBSUME, UNION, CALL, PANIC] };
        let code = self.draw.pick(codes);
        let rest = match code {
            LET => vec![self.target(), self.term()],
            SET => self.core_call(room - 2, 1),
            DELETE | SUBSUME => self.core_call(room - 1, 0),
            UNION => self.terms(2),
            PANIC => vec![self.literal()],
            _ => [vec![self.target()], self.core_call(room - 2, 0)].concat(),
        };
        [vec![action(code)], rest].concat()
    }

    /// A kind 3 word, its terms, and so many values behind them that it does not count.
    fn core_call(&mut self, room: usize, values: usize) -> Vec<u32> {
        let count = self.draw.between(0, (room - 1).min(3));
        [vec![call(self.draw.below(self.signature.heads()), count)], self.terms(count + values)].concat()
    }

    fn terms(&mut self, count: usize) -> Vec<u32> {
        (0..count).map(|_| self.term()).collect()
    }

    fn term(&mut self) -> u32 {
        if self.draw.once_in(5) { self.literal() } else { self.target() }
    }

    /// A variable or a global's name.
    fn target(&mut self) -> u32 {
        if self.draw.once_in(3) {
            fresh(self.draw.below(self.signature.heads()), self.draw.below(3))
        } else {
            self.any_name()
        }
    }
}

/// A rule of these facts or atoms and these actions.
pub fn joined(body: &[Vec<u32>], actions: &[Vec<u32>]) -> Vec<u32> {
    [vec![header(body.len(), actions.len())], body.concat(), actions.concat()].concat()
}

/// Changes a few words, drops some, adds some.
pub fn spoil(draw: &mut Draw, words: &mut Vec<u32>) {
    for _ in 0..draw.pick(&[1, 1, 1, 2, 3]) {
        let place = draw.between(0, words.len());
        if place == words.len() {
            words.push(any_word(draw));
            continue;
        }
        match draw.below(8) {
            0 => drop(words.remove(place)),
            1 => words.insert(place, any_word(draw)),
            2 => words.truncate(place),
            3 => words.swap(0, place),
            4 => words[place] ^= 1 << draw.below(32),
            5 => words[place] = words[place].wrapping_add(1),
            6 if count_of(words[place]) > 0 => words[place] -= 1,
            _ => words[place] = any_word(draw),
        }
    }
}

/// Every kind is as likely, with small payloads, payloads around the limits, and any.
pub fn any_word(draw: &mut Draw) -> u32 {
    let top = 0x8000_0000_u32 >> draw.below(10);
    let payload = match draw.below(4) {
        0 => draw.below(4),
        1 => draw.below(8) * COUNTS + draw.below(4),
        2 => draw.pick(&[NAMES - 1, NAMES, COUNTS - 1, COUNTS, NAMES * NAMES - 1, NAMES * NAMES, NAMES * COUNTS - 1]),
        _ => draw.word(),
    };
    top | (payload & (top - 1))
}
