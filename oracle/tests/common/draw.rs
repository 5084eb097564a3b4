//! Records by chance, the same ones each time: a seed fixes all that follows.

pub struct Draw(u64);

impl Draw {
    pub fn new(seed: u64) -> Draw {
        Draw(seed.wrapping_mul(0x9e37_79b9_7f4a_7c15) | 1)
    }

    /// Below `limit`, by a xorshift generator.
    pub fn below(&mut self, limit: u32) -> u32 {
        self.0 ^= self.0 << 13;
        self.0 ^= self.0 >> 7;
        self.0 ^= self.0 << 17;
        ((self.0 >> 33) % u64::from(limit)) as u32
    }

    /// Few heads and few globals, so that rules meet them often. Head 0 is value-eq.
    pub fn signature(&mut self) -> Vec<u32> {
        let heads = 1 + self.below(5);
        let globals = self.below(3);
        let flag = self.below(2);
        let mut words = vec![0x0100_0000 + heads, 0x0100_0000 + globals, 0x0100_0000, 0x0100_0000 + flag, 0x0100_0002];
        words.extend((1..heads).map(|_| 0x0100_0000 + self.below(3)));
        words
    }

    pub fn written_rule(&mut self, heads: u32) -> Vec<u32> {
        let (facts, actions) = (self.below(7), self.below(4));
        let mut words = vec![0x0400_0000 + facts * 4_096 + actions];
        for _ in 0..facts {
            match self.below(8) {
                0 => self.expr(heads, 4, &mut words),
                1..=3 => self.call(heads, 3, &mut words),
                _ => {
                    words.push(0x0800_0002);
                    self.expr(heads, 2, &mut words);
                    self.expr(heads, 3, &mut words);
                }
            }
        }
        for _ in 0..actions {
            self.written_action(heads, &mut words);
        }
        words
    }

    fn written_action(&mut self, heads: u32, words: &mut Vec<u32>) {
        let code = [1, 2, 3, 4, 5, 5, 6, 8][self.below(8) as usize];
        words.push(0x0200_0000 + code);
        match code {
            1 => {
                let name = self.name();
                words.push(name);
                self.expr(heads, 2, words);
            }
            2 => {
                self.call(heads, 2, words);
                self.expr(heads, 2, words);
            }
            3 | 4 => self.call(heads, 2, words),
            5 => {
                self.expr(heads, 2, words);
                self.expr(heads, 2, words);
            }
            6 => words.push(0x2000_0000 + self.below(4)),
            _ => self.expr(heads, 3, words),
        }
    }

    fn expr(&mut self, heads: u32, depth: u32, words: &mut Vec<u32>) {
        match self.below(5) {
            0 => words.push(0x2000_0000 + self.below(3)),
            1 | 2 if depth > 0 => self.call(heads, depth, words),
            _ => {
                let name = self.name();
                words.push(name);
            }
        }
    }

    fn call(&mut self, heads: u32, depth: u32, words: &mut Vec<u32>) {
        let count = self.below(3);
        words.push(0x1000_0000 + self.below(heads) * 65_536 + count);
        for _ in 0..count {
            self.expr(heads, depth - 1, words);
        }
    }

    fn name(&mut self) -> u32 {
        0x4000_0000 + self.below(5)
    }

    pub fn flat_rule(&mut self, heads: u32) -> Vec<u32> {
        let (atoms, actions) = (self.below(9), self.below(4));
        let mut words = vec![0x0400_0000 + atoms * 4_096 + actions];
        for _ in 0..atoms {
            if self.below(4) == 0 {
                words.push(0x0800_0002);
                self.terms(heads, 2, &mut words);
            } else {
                let count = 1 + self.below(3);
                words.push(0x1000_0000 + self.below(heads) * 65_536 + count);
                self.terms(heads, count, &mut words);
            }
        }
        for _ in 0..actions {
            self.flat_action(heads, &mut words);
        }
        words
    }

    fn flat_action(&mut self, heads: u32, words: &mut Vec<u32>) {
        let code = 1 + self.below(7);
        words.push(0x0200_0000 + code);
        if matches!(code, 1 | 7) {
            let target = self.name();
            words.push(target);
        }
        match code {
            1 => self.terms(heads, 1, words),
            5 => self.terms(heads, 2, words),
            6 => words.push(0x2000_0000 + self.below(4)),
            _ => {
                let count = self.below(3);
                words.push(0x1000_0000 + self.below(heads) * 65_536 + count);
                self.terms(heads, count + u32::from(code == 2), words);
            }
        }
    }

    fn terms(&mut self, heads: u32, count: u32, words: &mut Vec<u32>) {
        for _ in 0..count {
            let term = match self.below(6) {
                0 => 0x2000_0000 + self.below(3),
                1 | 2 => 0x8000_0000 + self.below(heads) * 65_536 + self.below(3),
                _ => self.name(),
            };
            words.push(term);
        }
    }

    /// Changes a word, drops one or adds one.
    pub fn spoil(&mut self, words: &mut Vec<u32>) {
        let place = self.below(words.len() as u32 + 1) as usize;
        match self.below(3) {
            0 if place < words.len() => drop(words.remove(place)),
            1 if place < words.len() => words[place] = self.any_word(),
            _ => words.insert(place, self.any_word()),
        }
    }

    /// Every kind is as likely, and small and large payloads of it.
    pub fn any_word(&mut self) -> u32 {
        let top = 0x8000_0000_u32 >> self.below(10);
        let payload =
            [self.below(3), self.below(8) * 65_536 + self.below(3), self.below(u32::MAX)][self.below(3) as usize];
        top | (payload & (top - 1))
    }
}
