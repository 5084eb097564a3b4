//! Bytes of an input, one after the other.

pub struct Reader<'a>(&'a [u8]);

impl<'a> Reader<'a> {
    pub fn new(input: &'a [u8]) -> Reader<'a> {
        Reader(input)
    }

    pub fn is_empty(&self) -> bool {
        self.0.is_empty()
    }

    /// Past the end every byte is 0, so that any input can be read as a case.
    pub fn byte(&mut self) -> u8 {
        match self.0.split_first() {
            Some((&byte, rest)) => {
                self.0 = rest;
                byte
            }
            None => 0,
        }
    }

    pub fn small(&mut self) -> u16 {
        u16::from_le_bytes([self.byte(), self.byte()])
    }

    pub fn word(&mut self) -> u32 {
        u32::from(self.small()) | u32::from(self.small()) << 16
    }
}
