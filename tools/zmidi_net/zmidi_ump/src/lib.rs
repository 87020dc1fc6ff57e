//! Stands in for the crate that the Rust takes message lengths from: paper 01's table.

pub struct MessageType(u8);

impl MessageType {
    pub fn from_bits(bits: u8) -> Self {
        MessageType(bits & 0xF)
    }

    pub fn word_count(self) -> usize {
        match self.0 {
            0 | 1 | 2 | 6 | 7 => 1,
            3 | 4 | 8 | 9 | 0xA => 2,
            0xB | 0xC => 3,
            _ => 4,
        }
    }
}
