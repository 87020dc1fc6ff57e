//! Payloads that are drawn, read on both sides.
use crate::ours::Ours;
use crate::rust::Rust;
use crate::side::Side;

/// A generator of 32 bits.
struct Draw(u32);

impl Draw {
    fn below(&mut self, n: u32) -> u32 {
        self.0 = self.0.wrapping_mul(1_664_525).wrapping_add(1_013_904_223);
        (u64::from(self.0) * u64::from(n) >> 32) as u32
    }

    fn word(&mut self) -> [u8; 4] {
        (self.below(1 << 16) << 16 | self.below(1 << 16)).to_be_bytes()
    }

    /// Some commands of the codes that count and of others, one in eight long, then now and then a byte changed and the end cut off.
    fn payload(&mut self) -> Vec<u8> {
        let mut p = b"MIDI".to_vec();
        for _ in 0..self.below(8) {
            let code = [0xFF, 0xFF, 0xFF, 0x80, 0x81, 0x20, 0x00, 0x8F][self.below(8) as usize];
            let len = if self.below(8) == 0 { self.below(256) } else { self.below(9) };
            p.extend([code, len as u8, self.below(256) as u8, self.below(256) as u8]);
            (0..len).for_each(|_| p.extend(self.word()));
        }
        if self.below(4) == 0 {
            let at = self.below(p.len() as u32) as usize;
            p[at] = self.below(256) as u8;
        }
        if self.below(4) == 0 {
            p.truncate(self.below(p.len() as u32 + 1) as usize);
        }
        p
    }
}

pub fn compare(count: u32) {
    let mut draw = Draw(1);
    let (mut bytes, mut refused) = (0, 0);
    for _ in 0..count {
        let p = draw.payload();
        assert_eq!(Ours::read(&p), Rust::read(&p), "read otherwise: {p:02X?}");
        bytes += p.len();
        refused += u32::from(!p.starts_with(b"MIDI"));
    }
    println!("{count} payloads, {bytes} bytes, {refused} without the signature: no difference");
}
