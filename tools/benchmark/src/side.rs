//! What a console or a chamber does with a library: the same for the Rust and for this one, so that a row is
//! one piece of code over either. Answers are folded into numbers, which must be the same on all sides.

/// Both ends of a stream, with a window of 64 numbers and 4 request places.
pub trait Stream {
    fn fresh() -> Self;
    fn send(&mut self, words: &[u32]);
    /// Writes one payload: its length, and whether there is more.
    fn write(&mut self, now: u64, buf: &mut [u8]) -> (usize, bool);
    /// The two, in one call where there is one.
    fn play(&mut self, words: &[u32], now: u64, buf: &mut [u8]) -> (usize, bool) {
        self.send(words);
        self.write(now, buf)
    }
    fn heard(&mut self, now: u64, seq: u16) -> u64;
    /// Reads a payload as a chamber does: each data command is told to the stream, and the words of its messages
    /// are handed on unless it is a duplicate.
    fn receive(&mut self, now: u64, payload: &[u8]) -> u64;
    /// Tells the stream each data command of a payload, and hands no words on.
    fn hear(&mut self, now: u64, payload: &[u8]) -> u64;
    /// The same, in one call where there is one.
    fn hear_payload(&mut self, now: u64, payload: &[u8]) -> u64 {
        self.hear(now, payload)
    }
    fn request(&mut self, seq: u16, count: u16) -> u64;
    fn poll(&mut self, now: u64) -> u64;
    fn wants(&self, now: u64) -> bool;
}

pub trait Side: 'static {
    type Window: 'static;
    type Small: Stream + 'static;
    type Large: Stream + 'static;
    type Sheet: 'static;
    /// The kinds of a payload's commands, the messages and their words.
    fn read(payload: &[u8]) -> u64;
    /// One data command in a fresh payload; its length.
    fn write_data(buf: &mut [u8], seq: u16, words: &[u32]) -> usize;
    /// The same, opening and writing each a call that is kept apart, as the library's C functions are.
    fn write_data_apart(buf: &mut [u8], seq: u16, words: &[u32]) -> usize;
    fn window() -> Self::Window;
    fn accept(w: &mut Self::Window, seq: u16) -> u64;
    /// The value of the load (02's 1/14) that `n` draws from a seed lead to.
    fn drawn(seed: u32, n: u16) -> u32;
    /// A run of so many steps on the pretend link (02's 7/14), seeds 1 and 2: commands handed on and losses.
    fn link(figure: u16, steps: u32) -> (u32, u32);
    /// The loss sheet (02's 10/14) over the last `n` arrivals, and the figures of a block of records.
    fn sheet(n: usize) -> Self::Sheet;
    fn figures(sheet: &mut Self::Sheet, block: &[u8], out: &mut [u8]);
}

pub const WINDOW: usize = 64;
pub const PLACES: usize = 4;
pub const LIMIT: usize = 1400;
/// Words of the two histories.
pub const SMALL: usize = 256;
pub const LARGE: usize = 4096;

pub fn fold(sum: u64, x: u64) -> u64 {
    sum.rotate_left(5).wrapping_add(x)
}

/// A delivery as a number: class 0 new, 1 late, 2 a duplicate; what was skipped; what was lost.
pub fn delivery(class: u64, skipped: u16, lost_first: u16, lost_count: u16) -> u64 {
    class | u64::from(skipped) << 2 | u64::from(lost_first) << 18 | u64::from(lost_count) << 34
}
