use crate::raw;

lend! {
    fn sirmjold_load_draw(load: raw::Load) -> raw::Load;
    fn sirmjold_load_jump(load: raw::Load, n: u16) -> raw::Jumped;
    fn sirmjold_load_words(load: raw::Load) -> raw::Asked;
}

/// A load that can be made again: 32-bit values drawn from a seed, and what each of them asks to send.
///
/// ```
/// let mut load = sirmjold::Load::new(0);
/// assert_eq!(load.draw(), 0x3C6E_F35F);
/// assert_eq!(load.jump(2), 2);
/// assert_eq!(load.last(), 0xD1CC_F6E9);
/// assert_eq!(load.words().words(), [0x2090_3C40; 6]);
/// ```
#[derive(Debug, Clone, Copy, PartialEq, Eq)]
pub struct Load {
    last: u32,
}

/// What a value of a load asks to send: 0 to 8 words.
///
/// ```
/// let idle = sirmjold::Load::new(0).words();
/// assert!(idle.words().is_empty());
/// ```
#[derive(Debug, Clone, Copy, PartialEq, Eq)]
pub struct LoadWords {
    words: [u32; 8],
    count: usize,
}

impl LoadWords {
    /// The words; none where the value is idle.
    ///
    /// ```
    /// assert_eq!(sirmjold::Load::new(0x8000_0000).words().words(), [0x2090_3C40]);
    /// ```
    pub fn words(&self) -> &[u32] {
        &self.words[..self.count]
    }
}

impl Load {
    /// The load of a seed, before its first draw.
    ///
    /// ```
    /// assert_eq!(sirmjold::Load::new(7).last(), 7);
    /// ```
    pub fn new(seed: u32) -> Load {
        Load { last: seed }
    }

    /// The last value drawn, at first the seed.
    ///
    /// ```
    /// let mut load = sirmjold::Load::new(7);
    /// assert_eq!(load.draw(), load.last());
    /// ```
    pub fn last(&self) -> u32 {
        self.last
    }

    fn raw(&self) -> raw::Load {
        raw::Load { last: self.last }
    }

    /// Draws the next value: the last times 1664525 plus 1013904223, modulo 2³².
    ///
    /// ```
    /// let mut load = sirmjold::Load::new(1);
    /// assert_eq!(load.draw(), 1_664_525 + 1_013_904_223);
    /// ```
    pub fn draw(&mut self) -> u32 {
        self.last = sirmjold_load_draw(self.raw()).last;
        self.last
    }

    /// Draws `n` values at one step; the answer is the rounds that it took, as many as `n` has binary
    /// digits.
    ///
    /// ```
    /// use sirmjold::Load;
    ///
    /// let (mut one_by_one, mut at_one_step) = (Load::new(1), Load::new(1));
    /// for _ in 0..1000 {
    ///     one_by_one.draw();
    /// }
    /// assert_eq!(at_one_step.jump(1000), 10);
    /// assert_eq!(at_one_step, one_by_one);
    /// ```
    pub fn jump(&mut self, n: u16) -> u32 {
        let jumped = sirmjold_load_jump(self.raw(), n);
        self.last = jumped.load.last;
        jumped.rounds
    }

    /// What the last value asks to send.
    ///
    /// ```
    /// use sirmjold::{Load, Stream, StreamConfig};
    ///
    /// let cfg = StreamConfig::default();
    /// let mut console = Stream::new(&cfg, 64, 4, [0; 256])?;
    /// let mut load = Load::new(1);
    /// load.draw();
    /// console.send_ump(&cfg, load.words().words())?;
    /// # Ok::<(), sirmjold::Refusal>(())
    /// ```
    pub fn words(&self) -> LoadWords {
        let asked = sirmjold_load_words(self.raw());
        LoadWords {
            words: asked.words,
            count: asked.count.min(asked.words.len()),
        }
    }
}
