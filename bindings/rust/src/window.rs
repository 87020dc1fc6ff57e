use crate::raw;
use crate::{Class, Delivery, Refusal, SeqRange};

lend! {
    fn sirmjold_window_starting_at(w: &mut [u64], size: u32, highest: u16) -> u8;
    fn sirmjold_window_accept(w: &mut [u64], seq: u16) -> raw::Delivery;
}

/// A receive window alone: which numbers were processed.
///
/// ```
/// use sirmjold::{Class, SeqRange, Window};
///
/// let mut window = Window::new(2)?;
/// assert_eq!(window.accept(0)?, (Class::New(0), None));
/// assert_eq!(window.accept(2)?, (Class::New(1), None));
/// // 1 leaves the window, and nobody heard it
/// assert_eq!(window.accept(4)?, (Class::New(1), Some(SeqRange { first: 1, count: 1 })));
/// # Ok::<(), sirmjold::Refusal>(())
/// ```
#[derive(Debug, Clone, PartialEq, Eq)]
pub struct Window {
    pub(crate) words: [u64; raw::WINDOW_WORDS],
}

impl Window {
    /// A fresh window of 1 to 128 numbers: 0 is the next.
    ///
    /// ```
    /// use sirmjold::{Refusal, Window};
    ///
    /// assert!(Window::new(128).is_ok());
    /// assert_eq!(Window::new(129), Err(Refusal::SizeNotAllowed));
    /// ```
    pub fn new(size: u32) -> Result<Window, Refusal> {
        Window::starting_at(size, 0xFFFF)
    }

    /// The highest and all before it processed.
    ///
    /// ```
    /// use sirmjold::{Class, Window};
    ///
    /// let mut window = Window::starting_at(64, 1000)?;
    /// assert_eq!(window.accept(1000)?.0, Class::Duplicate);
    /// assert_eq!(window.accept(1001)?.0, Class::New(0));
    /// # Ok::<(), sirmjold::Refusal>(())
    /// ```
    pub fn starting_at(size: u32, highest: u16) -> Result<Window, Refusal> {
        let mut words = [0; raw::WINDOW_WORDS];
        Refusal::check(sirmjold_window_starting_at(&mut words, size, highest))?;
        Ok(Window { words })
    }

    /// A number arrives: it is processed now, unless it is a duplicate. The second answer spans the
    /// numbers that left the window unprocessed.
    ///
    /// ```
    /// use sirmjold::{Class, Window};
    ///
    /// let mut window = Window::new(64)?;
    /// assert_eq!(window.accept(0)?, (Class::New(0), None));
    /// assert_eq!(window.accept(0)?, (Class::Duplicate, None));
    /// # Ok::<(), sirmjold::Refusal>(())
    /// ```
    pub fn accept(&mut self, seq: u16) -> Result<(Class, Option<SeqRange>), Refusal> {
        let d = Delivery::of(sirmjold_window_accept(&mut self.words, seq))?;
        Ok((d.class, d.lost))
    }
}
