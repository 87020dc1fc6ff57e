use crate::raw;
use crate::Refusal;

/// `count` numbers from `first` on, going up and round.
///
/// ```
/// let range = sirmjold::SeqRange { first: 0xFFFF, count: 2 };
/// assert!(range.contains(0xFFFF) && range.contains(0));
/// assert!(!range.contains(1));
/// ```
#[derive(Debug, Clone, Copy, PartialEq, Eq)]
pub struct SeqRange {
    /// The oldest number.
    pub first: u16,
    /// How many numbers there are.
    pub count: u16,
}

impl SeqRange {
    pub(crate) fn some(first: u16, count: u16) -> Option<SeqRange> {
        (count != 0).then_some(SeqRange { first, count })
    }

    /// Whether `seq` is one of the numbers.
    ///
    /// ```
    /// assert!(sirmjold::SeqRange { first: 7, count: 1 }.contains(7));
    /// ```
    pub fn contains(&self, seq: u16) -> bool {
        seq.wrapping_sub(self.first) < self.count
    }
}

/// What a number is to a receive window.
///
/// ```
/// use sirmjold::{Class, Window};
///
/// let mut window = Window::new(64)?;
/// assert_eq!(window.accept(0)?.0, Class::New(0));
/// assert_eq!(window.accept(2)?.0, Class::New(1)); // 1 was skipped
/// assert_eq!(window.accept(1)?.0, Class::Late);
/// assert_eq!(window.accept(1)?.0, Class::Duplicate);
/// # Ok::<(), sirmjold::Refusal>(())
/// ```
#[derive(Debug, Clone, Copy, PartialEq, Eq)]
pub enum Class {
    /// Ahead of the highest, with this many numbers skipped in between.
    New(u16),
    /// In the window, and not processed before: hand it on, but hold no note for it (see the crate's page).
    Late,
    /// Processed before, or too far behind to tell.
    Duplicate,
}

/// What a data command was.
///
/// ```
/// use sirmjold::{Class, SeqRange, Stream, StreamConfig};
///
/// let cfg = StreamConfig::default();
/// let mut chamber = Stream::new(&cfg, 2, 4, [0; 256])?; // a window of two numbers
/// let second = chamber.on_ump_data(&cfg, 0, 1)?;
/// assert_eq!(second.class, Class::New(1));
/// assert_eq!(second.gap, Some(SeqRange { first: 0, count: 1 }));
/// assert_eq!(second.lost, None); // number 0 may still come
/// let fourth = chamber.on_ump_data(&cfg, 1, 3)?;
/// assert_eq!(fourth.lost, Some(SeqRange { first: 0, count: 1 })); // now it is too far behind
/// # Ok::<(), sirmjold::Refusal>(())
/// ```
#[derive(Debug, Clone, Copy, PartialEq, Eq)]
pub struct Delivery {
    /// What its number was: hand its messages on unless it is a duplicate.
    pub class: Class,
    /// The numbers that were skipped before it.
    pub gap: Option<SeqRange>,
    /// From the oldest to the newest number that left the window unprocessed; it counts before the
    /// command's messages.
    pub lost: Option<SeqRange>,
}

impl Delivery {
    pub(crate) fn of(d: raw::Delivery) -> Result<Delivery, Refusal> {
        Refusal::check(d.refusal)?;
        Ok(Delivery {
            class: match d.class {
                0 => Class::New(d.skipped),
                1 => Class::Late,
                _ => Class::Duplicate,
            },
            gap: SeqRange::some(d.gap_first, d.gap_count),
            lost: SeqRange::some(d.lost_first, d.lost_count),
        })
    }
}
