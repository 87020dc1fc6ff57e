use crate::raw;
use crate::{Memory, Refusal};

lend! {
    fn sirmjold_sheet_start(n: usize, ring: &mut [u32]) -> raw::SheetAnswer;
    fn sirmjold_sheet_block(
        sheet: raw::Sheet, ring: &mut [u32], block: &[u8], out: &mut [u8]) -> raw::SheetAnswer;
    fn sirmjold_sheet_columns(block: &[u8], out: &mut [u8]) -> u8;
    fn sirmjold_sheet_restore(stored: &[u8], out: &mut [u8]) -> u8;
}

/// Figures over the last `n` arrivals of a file of 16-byte records (`include/sirmjold.h` has their form),
/// which run on from block to block. Its ring is lent or given ([`Memory`]).
///
/// ```
/// use sirmjold::{Refusal, Sheet};
///
/// let mut sheet = Sheet::start([0; 2])?;
/// let mut record = [0; 16];
/// record[13] = 3; // New, with a loss of 3
/// let mut out = [0; 16];
/// for sum in [3, 6, 6] {
///     sheet.block(&record, &mut out)?;
///     assert_eq!(out[12..], [0, 0, 0, sum]);
/// }
/// assert_eq!(sheet.block(&record[1..], &mut out), Err(Refusal::InvalidBlock));
/// # Ok::<(), Refusal>(())
/// ```
#[derive(Debug)]
pub struct Sheet<M> {
    state: raw::Sheet,
    ring: M,
}

impl<M: Memory<u32>> Sheet<M> {
    /// No arrivals yet. The figures go over as many as the ring has words, 1 to 4,096.
    ///
    /// ```
    /// use sirmjold::{Refusal, Sheet};
    ///
    /// let mut ring = [0; 1000];
    /// assert!(Sheet::start(&mut ring).is_ok()); // lent
    /// assert_eq!(Sheet::start(vec![]).unwrap_err(), Refusal::SizeNotAllowed); // given
    /// ```
    pub fn start(mut ring: M) -> Result<Sheet<M>, Refusal> {
        let words = ring.as_mut();
        let a = sirmjold_sheet_start(words.len(), words);
        Refusal::check(a.refusal)?;
        Ok(Sheet {
            state: a.sheet,
            ring,
        })
    }

    /// The figures of each record, 16 bytes of `out`: how many of the last `n` arrivals are New, Late and
    /// Duplicate, and the sum of their loss counts, big-endian. A block that is refused is no arrival.
    ///
    /// ```
    /// let mut sheet = sirmjold::Sheet::start([0; 1000])?;
    /// let mut records = [0; 32];
    /// records[16 + 10] = 1; // the second is Late
    /// let mut out = [0; 32];
    /// sheet.block(&records, &mut out)?;
    /// assert_eq!(out[16..], [0, 0, 0, 1, 0, 0, 0, 1, 0, 0, 0, 0, 0, 0, 0, 0]);
    /// # Ok::<(), sirmjold::Refusal>(())
    /// ```
    pub fn block(&mut self, block: &[u8], out: &mut [u8]) -> Result<(), Refusal> {
        let a = sirmjold_sheet_block(self.state, self.ring.as_mut(), block, out);
        self.state = a.sheet;
        Refusal::check(a.refusal)
    }
}

/// A block of records by column: the first bytes of all, then their second.
///
/// ```
/// let mut block = [0; 32];
/// block[16] = 7; // the first byte of the second record
/// let mut stored = [0; 32];
/// sirmjold::columns(&block, &mut stored)?;
/// assert_eq!(stored[1], 7);
/// # Ok::<(), sirmjold::Refusal>(())
/// ```
pub fn columns(block: &[u8], out: &mut [u8]) -> Result<(), Refusal> {
    Refusal::check(sirmjold_sheet_columns(block, out))
}

/// The block of which `stored` holds the columns: the inverse of [`columns`].
///
/// ```
/// use sirmjold::{columns, restore};
///
/// let block: Vec<u8> = (0..64).collect();
/// let (mut stored, mut back) = ([0; 64], [0; 64]);
/// columns(&block, &mut stored)?;
/// restore(&stored, &mut back)?;
/// assert_eq!(back[..], block);
/// # Ok::<(), sirmjold::Refusal>(())
/// ```
pub fn restore(stored: &[u8], out: &mut [u8]) -> Result<(), Refusal> {
    Refusal::check(sirmjold_sheet_restore(stored, out))
}
