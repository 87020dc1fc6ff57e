/// Memory for a send history, a payload or a loss sheet: whatever hands out a slice of `T`.
///
/// An array or a `Vec` is given away and lives in the value that uses it; a mutable borrow of either, or of a slice, is
/// lent. Every type with the two traits below has this one.
///
/// ```
/// use sirmjold::{Memory, Stream, StreamConfig};
///
/// let cfg = StreamConfig::default();
/// let mut lent = [0; 256];
/// Stream::new(&cfg, 64, 4, [0; 256])?; // in the stream itself: no heap
/// Stream::new(&cfg, 64, 4, vec![0; 256])?; // on the heap, of a size known at run time
/// Stream::new(&cfg, 64, 4, &mut lent)?; // borrowed
/// Stream::new(&cfg, 64, 4, &mut lent[..128])?; // a part of it
///
/// fn is_memory<T, M: Memory<T>>() {}
/// is_memory::<u8, Box<[u8]>>();
/// # Ok::<(), sirmjold::Refusal>(())
/// ```
///
/// A type that hands out another slice each time breaks nothing but itself: its calls are refused, or
/// [`Payload::bytes`](crate::Payload::bytes) panics.
pub trait Memory<T>: AsRef<[T]> + AsMut<[T]> {}

impl<T, M: AsRef<[T]> + AsMut<[T]>> Memory<T> for M {}
