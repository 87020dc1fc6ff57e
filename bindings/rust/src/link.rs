use crate::raw;
use crate::{Refusal, StreamConfig};

lend! {
    fn sirmjold_link_run(
        cfg: &[u32], window: u32, places: usize, seed: u32, drop: u32, figure: u16, budget: u32,
        ring: &mut [u32], other: &mut [u32]) -> raw::Report;
}

/// A pretend line, to try settings on before a hire: the sizes of both ends, and the seeds of a run.
///
/// In each step of 1 ms the console queues the words of the next value of `seed` and writes a payload, which is dropped
/// when the next value of `drop`, modulo 256, is below `figure`; the chamber hears it, polls and writes, and its payload
/// reaches the console in that step. `docs/LINK.md` says what such a line is not.
///
/// ```
/// use sirmjold::{Line, StreamConfig};
///
/// let line = Line { window: 64, places: 4, seed: 1, drop: 2, figure: 255 };
/// let (mut ring, mut other) = ([0; 256], [0; 256]);
/// let run = line.run(&StreamConfig::default(), 3000, &mut ring, &mut other)?;
/// assert_eq!((run.steps, run.handed, run.losses), (3000, 15, 20));
/// # Ok::<(), sirmjold::Refusal>(())
/// ```
#[derive(Debug, Clone, Copy, PartialEq, Eq)]
pub struct Line {
    /// The numbers of each receive window, 1 to 128.
    pub window: u32,
    /// The places of each request queue, 1 to 16.
    pub places: usize,
    /// The seed of the load.
    pub seed: u32,
    /// The seed of the line.
    pub drop: u32,
    /// How many of 256 payloads are dropped; 256 or more drops all.
    pub figure: u16,
}

/// What a run reports.
///
/// ```
/// use sirmjold::{Line, StreamConfig};
///
/// let line = Line { window: 64, places: 4, seed: 1, drop: 2, figure: 0 };
/// let run = line.run(&StreamConfig::default(), 100, &mut [0; 256], &mut [0; 256])?;
/// assert_eq!(run.losses, 0); // nothing was dropped
/// # Ok::<(), sirmjold::Refusal>(())
/// ```
#[derive(Debug, Clone, Copy, PartialEq, Eq)]
pub struct Report {
    /// The steps done: the budget.
    pub steps: u32,
    /// Commands that the chamber handed on, those without words too.
    pub handed: u32,
    /// Losses that it reported, each once, however many numbers it has.
    pub losses: u32,
}

impl Line {
    /// A run of `budget` steps, at most 65,536, from a fresh start of both ends, with the histories of console and chamber,
    /// both of one length, 65 to 32768 words. They are zeroed, unless the run is refused.
    ///
    /// ```
    /// use sirmjold::{Line, Refusal, StreamConfig};
    ///
    /// let line = Line { window: 64, places: 4, seed: 1, drop: 2, figure: 128 };
    /// let refused = line.run(&StreamConfig::default(), 100, &mut [0; 256], &mut [0; 128]);
    /// assert_eq!(refused, Err(Refusal::SizeNotAllowed)); // two lengths
    /// ```
    pub fn run(
        &self,
        cfg: &StreamConfig,
        budget: u32,
        ring: &mut [u32],
        other: &mut [u32],
    ) -> Result<Report, Refusal> {
        let r = sirmjold_link_run(
            &cfg.words(),
            self.window,
            self.places,
            self.seed,
            self.drop,
            self.figure,
            budget,
            ring,
            other,
        );
        Refusal::check(r.refusal)?;
        Ok(Report {
            steps: r.steps,
            handed: r.handed,
            losses: r.losses,
        })
    }
}
