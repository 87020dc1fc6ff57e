use crate::raw;
use crate::Refusal;

lend! {
    fn sirmjold_uplink_grant(words: u16, turn: u16, wants: &[u16]) -> raw::Granted;
}

/// One uplink for up to eight divisions: how many words of a step each of them is granted.
///
/// ```
/// use sirmjold::{Refusal, Uplink};
///
/// let mut uplink = Uplink::starting_at(2);
/// assert_eq!(uplink.grant(100, &[10, 50, 60])?.grants(), [10, 33, 57]);
/// assert_eq!(uplink.turn(), 0);
/// assert_eq!(uplink.grant(100, &[10, 50, 60])?.grants(), [10, 50, 40]);
/// assert_eq!(uplink.grant(100, &[]), Err(Refusal::DivisionsNotAllowed));
/// assert_eq!(uplink.turn(), 1);
/// # Ok::<(), Refusal>(())
/// ```
#[derive(Debug, Clone, Copy, PartialEq, Eq, Default)]
pub struct Uplink {
    turn: u16,
}

/// What a step granted to 1 to 8 divisions.
///
/// ```
/// let step = sirmjold::Uplink::new().grant(100, &[30, 40])?;
/// assert_eq!(step.grants().len(), 2);
/// # Ok::<(), sirmjold::Refusal>(())
/// ```
#[derive(Debug, Clone, Copy, PartialEq, Eq)]
pub struct Grants {
    grants: [u16; 8],
    divisions: usize,
}

impl Grants {
    /// The words of each division, in their order.
    ///
    /// ```
    /// assert_eq!(sirmjold::Uplink::new().grant(100, &[30, 40])?.grants(), [30, 40]);
    /// # Ok::<(), sirmjold::Refusal>(())
    /// ```
    pub fn grants(&self) -> &[u16] {
        &self.grants[..self.divisions]
    }
}

impl Uplink {
    /// An uplink before its first step: the turn is division 0's.
    ///
    /// ```
    /// assert_eq!(sirmjold::Uplink::new().turn(), 0);
    /// ```
    pub fn new() -> Uplink {
        Uplink::default()
    }

    /// An uplink whose next step is this division's turn.
    ///
    /// ```
    /// assert_eq!(sirmjold::Uplink::starting_at(3).turn(), 3);
    /// ```
    pub fn starting_at(turn: u16) -> Uplink {
        Uplink { turn }
    }

    /// Whose turn the next step is.
    ///
    /// ```
    /// let mut uplink = sirmjold::Uplink::new();
    /// uplink.grant(100, &[1, 1, 1])?;
    /// assert_eq!(uplink.turn(), 1);
    /// # Ok::<(), sirmjold::Refusal>(())
    /// ```
    pub fn turn(&self) -> u16 {
        self.turn
    }

    /// A step with `words` words to grant to as many divisions as there are wants. First each has the
    /// smaller of its want and an equal share, rounded down; what is left goes round from the turn on.
    ///
    /// ```
    /// let mut uplink = sirmjold::Uplink::new();
    /// assert_eq!(uplink.grant(10, &[9, 9])?.grants(), [5, 5]);
    /// assert_eq!(uplink.grant(10, &[9, 3])?.grants(), [7, 3]);
    /// # Ok::<(), sirmjold::Refusal>(())
    /// ```
    pub fn grant(&mut self, words: u16, wants: &[u16]) -> Result<Grants, Refusal> {
        let step = sirmjold_uplink_grant(words, self.turn, wants);
        Refusal::check(step.refusal)?;
        self.turn = step.turn;
        Ok(Grants {
            grants: step.grants,
            divisions: wants.len().min(step.grants.len()),
        })
    }
}
