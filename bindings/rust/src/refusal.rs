use core::error::Error;
use core::fmt;

/// Why a call is refused. A refused call has changed nothing, but where
/// [`Stream::write_data`](crate::Stream::write_data) and [`Stream::send_and_write`](crate::Stream::send_and_write) say it.
///
/// Each has the number that C and the papers know it by, and a text.
///
/// ```
/// use sirmjold::{Refusal, Stream, StreamConfig};
///
/// let cfg = StreamConfig { idle_growth: 0, ..StreamConfig::default() };
/// let refusal = Stream::new(&cfg, 64, 4, [0; 256]).unwrap_err();
/// assert_eq!(refusal, Refusal::IdleGrowth);
/// assert_eq!(refusal.to_string(), "the idle growth is 0 (refusal 8)");
/// ```
///
/// It is an [`Error`], so `?` takes it to whatever a program uses for its errors:
///
/// ```
/// use sirmjold::Window;
///
/// fn heard(seq: u16) -> Result<(), Box<dyn std::error::Error>> {
///     let mut window = Window::new("64".parse()?)?;
///     window.accept(seq)?;
///     Ok(())
/// }
/// # heard(0).unwrap();
/// ```
#[derive(Debug, Clone, Copy, PartialEq, Eq, Hash)]
#[non_exhaustive]
#[repr(u8)]
pub enum Refusal {
    /// The payload does not begin with the signature.
    BadSignature = 1,
    /// The command does not fit in what is left of the payload.
    Overflow = 2,
    /// The command does not fit in an empty payload, or a message has more words than a command may.
    TooLarge = 3,
    /// A value out of its range: a payload limit, or the words of a raw command.
    InvalidValue = 4,
    /// Words that end inside a message, or too many of them.
    InvalidUmpData = 5,
    /// The send history has no room for the words.
    Full = 6,
    /// The idle interval is not 1 to 300 ms.
    IdleInterval = 7,
    /// The idle growth is 0.
    IdleGrowth = 8,
    /// The command size is not 1 to 64 words.
    CommandWords = 9,
    /// A Retransmit Request or Error without its word.
    Malformed = 10,
    /// A reason that is not in the table of its command.
    ReasonNotAllowed = 11,
    /// A window, history, request queue, step budget or loss sheet of a size that is not taken, or a group above 15.
    SizeNotAllowed = 12,
    /// A state that no call has left. Memory that hands out the same slice each time never leads here.
    InvalidState = 13,
    /// A block of a loss sheet that is not whole records, or longer than 65,536 bytes or its output.
    InvalidBlock = 16,
    /// A record of a loss sheet with a class above 2, or with a zero byte that is not zero.
    InvalidRecord = 17,
    /// No divisions of an uplink, more than eight, or a turn that is not one of them.
    DivisionsNotAllowed = 18,
}

impl Refusal {
    /// All of them, by number.
    ///
    /// ```
    /// use sirmjold::Refusal;
    ///
    /// for refusal in Refusal::ALL {
    ///     println!("{:2}  {refusal}", refusal.number());
    /// }
    /// ```
    pub const ALL: &'static [Refusal] = &[
        Refusal::BadSignature,
        Refusal::Overflow,
        Refusal::TooLarge,
        Refusal::InvalidValue,
        Refusal::InvalidUmpData,
        Refusal::Full,
        Refusal::IdleInterval,
        Refusal::IdleGrowth,
        Refusal::CommandWords,
        Refusal::Malformed,
        Refusal::ReasonNotAllowed,
        Refusal::SizeNotAllowed,
        Refusal::InvalidState,
        Refusal::InvalidBlock,
        Refusal::InvalidRecord,
        Refusal::DivisionsNotAllowed,
    ];

    /// Its number in `include/sirmjold.h`.
    ///
    /// ```
    /// assert_eq!(sirmjold::Refusal::Full.number(), 6);
    /// ```
    pub const fn number(self) -> u8 {
        self as u8
    }

    /// The refusal with this number, if there is one.
    ///
    /// ```
    /// use sirmjold::Refusal;
    ///
    /// assert_eq!(Refusal::from_number(6), Some(Refusal::Full));
    /// assert_eq!(Refusal::from_number(0), None); // not refused
    /// assert_eq!(Refusal::from_number(14), None);
    /// ```
    pub fn from_number(number: u8) -> Option<Refusal> {
        Refusal::ALL.iter().copied().find(|r| r.number() == number)
    }

    /// The answer of a C function, which is 0 or a number of the table.
    pub(crate) fn check(number: u8) -> Result<(), Refusal> {
        match number {
            0 => Ok(()),
            _ => Err(Refusal::from_number(number).unwrap_or(Refusal::InvalidState)),
        }
    }

    fn text(self) -> &'static str {
        match self {
            Refusal::BadSignature => "the payload does not begin with the signature",
            Refusal::Overflow => "the command does not fit in what is left of the payload",
            Refusal::TooLarge => {
                "the command does not fit in an empty payload, or a message has more words than a command may"
            }
            Refusal::InvalidValue => {
                "the payload's limit is not 8 to 1400 bytes, or a raw command has more than 255 words"
            }
            Refusal::InvalidUmpData => "the words end inside a message, or are too many",
            Refusal::Full => "the send history has no room",
            Refusal::IdleInterval => "the idle interval is not 1 to 300 ms",
            Refusal::IdleGrowth => "the idle growth is 0",
            Refusal::CommandWords => "the command size is not 1 to 64 words",
            Refusal::Malformed => "a Retransmit Request or Error has no word",
            Refusal::ReasonNotAllowed => "the reason is not defined",
            Refusal::SizeNotAllowed => {
                "the size of a window, history, request queue, step budget or loss sheet is not taken, or the group is above 15"
            }
            Refusal::InvalidState => "no call has left this state",
            Refusal::InvalidBlock => {
                "the block is not whole records, or is longer than 65536 bytes or than its output"
            }
            Refusal::InvalidRecord => {
                "a record has a class above 2, or a zero byte that is not zero"
            }
            Refusal::DivisionsNotAllowed => {
                "there are no divisions or more than 8, or the turn is not one of them"
            }
        }
    }
}

impl fmt::Display for Refusal {
    fn fmt(&self, f: &mut fmt::Formatter<'_>) -> fmt::Result {
        write!(f, "{} (refusal {})", self.text(), self.number())
    }
}

impl Error for Refusal {}
