use crate::raw;
use crate::{Delivery, Refusal, RequestOutcome, RetransmitError, RetransmitRequest, StreamEvent};

/// A command of a payload that was heard, with what the call that took it has answered.
///
/// ```
/// use sirmjold::{Heard, HeardCommand, Stream, StreamConfig};
///
/// let cfg = StreamConfig::default();
/// let mut chamber = Stream::new(&cfg, 64, 4, [0; 256])?;
/// let payload = b"MIDI\x20\x01\x01\x02\x03\x04\x05\x06\x80\x00\0\0\xFF\x40\0\0";
/// let mut room = [0; Heard::MOST];
/// let heard = chamber.hear(&cfg, 0, payload, 0, &mut room)?;
/// let commands = [
///     HeardCommand::Raw { code: 0x20, csd1: 1, csd2: 2 },
///     HeardCommand::Malformed, // a request without its word
///     HeardCommand::Truncated, // 64 words are not there
/// ];
/// assert!(heard.answers().map(|answer| answer.command).eq(commands));
/// # Ok::<(), sirmjold::Refusal>(())
/// ```
#[derive(Debug, Clone, Copy, PartialEq, Eq)]
pub enum HeardCommand {
    /// A data command with this number.
    UmpData(u16, Result<Delivery, Refusal>),
    /// A Retransmit Request.
    RetransmitRequest(RetransmitRequest, Result<RequestOutcome, Refusal>),
    /// A Retransmit Error.
    RetransmitError(RetransmitError, Result<StreamEvent, Refusal>),
    /// A command of any other code, which no call takes.
    Raw {
        /// Its code.
        code: u8,
        /// The first specific byte.
        csd1: u8,
        /// The second specific byte.
        csd2: u8,
    },
    /// A command that is longer than the rest of the payload; it is the last.
    Truncated,
    /// A request or an error without its word.
    Malformed,
}

/// An answer to a command of a payload ([`Heard::answers`]).
///
/// ```
/// use sirmjold::{Heard, Stream, StreamConfig};
///
/// let cfg = StreamConfig::default();
/// let mut chamber = Stream::new(&cfg, 64, 4, [0; 256])?;
/// let payload = b"MIDI\xFF\0\0\0\xFF\x01\0\x01\x20\x80\x3C\0";
/// let mut room = [0; Heard::MOST];
/// let heard = chamber.hear(&cfg, 0, payload, 0, &mut room)?;
/// let places = heard.answers().map(|answer| (answer.place, answer.len));
/// assert!(places.eq([(4, 0), (8, 1)]));
/// # Ok::<(), sirmjold::Refusal>(())
/// ```
#[derive(Debug, Clone, Copy, PartialEq, Eq)]
pub struct Answer {
    /// The command's place in the payload, where its header stands.
    pub place: u64,
    /// How many words it has.
    pub len: u8,
    /// The command, and what was answered.
    pub command: HeardCommand,
}

impl Answer {
    fn of(w: &[u64]) -> Answer {
        let (read, first, second) = (w[1], w[2], w[3]);
        let refusal = first as u8;
        let seq = (read >> 32) as u16;
        let command = match read as u8 {
            1 => HeardCommand::Truncated,
            2 => HeardCommand::Raw {
                code: (read >> 8) as u8,
                csd1: (seq >> 8) as u8,
                csd2: seq as u8,
            },
            3 => HeardCommand::UmpData(
                seq,
                Delivery::of(raw::Delivery {
                    refusal,
                    class: (first >> 8) as u8,
                    skipped: (first >> 16) as u16,
                    gap_first: (first >> 32) as u16,
                    gap_count: (first >> 48) as u16,
                    lost_first: second as u16,
                    lost_count: (second >> 16) as u16,
                }),
            ),
            4 => HeardCommand::RetransmitRequest(
                RetransmitRequest {
                    seq,
                    count: (read >> 48) as u16,
                },
                RequestOutcome::of(raw::Outcome {
                    refusal,
                    kind: (first >> 8) as u8,
                    reason: (first >> 16) as u8,
                    seq: (first >> 32) as u16,
                }),
            ),
            5 => HeardCommand::RetransmitError(
                RetransmitError {
                    reason: (read >> 8) as u8,
                    seq,
                },
                StreamEvent::of(raw::Event {
                    refusal,
                    kind: (first >> 8) as u8,
                    reason: (first >> 16) as u8,
                    seq: (first >> 32) as u16,
                    first: second as u16,
                    count: (second >> 16) as u16,
                }),
            ),
            _ => HeardCommand::Malformed,
        };
        Answer {
            place: w[0],
            len: (read >> 16) as u8,
            command,
        }
    }

    /// The bytes of the command's words, in the payload that was heard: those of a data command are what
    /// [`HeldNotes`](crate::HeldNotes) takes. Of a command that is cut, none.
    ///
    /// ```
    /// use sirmjold::{Heard, Stream, StreamConfig};
    ///
    /// let cfg = StreamConfig::default();
    /// let mut chamber = Stream::new(&cfg, 64, 4, [0; 256])?;
    /// let payload = b"MIDI\xFF\x01\0\0\x20\x90\x3C\x40";
    /// let mut room = [0; Heard::MOST];
    /// let heard = chamber.hear(&cfg, 0, payload, 0, &mut room)?;
    /// assert_eq!(heard.answers().next().unwrap().body(payload), [0x20, 0x90, 0x3C, 0x40]);
    /// # Ok::<(), sirmjold::Refusal>(())
    /// ```
    pub fn body<'a>(&self, payload: &'a [u8]) -> &'a [u8] {
        let from = self.place as usize + 4;
        payload
            .get(from..from + 4 * usize::from(self.len))
            .unwrap_or_default()
    }
}

/// What became of a payload's commands ([`Stream::hear`](crate::Stream::hear)).
///
/// ```
/// use sirmjold::{Heard, Stream, StreamConfig};
///
/// let cfg = StreamConfig::default();
/// let mut chamber = Stream::new(&cfg, 64, 4, [0; 256])?;
/// let payload = b"MIDI\xFF\0\0\0\xFF\0\0\x01\xFF\0\0\x02";
/// let mut room = [0; 2 * Heard::WORDS];
/// let heard = chamber.hear(&cfg, 0, payload, 0, &mut room)?;
/// assert_eq!((heard.answers().count(), heard.next), (2, Some(12)));
/// let rest = chamber.hear(&cfg, 0, payload, 12, &mut room)?;
/// assert_eq!((rest.answers().count(), rest.next), (1, None));
/// # Ok::<(), sirmjold::Refusal>(())
/// ```
#[derive(Debug, Clone, Copy, PartialEq, Eq)]
pub struct Heard<'a> {
    /// The place of the first command that was not heard, for want of room; none where the payload was heard to its end.
    pub next: Option<usize>,
    words: &'a [u64],
}

impl<'a> Heard<'a> {
    /// The words of one answer.
    pub const WORDS: usize = raw::ANSWER_WORDS;

    /// The words of as many answers as a payload of 1400 bytes can ask for.
    pub const MOST: usize = raw::ANSWER_WORDS * raw::ANSWERS_MAX;

    pub(crate) fn of(h: raw::Heard, heard: &'a [u64]) -> Heard<'a> {
        Heard {
            next: (h.next != 0).then_some(h.next as usize),
            words: &heard[..raw::ANSWER_WORDS * h.count as usize],
        }
    }

    /// The answers, in the payload's order.
    ///
    /// ```
    /// use sirmjold::{Heard, Stream, StreamConfig};
    ///
    /// let cfg = StreamConfig::default();
    /// let mut chamber = Stream::new(&cfg, 64, 4, [0; 256])?;
    /// let mut room = [0; Heard::MOST];
    /// assert_eq!(chamber.hear(&cfg, 0, b"MIDI", 0, &mut room)?.answers().count(), 0);
    /// # Ok::<(), sirmjold::Refusal>(())
    /// ```
    pub fn answers(&self) -> impl Iterator<Item = Answer> + 'a {
        self.words.chunks_exact(raw::ANSWER_WORDS).map(Answer::of)
    }
}
