use crate::raw;
use crate::{Memory, Refusal};

lend! {
    fn sirmjold_payload_new(p: &mut [u64], max: usize) -> u8;
    fn sirmjold_payload_command(
        p: &mut [u64], buf: &mut [u8], code: u8, csd1: u8, csd2: u8, words: &[u32]) -> u8;
    fn sirmjold_ump_data_write(p: &mut [u64], buf: &mut [u8], seq: u16, words: &[u32]) -> u8;
    fn sirmjold_ump_data_payload(buf: &mut [u8], max: usize, seq: u16, words: &[u32]) -> raw::Made;
    fn sirmjold_retransmit_request_write(p: &mut [u64], buf: &mut [u8], seq: u16, count: u16) -> u8;
    fn sirmjold_retransmit_error_write(p: &mut [u64], buf: &mut [u8], reason: u8, seq: u16) -> u8;
    fn sirmjold_command_next(
        payload: &[u8], at: usize, words: &mut [u32], lens: &mut [u8]) -> raw::Read;
}

/// A Retransmit Error.
///
/// ```
/// use sirmjold::{Payload, Read, Reader, RetransmitError};
///
/// let error = RetransmitError { reason: 1, seq: 40 };
/// let mut payload = Payload::new(1400, [0; 1400])?;
/// payload.retransmit_error(error)?;
/// let mut reader = Reader::new();
/// assert_eq!(reader.read(payload.bytes()).next_command()?, Some(Read::RetransmitError(error)));
/// # Ok::<(), sirmjold::Refusal>(())
/// ```
#[derive(Debug, Clone, Copy, PartialEq, Eq)]
pub struct RetransmitError {
    /// 0 unknown, 1 not in the buffer.
    pub reason: u8,
    /// The oldest number that the answering history holds (the next one if it holds none), not the one
    /// that was asked for.
    pub seq: u16,
}

/// A Retransmit Request.
///
/// ```
/// use sirmjold::{Payload, Read, Reader, RetransmitRequest};
///
/// let request = RetransmitRequest { seq: 7, count: 2 }; // 7 and 8
/// let mut payload = Payload::new(1400, [0; 1400])?;
/// payload.retransmit_request(request)?;
/// let mut reader = Reader::new();
/// assert_eq!(reader.read(payload.bytes()).next_command()?, Some(Read::RetransmitRequest(request)));
/// # Ok::<(), sirmjold::Refusal>(())
/// ```
#[derive(Debug, Clone, Copy, PartialEq, Eq)]
pub struct RetransmitRequest {
    /// The first number that is asked for.
    pub seq: u16,
    /// How many; 0 for all from `seq` on.
    pub count: u16,
}

/// A payload that is being written into a buffer, lent or given ([`Memory`]).
///
/// ```
/// use sirmjold::Payload;
///
/// let mut payload = Payload::new(1400, [0; 1400])?;
/// payload.ump_data(0x0102, &[0x2090_3C40])?;
/// assert_eq!(payload.bytes(), b"MIDI\xFF\x01\x01\x02\x20\x90\x3C\x40");
/// # Ok::<(), sirmjold::Refusal>(())
/// ```
#[derive(Debug)]
pub struct Payload<M> {
    words: [u64; raw::PAYLOAD_WORDS],
    empty: [u64; raw::PAYLOAD_WORDS],
    buf: M,
}

impl<M: Memory<u8>> Payload<M> {
    /// An empty payload of at most `max` bytes, 8 to 1400. A shorter buffer lowers the limit.
    ///
    /// ```
    /// use sirmjold::{Payload, Refusal};
    ///
    /// let mut buf = [0; 64];
    /// assert!(Payload::new(1400, &mut buf).is_ok()); // lent
    /// assert!(Payload::new(1400, vec![0; 1400]).is_ok()); // given
    /// assert_eq!(Payload::new(1401, &mut buf).unwrap_err(), Refusal::InvalidValue);
    /// ```
    pub fn new(max: usize, buf: M) -> Result<Payload<M>, Refusal> {
        let mut empty = [0; raw::PAYLOAD_WORDS];
        Refusal::check(sirmjold_payload_new(&mut empty, max))?;
        Ok(Payload {
            words: empty,
            empty,
            buf,
        })
    }

    /// A payload of at most `max` bytes with UMP Data in it, made in one call.
    ///
    /// ```
    /// use sirmjold::{Payload, Refusal};
    ///
    /// let payload = Payload::of_ump_data(1400, [0; 1400], 7, &[0x2090_3C40])?;
    /// assert_eq!(payload.bytes(), b"MIDI\xFF\x01\x00\x07\x20\x90\x3C\x40");
    /// assert_eq!(Payload::of_ump_data(1400, [0; 1400], 7, &[0x4090_3C00]).unwrap_err(), Refusal::InvalidUmpData);
    /// # Ok::<(), sirmjold::Refusal>(())
    /// ```
    pub fn of_ump_data(max: usize, mut buf: M, seq: u16, words: &[u32]) -> Result<Payload<M>, Refusal> {
        let made = sirmjold_ump_data_payload(buf.as_mut(), max, seq, words);
        Refusal::check(made.refusal)?;
        Ok(Payload {
            words: [made.len, max as u64],
            empty: [0, max as u64],
            buf,
        })
    }

    /// Empty again, with the same limit and buffer.
    ///
    /// ```
    /// let mut payload = sirmjold::Payload::new(1400, [0; 1400])?;
    /// payload.ump_data(0, &[0x2090_3C40])?;
    /// payload.clear();
    /// assert!(payload.bytes().is_empty());
    /// # Ok::<(), sirmjold::Refusal>(())
    /// ```
    pub fn clear(&mut self) {
        self.words = self.empty;
    }

    /// The bytes that were written: none, or the signature and all commands.
    ///
    /// ```
    /// let payload = sirmjold::Payload::new(1400, [0; 1400])?;
    /// assert_eq!(payload.bytes(), b"");
    /// # Ok::<(), sirmjold::Refusal>(())
    /// ```
    pub fn bytes(&self) -> &[u8] {
        &self.buf.as_ref()[..self.words[0] as usize]
    }

    /// Its words and its buffer, to be lent.
    pub(crate) fn parts(&mut self) -> (&mut [u64], &mut [u8]) {
        (&mut self.words, self.buf.as_mut())
    }

    /// Writes one command of any code: its two specific bytes, and at most 255 words.
    ///
    /// ```
    /// let mut payload = sirmjold::Payload::new(1400, [0; 1400])?;
    /// payload.command(0x20, 1, 2, &[0x0304_0506])?;
    /// assert_eq!(payload.bytes(), b"MIDI\x20\x01\x01\x02\x03\x04\x05\x06");
    /// # Ok::<(), sirmjold::Refusal>(())
    /// ```
    pub fn command(&mut self, code: u8, csd1: u8, csd2: u8, words: &[u32]) -> Result<(), Refusal> {
        let (p, buf) = self.parts();
        Refusal::check(sirmjold_payload_command(p, buf, code, csd1, csd2, words))
    }

    /// Writes UMP Data: a number, and whole messages of at most 64 words together.
    ///
    /// ```
    /// use sirmjold::{Payload, Refusal};
    ///
    /// let mut payload = Payload::new(1400, [0; 1400])?;
    /// payload.ump_data(0, &[])?; // a Zero Length Command
    /// payload.ump_data(1, &[0x4090_3C00, 0xFFFF_0000])?;
    /// assert_eq!(payload.ump_data(2, &[0x4090_3C00]), Err(Refusal::InvalidUmpData));
    /// # Ok::<(), sirmjold::Refusal>(())
    /// ```
    pub fn ump_data(&mut self, seq: u16, words: &[u32]) -> Result<(), Refusal> {
        let (p, buf) = self.parts();
        Refusal::check(sirmjold_ump_data_write(p, buf, seq, words))
    }

    /// Writes a Retransmit Request.
    ///
    /// ```
    /// use sirmjold::{Payload, RetransmitRequest};
    ///
    /// let mut payload = Payload::new(1400, [0; 1400])?;
    /// payload.retransmit_request(RetransmitRequest { seq: 7, count: 2 })?;
    /// assert_eq!(payload.bytes().len(), 12);
    /// # Ok::<(), sirmjold::Refusal>(())
    /// ```
    pub fn retransmit_request(&mut self, req: RetransmitRequest) -> Result<(), Refusal> {
        let (p, buf) = self.parts();
        Refusal::check(sirmjold_retransmit_request_write(
            p, buf, req.seq, req.count,
        ))
    }

    /// Writes a Retransmit Error.
    ///
    /// ```
    /// use sirmjold::{Payload, Refusal, RetransmitError};
    ///
    /// let mut payload = Payload::new(1400, [0; 1400])?;
    /// payload.retransmit_error(RetransmitError { reason: 1, seq: 40 })?;
    /// let undefined = RetransmitError { reason: 2, seq: 40 };
    /// assert_eq!(payload.retransmit_error(undefined), Err(Refusal::ReasonNotAllowed));
    /// # Ok::<(), sirmjold::Refusal>(())
    /// ```
    pub fn retransmit_error(&mut self, err: RetransmitError) -> Result<(), Refusal> {
        let (p, buf) = self.parts();
        Refusal::check(sirmjold_retransmit_error_write(p, buf, err.reason, err.seq))
    }
}

/// A data command that was read.
///
/// ```
/// use sirmjold::{Read, Reader};
///
/// let mut reader = Reader::new();
/// let mut commands = reader.read(b"MIDI\xFF\x03\0\x07\x20\x90\x3C\x40\x40\x90\x3E\0\xFF\xFF\0\0");
/// let Some(Read::UmpData(data)) = commands.next_command()? else { panic!() };
/// assert_eq!(data.seq, 7);
/// assert_eq!(data.words, [0x2090_3C40, 0x4090_3E00, 0xFFFF_0000]);
/// assert_eq!(data.lens, [1, 2]);
/// assert!(!data.cut);
/// # Ok::<(), sirmjold::Refusal>(())
/// ```
#[derive(Debug, Clone, Copy, PartialEq, Eq)]
pub struct UmpData<'a> {
    /// Its number.
    pub seq: u16,
    /// The words of its whole messages, in the machine's order.
    pub words: &'a [u32],
    /// How many words each of these messages has.
    pub lens: &'a [u8],
    /// Whether the command ends inside a message.
    pub cut: bool,
    /// All of its words, as they came.
    pub(crate) bytes: &'a [u8],
}

impl<'a> UmpData<'a> {
    /// Its whole messages, of 1 to 4 words each.
    ///
    /// ```
    /// use sirmjold::{Read, Reader};
    ///
    /// let mut reader = Reader::new();
    /// let mut commands = reader.read(b"MIDI\xFF\x02\0\0\x20\x90\x3C\x40\x20\x80\x3C\0");
    /// let Some(Read::UmpData(data)) = commands.next_command()? else { panic!() };
    /// assert!(data.messages().eq([[0x2090_3C40], [0x2080_3C00]]));
    /// # Ok::<(), sirmjold::Refusal>(())
    /// ```
    pub fn messages(&self) -> impl Iterator<Item = &'a [u32]> {
        let mut rest = self.words;
        self.lens.iter().map(move |&len| {
            let (message, after) = rest.split_at(len.into());
            rest = after;
            message
        })
    }
}

/// A command that was read.
///
/// ```
/// use sirmjold::{Read, Reader};
///
/// let mut reader = Reader::new();
/// let mut commands = reader.read(b"MIDI\x20\x01\x01\x02\x03\x04\x05\x06\x80\x00\0\0\xFF\x40\0\0");
/// assert_eq!(
///     commands.next_command()?,
///     Some(Read::Raw { code: 0x20, csd1: 1, csd2: 2, words: &[0x0304_0506] })
/// );
/// assert_eq!(commands.next_command()?, Some(Read::Malformed)); // a request without its word
/// assert_eq!(commands.next_command()?, Some(Read::Truncated)); // 64 words are not there
/// assert_eq!(commands.next_command()?, None);
/// # Ok::<(), sirmjold::Refusal>(())
/// ```
#[derive(Debug, Clone, Copy, PartialEq, Eq)]
pub enum Read<'a> {
    /// A data command.
    UmpData(UmpData<'a>),
    /// A Retransmit Request.
    RetransmitRequest(RetransmitRequest),
    /// A Retransmit Error.
    RetransmitError(RetransmitError),
    /// A command of any other code.
    Raw {
        /// Its code.
        code: u8,
        /// The first specific byte.
        csd1: u8,
        /// The second specific byte.
        csd2: u8,
        /// Its words, in the machine's order.
        words: &'a [u32],
    },
    /// A command that is longer than the rest of the payload; it is the last.
    Truncated,
    /// A request or an error without its word.
    Malformed,
}

const MOST: usize = raw::COMMAND_WORDS_MAX;

/// Room for the words of a command. It can read one payload after the other.
///
/// ```
/// use sirmjold::{Read, Reader};
///
/// let mut reader = Reader::new();
/// for payload in [b"MIDI\xFF\0\0\0", b"MIDI\xFF\0\0\x01"] {
///     let mut commands = reader.read(payload);
///     while let Some(command) = commands.next_command()? {
///         assert!(matches!(command, Read::UmpData(data) if data.words.is_empty()));
///     }
/// }
/// # Ok::<(), sirmjold::Refusal>(())
/// ```
#[derive(Debug, Clone)]
pub struct Reader {
    words: [u32; MOST],
    lens: [u8; MOST],
}

impl Default for Reader {
    fn default() -> Self {
        Reader {
            words: [0; MOST],
            lens: [0; MOST],
        }
    }
}

impl Reader {
    /// A reader: about 1,300 bytes.
    ///
    /// ```
    /// let mut reader = sirmjold::Reader::new();
    /// assert!(reader.read(b"no MIDI").next_command().is_err());
    /// ```
    pub fn new() -> Reader {
        Reader::default()
    }

    /// The commands of a payload, which are read one by one.
    ///
    /// ```
    /// let mut reader = sirmjold::Reader::new();
    /// assert_eq!(reader.read(b"MIDI").next_command(), Ok(None)); // a payload without commands
    /// ```
    pub fn read<'a>(&'a mut self, payload: &'a [u8]) -> Reading<'a> {
        Reading {
            reader: self,
            payload,
            at: Some(0),
        }
    }
}

/// A payload that is being read. It is no `Iterator`, since a command's words lie in the [`Reader`] until the next one is
/// read.
///
/// ```
/// use sirmjold::Reader;
///
/// let (mut reader, mut words) = (Reader::new(), 0);
/// let mut commands = reader.read(b"MIDI\xFF\x01\0\0\x20\x90\x3C\x40\xFF\x01\0\x01\x20\x80\x3C\0");
/// while let Some(command) = commands.next_command()? {
///     if let sirmjold::Read::UmpData(data) = command {
///         words += data.words.len();
///     }
/// }
/// assert_eq!(words, 2);
/// # Ok::<(), sirmjold::Refusal>(())
/// ```
#[derive(Debug)]
pub struct Reading<'a> {
    reader: &'a mut Reader,
    payload: &'a [u8],
    at: Option<usize>,
}

impl Reading<'_> {
    /// The next command, if there is one. The first call answers [`Refusal::BadSignature`] when the payload does not
    /// begin with the signature; then there is none.
    ///
    /// ```
    /// use sirmjold::{Reader, Refusal};
    ///
    /// let mut reader = Reader::new();
    /// let mut commands = reader.read(b"MIDX\xFF\0\0\0");
    /// assert_eq!(commands.next_command(), Err(Refusal::BadSignature));
    /// assert_eq!(commands.next_command(), Ok(None));
    /// ```
    pub fn next_command(&mut self) -> Result<Option<Read<'_>>, Refusal> {
        let Some(at) = self.at.take() else {
            return Ok(None);
        };
        let (words, lens) = (&mut self.reader.words, &mut self.reader.lens);
        let r = sirmjold_command_next(self.payload, at, words, lens);
        let next = r.next as usize;
        self.at = (next != 0 && next + 4 <= self.payload.len()).then_some(next);
        match Refusal::check(r.refusal) {
            Err(Refusal::Malformed) => Ok(Some(Read::Malformed)),
            Err(refusal) => Err(refusal),
            Ok(()) => Ok(self.found(r)),
        }
    }

    /// A command that was not refused, whose words lie in the reader.
    fn found(&self, r: raw::Read) -> Option<Read<'_>> {
        let (next, len, count) = (r.next as usize, r.len.into(), r.count.into());
        let Reader { words, lens } = &*self.reader;
        let [csd1, csd2] = r.seq.to_be_bytes();
        Some(match r.kind {
            0 => return None,
            1 => Read::Truncated,
            3 => Read::UmpData(UmpData {
                seq: r.seq,
                words: &words[..count],
                lens: &lens[..lengths_of(count, lens)],
                cut: count < len,
                bytes: &self.payload[next - 4 * len..next],
            }),
            4 => Read::RetransmitRequest(RetransmitRequest {
                seq: r.seq,
                count: r.count,
            }),
            5 => Read::RetransmitError(RetransmitError {
                reason: r.code,
                seq: r.seq,
            }),
            _ => Read::Raw {
                code: r.code,
                csd1,
                csd2,
                words: &words[..len],
            },
        })
    }
}

/// How many of the lengths make `count` words.
fn lengths_of(count: usize, lens: &[u8]) -> usize {
    let mut before = 0;
    lens.iter()
        .take_while(|&&len| {
            let taken = before < count;
            before += usize::from(len);
            taken
        })
        .count()
}
