use crate::raw;
use crate::{
    Delivery, Heard, Memory, Payload, Refusal, RetransmitError, RetransmitRequest, SeqRange,
};

lend! {
    fn sirmjold_stream_new(
        s: &mut [u64], cfg: &[u32], window: u32, places: usize, ring: &mut [u32]) -> u8;
    fn sirmjold_stream_reset(s: &mut [u64], ring: &mut [u32]) -> u8;
    fn sirmjold_stream_send_ump(
        s: &mut [u64], cfg: &[u32], ring: &mut [u32], words: &[u32]) -> u8;
    fn sirmjold_stream_on_retransmit_request(
        s: &mut [u64], cfg: &[u32], ring: &[u32], seq: u16, count: u16) -> raw::Outcome;
    fn sirmjold_stream_on_ump_data(
        s: &mut [u64], cfg: &[u32], time: u64, seq: u16) -> raw::Delivery;
    fn sirmjold_stream_on_retransmit_error(s: &mut [u64], reason: u8, seq: u16) -> raw::Event;
    fn sirmjold_stream_on_retransmit_nak(s: &mut [u64]) -> raw::Event;
    fn sirmjold_stream_poll(s: &mut [u64], cfg: &[u32], time: u64) -> raw::Event;
    fn sirmjold_stream_write_request(
        s: &mut [u64], cfg: &[u32], p: &mut [u64], buf: &mut [u8]) -> raw::Request;
    fn sirmjold_stream_next_deadline(s: &[u64], ring: &[u32]) -> raw::Deadline;
    fn sirmjold_stream_wants_write(s: &[u64], ring: &[u32], time: u64) -> raw::Wants;
    fn sirmjold_stream_write_data(
        s: &mut [u64], cfg: &[u32], time: u64, p: &mut [u64], buf: &mut [u8], ring: &mut [u32]
    ) -> raw::Written;
    fn sirmjold_stream_send_and_write(
        s: &mut [u64], cfg: &[u32], time: u64, words: &[u32], p: &mut [u64], buf: &mut [u8],
        ring: &mut [u32]
    ) -> raw::SentWritten;
    fn sirmjold_stream_hear(
        s: &mut [u64], cfg: &[u32], time: u64, ring: &[u32], payload: &[u8], at: usize, heard: &mut [u64]
    ) -> raw::Heard;
}

/// The settings of a stream. No state keeps them: each call that uses them is given them, and tests them before anything
/// else ([`Refusal::CommandWords`], [`Refusal::IdleInterval`], [`Refusal::IdleGrowth`]).
///
/// ```
/// use sirmjold::StreamConfig;
///
/// // a house without a return cable: nothing is asked for, each payload repeats the last four commands
/// let cfg = StreamConfig { fec_repeats: 4, retransmit: false, ..StreamConfig::default() };
/// assert_eq!(cfg.idle_interval_ms, 100);
/// ```
#[derive(Debug, Clone, Copy, PartialEq, Eq)]
pub struct StreamConfig {
    /// T1: ms from the last command with words to the first idle command, and between the first 1 + R of
    /// these; 1 to 300.
    pub idle_interval_ms: u32,
    /// G: each further idle interval is this many times the one before, 1 or more.
    pub idle_growth: u32,
    /// K: how many further idle commands follow.
    pub idle_further: u8,
    /// R: how many written commands a payload repeats before new ones, if they fit.
    pub fec_repeats: u8,
    /// Whether Retransmit Requests are served and sent.
    pub retransmit: bool,
    /// D: ms before the first Retransmit Request.
    pub request_delay_ms: u32,
    /// M: how many requests are made for a gap.
    pub max_requests: u8,
    /// The most words of one data command, 1 to 64.
    pub max_command_words: u32,
}

impl Default for StreamConfig {
    fn default() -> Self {
        StreamConfig {
            idle_interval_ms: 100,
            idle_growth: 2,
            idle_further: 5,
            fec_repeats: 2,
            retransmit: true,
            request_delay_ms: 10,
            max_requests: 3,
            max_command_words: 64,
        }
    }
}

impl StreamConfig {
    pub(crate) fn words(&self) -> [u32; raw::SETTINGS_WORDS] {
        [
            self.idle_interval_ms,
            self.idle_growth,
            self.idle_further.into(),
            self.fec_repeats.into(),
            self.retransmit.into(),
            self.request_delay_ms,
            self.max_requests.into(),
            self.max_command_words,
        ]
    }
}

/// What became of a Retransmit Request.
///
/// ```
/// use sirmjold::{RequestOutcome, RetransmitError, RetransmitRequest, Stream, StreamConfig};
///
/// let cfg = StreamConfig::default();
/// let mut console = Stream::new(&cfg, 64, 4, [0; 256])?;
/// let request = RetransmitRequest { seq: 0, count: 1 };
/// // nothing was written yet
/// let error = RetransmitError { reason: 1, seq: 0 };
/// assert_eq!(console.on_retransmit_request(&cfg, request)?, RequestOutcome::Error(error));
/// # Ok::<(), sirmjold::Refusal>(())
/// ```
#[derive(Debug, Clone, Copy, PartialEq, Eq)]
pub enum RequestOutcome {
    /// It waits to be served.
    Queued,
    /// Ignored: one with the same number waits already.
    Pending,
    /// Ignored: every place is taken.
    Full,
    /// The number is not in the written history: the caller writes this error.
    Error(RetransmitError),
    /// Retransmits are off.
    NotSupported,
}

impl RequestOutcome {
    pub(crate) fn of(o: raw::Outcome) -> Result<RequestOutcome, Refusal> {
        Refusal::check(o.refusal)?;
        Ok(match o.kind {
            0 => RequestOutcome::Queued,
            1 => RequestOutcome::Pending,
            2 => RequestOutcome::Full,
            3 => RequestOutcome::Error(RetransmitError {
                reason: o.reason,
                seq: o.seq,
            }),
            _ => RequestOutcome::NotSupported,
        })
    }
}

/// What a timer or an answer of the peer has told.
///
/// ```
/// use sirmjold::{SeqRange, Stream, StreamConfig, StreamEvent};
///
/// let cfg = StreamConfig { request_delay_ms: 10, max_requests: 0, ..StreamConfig::default() };
/// let mut chamber = Stream::new(&cfg, 64, 4, [0; 256])?;
/// chamber.on_ump_data(&cfg, 0, 1)?; // number 0 is missing
/// assert_eq!(chamber.poll(&cfg, 9)?, StreamEvent::Nothing);
/// let lost = SeqRange { first: 0, count: 1 };
/// assert_eq!(chamber.poll(&cfg, 10)?, StreamEvent::DataLoss(lost));
/// # Ok::<(), sirmjold::Refusal>(())
/// ```
#[derive(Debug, Clone, Copy, PartialEq, Eq)]
pub enum StreamEvent {
    /// Nothing.
    Nothing,
    /// The numbers of the range that were not processed before are lost.
    DataLoss(SeqRange),
    /// These numbers are lost, as a Retransmit Error told.
    ErrorLoss(SeqRange, RetransmitError),
    /// A Retransmit Error by which nothing was lost.
    RetransmitError(RetransmitError),
}

impl StreamEvent {
    pub(crate) fn of(e: raw::Event) -> Result<StreamEvent, Refusal> {
        Refusal::check(e.refusal)?;
        let range = SeqRange {
            first: e.first,
            count: e.count,
        };
        let error = RetransmitError {
            reason: e.reason,
            seq: e.seq,
        };
        Ok(match e.kind {
            0 => StreamEvent::Nothing,
            1 => StreamEvent::DataLoss(range),
            2 => StreamEvent::ErrorLoss(range, error),
            _ => StreamEvent::RetransmitError(error),
        })
    }
}

/// Whether a due request was taken into a payload.
///
/// ```
/// use sirmjold::{Payload, Request, Stream, StreamConfig};
///
/// let cfg = StreamConfig::default();
/// let mut chamber = Stream::new(&cfg, 64, 4, [0; 256])?;
/// let mut payload = Payload::new(1400, [0; 1400])?;
/// assert_eq!(chamber.write_request(&cfg, &mut payload)?, Request::Nothing);
/// # Ok::<(), sirmjold::Refusal>(())
/// ```
#[derive(Debug, Clone, Copy, PartialEq, Eq)]
pub enum Request {
    /// Nothing was due.
    Nothing,
    /// It was written.
    Written,
    /// It does not fit in what is left of the payload.
    More,
}

/// What a write has written into the payload.
///
/// ```
/// use sirmjold::{Payload, Stream, StreamConfig, Written};
///
/// let cfg = StreamConfig { max_command_words: 1, ..StreamConfig::default() };
/// let mut console = Stream::new(&cfg, 64, 4, [0; 256])?;
/// console.send_ump(&cfg, &[0x2090_3C40, 0x2090_4040])?; // two commands
/// let mut small = Payload::new(12, [0; 12])?; // room for one
/// let written = console.write_data(&cfg, 0, &mut small)?;
/// assert_eq!(written, Written { commands: 1, more: true });
/// # Ok::<(), sirmjold::Refusal>(())
/// ```
#[derive(Debug, Clone, Copy, PartialEq, Eq)]
pub struct Written {
    /// How many commands.
    pub commands: u64,
    /// The next command in order did not fit: send the payload, and write again into a new one.
    pub more: bool,
}

/// Both ends of a data stream, with its send history in memory that is lent or given ([`Memory`]).
///
/// It is not `Clone`: what is promised of a stream counts on each call taking what the last one left.
///
/// ```
/// use sirmjold::{Payload, Stream, StreamConfig};
///
/// let cfg = StreamConfig::default();
/// let mut console = Stream::new(&cfg, 64, 4, [0; 256])?;
/// console.send_ump(&cfg, &[0x2090_3C40])?;
/// let mut payload = Payload::new(1400, [0; 1400])?;
/// console.write_data(&cfg, 0, &mut payload)?;
/// assert_eq!(payload.bytes(), b"MIDI\xFF\x01\0\0\x20\x90\x3C\x40");
/// # Ok::<(), sirmjold::Refusal>(())
/// ```
#[derive(Debug)]
pub struct Stream<M> {
    words: [u64; raw::STREAM_WORDS],
    ring: M,
}

impl<M: Memory<u32>> Stream<M> {
    /// A fresh stream: a receive window of `window` numbers (1 to 128), a request queue of `places`
    /// places (1 to 16), and a history of 65 to 32768 words, which is zeroed.
    ///
    /// ```
    /// use sirmjold::{Refusal, Stream, StreamConfig};
    ///
    /// let cfg = StreamConfig::default();
    /// let mut history = [0; 64];
    /// assert!(Stream::new(&cfg, 64, 4, [0; 65]).is_ok()); // given
    /// assert_eq!(Stream::new(&cfg, 64, 4, &mut history).unwrap_err(), Refusal::SizeNotAllowed); // lent
    /// ```
    pub fn new(
        cfg: &StreamConfig,
        window: u32,
        places: usize,
        mut ring: M,
    ) -> Result<Stream<M>, Refusal> {
        let mut words = [0; raw::STREAM_WORDS];
        let number = sirmjold_stream_new(&mut words, &cfg.words(), window, places, ring.as_mut());
        Refusal::check(number)?;
        Ok(Stream { words, ring })
    }

    /// Back to the fresh stream of the same sizes; the history is zeroed. The peer has to be reset too, and
    /// nothing written before may be heard after: a command with a number that was heard is a duplicate.
    ///
    /// ```
    /// use sirmjold::{Class, Stream, StreamConfig};
    ///
    /// let cfg = StreamConfig::default();
    /// let mut chamber = Stream::new(&cfg, 64, 4, [0; 256])?;
    /// chamber.on_ump_data(&cfg, 0, 0)?;
    /// chamber.reset()?;
    /// assert_eq!(chamber.on_ump_data(&cfg, 1, 0)?.class, Class::New(0));
    /// # Ok::<(), sirmjold::Refusal>(())
    /// ```
    pub fn reset(&mut self) -> Result<(), Refusal> {
        Refusal::check(sirmjold_stream_reset(&mut self.words, self.ring.as_mut()))
    }

    /// Queues whole messages to send: all of them, or none.
    ///
    /// ```
    /// use sirmjold::{Refusal, Stream, StreamConfig};
    ///
    /// let cfg = StreamConfig::default();
    /// let mut console = Stream::new(&cfg, 64, 4, [0; 65])?;
    /// console.send_ump(&cfg, &[0x2090_3C40, 0x2090_4040, 0x2090_4340])?; // a chord
    /// assert_eq!(console.send_ump(&cfg, &[0x4090_3C00]), Err(Refusal::InvalidUmpData)); // half a message
    /// assert_eq!(console.send_ump(&cfg, &[0x2090_3C40; 64]), Err(Refusal::Full));
    /// # Ok::<(), sirmjold::Refusal>(())
    /// ```
    pub fn send_ump(&mut self, cfg: &StreamConfig, words: &[u32]) -> Result<(), Refusal> {
        let ring = self.ring.as_mut();
        Refusal::check(sirmjold_stream_send_ump(
            &mut self.words,
            &cfg.words(),
            ring,
            words,
        ))
    }

    /// A Retransmit Request arrives.
    ///
    /// ```
    /// use sirmjold::{Payload, RequestOutcome, RetransmitRequest, Stream, StreamConfig};
    ///
    /// let cfg = StreamConfig::default();
    /// let mut console = Stream::new(&cfg, 64, 4, [0; 256])?;
    /// let mut payload = Payload::new(1400, [0; 1400])?;
    /// console.send_ump(&cfg, &[0x2090_3C40])?;
    /// console.write_data(&cfg, 0, &mut payload)?;
    /// let request = RetransmitRequest { seq: 0, count: 1 };
    /// assert_eq!(console.on_retransmit_request(&cfg, request)?, RequestOutcome::Queued);
    /// assert_eq!(console.on_retransmit_request(&cfg, request)?, RequestOutcome::Pending);
    /// # Ok::<(), sirmjold::Refusal>(())
    /// ```
    pub fn on_retransmit_request(
        &mut self,
        cfg: &StreamConfig,
        req: RetransmitRequest,
    ) -> Result<RequestOutcome, Refusal> {
        let (s, ring) = (&mut self.words, self.ring.as_ref());
        let o = sirmjold_stream_on_retransmit_request(s, &cfg.words(), ring, req.seq, req.count);
        RequestOutcome::of(o)
    }

    /// A data command arrives.
    ///
    /// ```
    /// use sirmjold::{Class, Stream, StreamConfig};
    ///
    /// let cfg = StreamConfig::default();
    /// let mut chamber = Stream::new(&cfg, 64, 4, [0; 256])?;
    /// assert_eq!(chamber.on_ump_data(&cfg, 0, 0)?.class, Class::New(0)); // hand its messages on
    /// assert_eq!(chamber.on_ump_data(&cfg, 3, 0)?.class, Class::Duplicate); // do not
    /// # Ok::<(), sirmjold::Refusal>(())
    /// ```
    pub fn on_ump_data(
        &mut self,
        cfg: &StreamConfig,
        time: u64,
        seq: u16,
    ) -> Result<Delivery, Refusal> {
        Delivery::of(sirmjold_stream_on_ump_data(
            &mut self.words,
            &cfg.words(),
            time,
            seq,
        ))
    }

    /// A Retransmit Error arrives: what the unanswered request asked for and is missing is lost. The error's
    /// own reason and number are handed back, and decide nothing.
    ///
    /// ```
    /// use sirmjold::{RetransmitError, Stream, StreamConfig, StreamEvent};
    ///
    /// let cfg = StreamConfig::default();
    /// let mut chamber = Stream::new(&cfg, 64, 4, [0; 256])?;
    /// let error = RetransmitError { reason: 1, seq: 0 };
    /// // no request was made
    /// assert_eq!(chamber.on_retransmit_error(error)?, StreamEvent::RetransmitError(error));
    /// # Ok::<(), sirmjold::Refusal>(())
    /// ```
    pub fn on_retransmit_error(&mut self, err: RetransmitError) -> Result<StreamEvent, Refusal> {
        StreamEvent::of(sirmjold_stream_on_retransmit_error(
            &mut self.words,
            err.reason,
            err.seq,
        ))
    }

    /// A NAK to a Retransmit Request arrives: no requests until a reset. With one unanswered, all that is
    /// missing is lost, and reported. What is missing otherwise, and every later gap, stays missing until it
    /// arrives, or leaves the window and is reported then.
    ///
    /// ```
    /// use sirmjold::{Stream, StreamConfig, StreamEvent};
    ///
    /// let cfg = StreamConfig::default();
    /// let mut chamber = Stream::new(&cfg, 64, 4, [0; 256])?;
    /// assert_eq!(chamber.on_retransmit_nak()?, StreamEvent::Nothing);
    /// chamber.on_ump_data(&cfg, 0, 1)?;
    /// assert_eq!(chamber.next_deadline()?, None); // the gap will not be asked for
    /// # Ok::<(), sirmjold::Refusal>(())
    /// ```
    pub fn on_retransmit_nak(&mut self) -> Result<StreamEvent, Refusal> {
        StreamEvent::of(sirmjold_stream_on_retransmit_nak(&mut self.words))
    }

    /// Runs the receiver's timer: makes a request due, or gives up and reports what is missing. Numbers above
    /// the highest heard are not missing: that the last ones were lost shows when something newer is heard.
    ///
    /// ```
    /// use sirmjold::{Stream, StreamConfig, StreamEvent};
    ///
    /// let cfg = StreamConfig::default();
    /// let mut chamber = Stream::new(&cfg, 64, 4, [0; 256])?;
    /// chamber.on_ump_data(&cfg, 0, 1)?; // a gap
    /// assert_eq!(chamber.poll(&cfg, 10)?, StreamEvent::Nothing);
    /// assert!(chamber.wants_write(10)?); // a request is due
    /// # Ok::<(), sirmjold::Refusal>(())
    /// ```
    pub fn poll(&mut self, cfg: &StreamConfig, time: u64) -> Result<StreamEvent, Refusal> {
        StreamEvent::of(sirmjold_stream_poll(&mut self.words, &cfg.words(), time))
    }

    /// Takes a due request into a payload, and writes nothing else.
    ///
    /// ```
    /// use sirmjold::{Payload, Read, Reader, Request, RetransmitRequest, Stream, StreamConfig};
    ///
    /// let cfg = StreamConfig::default();
    /// let mut chamber = Stream::new(&cfg, 64, 4, [0; 256])?;
    /// chamber.on_ump_data(&cfg, 0, 1)?; // a gap
    /// chamber.poll(&cfg, 10)?;
    /// let mut payload = Payload::new(1400, [0; 1400])?;
    /// assert_eq!(chamber.write_request(&cfg, &mut payload)?, Request::Written);
    /// let mut reader = Reader::new();
    /// assert_eq!(
    ///     reader.read(payload.bytes()).next_command()?,
    ///     Some(Read::RetransmitRequest(RetransmitRequest { seq: 0, count: 1 }))
    /// );
    /// # Ok::<(), sirmjold::Refusal>(())
    /// ```
    pub fn write_request<B: Memory<u8>>(
        &mut self,
        cfg: &StreamConfig,
        payload: &mut Payload<B>,
    ) -> Result<Request, Refusal> {
        let (p, buf) = payload.parts();
        let r = sirmjold_stream_write_request(&mut self.words, &cfg.words(), p, buf);
        Refusal::check(r.refusal)?;
        Ok(match r.kind {
            0 => Request::Nothing,
            1 => Request::Written,
            _ => Request::More,
        })
    }

    /// The earliest time at which `poll` or `write_data` has timed work.
    ///
    /// ```
    /// use sirmjold::{Payload, Stream, StreamConfig};
    ///
    /// let cfg = StreamConfig::default();
    /// let mut console = Stream::new(&cfg, 64, 4, [0; 256])?;
    /// assert_eq!(console.next_deadline()?, None);
    /// console.send_ump(&cfg, &[0x2090_3C40])?;
    /// console.write_data(&cfg, 0, &mut Payload::new(1400, [0; 1400])?)?;
    /// assert_eq!(console.next_deadline()?, Some(100)); // the first idle command
    /// # Ok::<(), sirmjold::Refusal>(())
    /// ```
    pub fn next_deadline(&self) -> Result<Option<u64>, Refusal> {
        let d = sirmjold_stream_next_deadline(&self.words, self.ring.as_ref());
        Refusal::check(d.refusal)?;
        Ok((d.kind == 1).then_some(d.time))
    }

    /// Whether `write_data` at this time has something to write, or a due request to drop.
    ///
    /// ```
    /// use sirmjold::{Stream, StreamConfig};
    ///
    /// let cfg = StreamConfig::default();
    /// let mut console = Stream::new(&cfg, 64, 4, [0; 256])?;
    /// assert!(!console.wants_write(0)?);
    /// console.send_ump(&cfg, &[0x2090_3C40])?;
    /// assert!(console.wants_write(0)?);
    /// # Ok::<(), sirmjold::Refusal>(())
    /// ```
    pub fn wants_write(&self, time: u64) -> Result<bool, Refusal> {
        let w = sirmjold_stream_wants_write(&self.words, self.ring.as_ref(), time);
        Refusal::check(w.refusal)?;
        Ok(w.wants != 0)
    }

    /// Writes into a payload: a due request, then the sender's commands.
    ///
    /// [`Refusal::TooLarge`] when the payload is empty and the due request, or else the first unwritten command,
    /// does not fit. In the first case nothing is changed. In the second the payload and its bytes stay, but it is
    /// the one refusal that changes something: a due idle command is then queued, waiting requests that fit no
    /// payload are gone, and so is a due request where requests are disabled or nothing is missing.
    ///
    /// ```
    /// use sirmjold::{Payload, Refusal, Stream, StreamConfig};
    ///
    /// let cfg = StreamConfig::default();
    /// let mut console = Stream::new(&cfg, 64, 4, [0; 256])?;
    /// console.send_ump(&cfg, &[0x2090_3C40, 0x2090_4040])?;
    /// let mut small = Payload::new(12, [0; 12])?;
    /// assert_eq!(console.write_data(&cfg, 0, &mut small), Err(Refusal::TooLarge));
    /// let mut payload = Payload::new(16, [0; 16])?;
    /// assert_eq!(console.write_data(&cfg, 0, &mut payload)?.commands, 1);
    /// # Ok::<(), sirmjold::Refusal>(())
    /// ```
    pub fn write_data<B: Memory<u8>>(
        &mut self,
        cfg: &StreamConfig,
        time: u64,
        payload: &mut Payload<B>,
    ) -> Result<Written, Refusal> {
        let (p, buf) = payload.parts();
        let ring = self.ring.as_mut();
        let w = sirmjold_stream_write_data(&mut self.words, &cfg.words(), time, p, buf, ring);
        Refusal::check(w.refusal)?;
        Ok(Written {
            commands: w.commands,
            more: w.more != 0,
        })
    }

    /// [`Stream::send_ump`], and where that queues the words [`Stream::write_data`] at this time, in one call that tests
    /// settings and state once.
    ///
    /// The outer answer is that of the queueing: where the words are refused, nothing is changed and nothing written. The inner
    /// one is that of the write: where it is refused, the words are queued all the same, and a later write has them.
    ///
    /// ```
    /// use sirmjold::{Payload, Refusal, Stream, StreamConfig, Written};
    ///
    /// let cfg = StreamConfig::default();
    /// let mut console = Stream::new(&cfg, 64, 4, [0; 256])?;
    /// let mut payload = Payload::new(1400, [0; 1400])?;
    /// let written = console.send_and_write(&cfg, 0, &[0x2090_3C40], &mut payload)??;
    /// assert_eq!(written, Written { commands: 1, more: false });
    /// assert_eq!(payload.bytes(), b"MIDI\xFF\x01\0\0\x20\x90\x3C\x40");
    ///
    /// let mut small = Payload::new(8, [0; 8])?;
    /// let half = console.send_and_write(&cfg, 1, &[0x4090_3C00], &mut small);
    /// assert_eq!(half, Err(Refusal::InvalidUmpData)); // not queued
    /// let off = console.send_and_write(&cfg, 1, &[0x2080_3C00], &mut small);
    /// assert_eq!(off, Ok(Err(Refusal::TooLarge))); // queued, not written
    /// # Ok::<(), sirmjold::Refusal>(())
    /// ```
    pub fn send_and_write<B: Memory<u8>>(
        &mut self,
        cfg: &StreamConfig,
        time: u64,
        words: &[u32],
        payload: &mut Payload<B>,
    ) -> Result<Result<Written, Refusal>, Refusal> {
        let (p, buf) = payload.parts();
        let ring = self.ring.as_mut();
        let w = sirmjold_stream_send_and_write(
            &mut self.words,
            &cfg.words(),
            time,
            words,
            p,
            buf,
            ring,
        );
        let answer = Refusal::check(w.refusal);
        if w.queued == 0 {
            answer?;
        }
        Ok(answer.map(|()| Written {
            commands: w.commands,
            more: w.more != 0,
        }))
    }

    /// A payload arrives: each of its commands, from the place `at` on (0: the first), is given to the call that takes it,
    /// data to [`Stream::on_ump_data`], a request to [`Stream::on_retransmit_request`], an error to
    /// [`Stream::on_retransmit_error`], any other to none. Settings and state are tested once, and no word is copied.
    ///
    /// Each answer takes [`Heard::WORDS`] words of `heard`, and [`Heard::MOST`] of them are enough for any payload of 1400
    /// bytes. Where there is room for fewer, [`Heard::next`] is the place of the first command that was not heard, and a call
    /// with that place goes on there. [`Refusal::BadSignature`] at the place 0, when the payload does not begin with its
    /// signature.
    ///
    /// ```
    /// use sirmjold::{Class, Heard, HeardCommand, RequestOutcome, RetransmitError, Stream, StreamConfig};
    ///
    /// let cfg = StreamConfig::default();
    /// let mut chamber = Stream::new(&cfg, 64, 4, [0; 256])?;
    /// let payload = b"MIDI\xFF\x01\0\0\x20\x90\x3C\x40\x80\x01\0\0\0\x01\0\0";
    /// let mut room = [0; Heard::MOST];
    /// let heard = chamber.hear(&cfg, 0, payload, 0, &mut room)?;
    /// assert_eq!(heard.next, None); // all of it
    /// let mut answers = heard.answers();
    ///
    /// let data = answers.next().unwrap();
    /// assert!(matches!(data.command, HeardCommand::UmpData(0, Ok(d)) if d.class == Class::New(0)));
    /// assert_eq!(data.body(payload), b"\x20\x90\x3C\x40");
    ///
    /// let request = answers.next().unwrap(); // for a number that was never sent
    /// let error = RetransmitError { reason: 1, seq: 0 };
    /// let HeardCommand::RetransmitRequest(_, outcome) = request.command else { panic!() };
    /// assert_eq!(outcome, Ok(RequestOutcome::Error(error)));
    /// assert!(answers.next().is_none());
    /// # Ok::<(), sirmjold::Refusal>(())
    /// ```
    pub fn hear<'a>(
        &mut self,
        cfg: &StreamConfig,
        time: u64,
        payload: &[u8],
        at: usize,
        heard: &'a mut [u64],
    ) -> Result<Heard<'a>, Refusal> {
        let (s, ring) = (&mut self.words, self.ring.as_ref());
        let h = sirmjold_stream_hear(s, &cfg.words(), time, ring, payload, at, heard);
        Refusal::check(h.refusal)?;
        Ok(Heard::of(h, heard))
    }
}
