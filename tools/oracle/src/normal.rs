//! What is not the Rust's own answer, in one place: the numbers of refusals, the intended differences
//! (docs/DIFFERENCES.md), and the two ends of a stream held apart, which `take` asks for.
use zmidi_net::command::{CommandError, Malformed};
use zmidi_net::packet::{PacketError, PayloadWriter};
use zmidi_net::stream::{DataStream, Receiver, Sender, StreamConfig, StreamError, Written};

/// The number of each refusal.
pub fn packet(e: PacketError) -> u32 {
    match e {
        PacketError::BadSignature => 1,
        PacketError::Overflow => 2,
        PacketError::TooLarge => 3,
        PacketError::InvalidValue => 4,
        PacketError::Empty => unreachable!("the script has no finish"),
    }
}

pub fn malformed(_: Malformed) -> u32 {
    10
}

pub fn command(e: CommandError) -> u32 {
    match e {
        CommandError::Packet(p) => packet(p),
        CommandError::ReasonNotAllowed => 11,
        CommandError::InvalidUmpData => 5,
        CommandError::TextTooLong | CommandError::InvalidText => unreachable!("the script has no text"),
    }
}

pub fn stream(e: StreamError) -> u32 {
    match e {
        StreamError::IdleInterval => 7,
        StreamError::IdleGrowth => 8,
        StreamError::CommandWords => 9,
        StreamError::InvalidUmpData => 5,
        StreamError::Full => 6,
        StreamError::Packet(p) => packet(p),
    }
}

/// The Rust tests settings at the start alone; the script in each call that is given them.
pub fn settings(cfg: &StreamConfig) -> Result<(), u32> {
    cfg.check().map_err(stream)
}

/// In the Rust sizes are fixed when it is compiled; 12 is added.
pub fn sizes(w: u64, c: u64, q: u64) -> Result<(), u32> {
    if (1..=128).contains(&w) && (65..=32768).contains(&c) && (1..=16).contains(&q) { Ok(()) } else { Err(12) }
}

/// The Rust has no runs; 12 is added.
pub fn budget(steps: u32) -> Result<(), u32> {
    if steps <= 65536 { Ok(()) } else { Err(12) }
}

/// Bytes past the payload's length stay as they were here; the Rust may have written there.
pub fn buffer(bytes: &[u8], len: usize, fill: u8) -> Vec<u8> {
    let mut out = bytes.to_vec();
    out[len..].fill(fill);
    out
}

/// Only these codes are typed: others are handed on raw.
pub fn is_typed(code: u8) -> bool {
    matches!(code, 0xFF | 0x80 | 0x81)
}

/// A stream's two ends. `DataStream` writes a due request only together with what the sender has to
/// write, and lends its ends for reading alone. So from a stream's first `take` on, up to the next `new`
/// or `reset`, its ends are held apart, and what `DataStream` makes of both is put together here as it
/// does: these three, and the reset. A stream that is asked for no `take` is a `DataStream` throughout.
pub struct Apart<const W: usize, const C: usize, const Q: usize> {
    pub sender: Sender<C, Q>,
    pub receiver: Receiver<W>,
}

impl<const W: usize, const C: usize, const Q: usize> Apart<W, C, Q> {
    pub fn of(stream: &DataStream<W, C, Q>) -> Self {
        Apart { sender: stream.sender().clone(), receiver: stream.receiver().clone() }
    }

    pub fn write_data(&mut self, cfg: &StreamConfig, now: u64, w: &mut PayloadWriter<'_>) -> Result<Written, StreamError> {
        let before = w.len();
        if self.receiver.write_request(cfg, w)? {
            return Ok(Written { commands: 0, more: true });
        }
        let taken = usize::from(w.len() != before);
        let sent = self.sender.write(cfg, now, w)?;
        Ok(Written { commands: taken + sent.commands, more: sent.more })
    }

    pub fn next_deadline(&self) -> Option<u64> {
        match (self.sender.next_deadline(), self.receiver.next_deadline()) {
            (Some(a), Some(b)) => Some(a.min(b)),
            (a, b) => a.or(b),
        }
    }

    pub fn wants_write(&self, now: u64) -> bool {
        self.receiver.request_due() || self.sender.wants_write(now)
    }

    pub fn reset(&mut self) {
        self.sender.reset();
        self.receiver.reset();
    }
}

/// The Rust's reset keeps old history words and ring places. What it leaves otherwise has to be the
/// fresh state, which then takes its place.
pub fn fresh<const W: usize, const C: usize, const Q: usize>(left: &str, state: impl Fn(&DataStream<W, C, Q>) -> String) -> DataStream<W, C, Q> {
    let fresh = DataStream::new(StreamConfig::DEFAULT).expect("the default settings");
    assert_eq!(left, state(&fresh), "a reset leaves the fresh state");
    fresh
}
