//! The Rust's stream and a payload, and the answer to each call.
use crate::line::Call;
use crate::normal;
use crate::show::{self, hex_bytes, hex_words};
use crate::stream::{self, Stream};
use zmidi_net::command::{RetransmitError, RetransmitErrorReason, RetransmitRequest, SeqNum, UmpData};
use zmidi_net::packet::{command_packets, Header, MaxPayload, PacketItem, PayloadWriter, RawCommand};
use zmidi_net::stream::{Ignored, RequestOutcome, SeqRange, StreamConfig, StreamEvent};

const FILL: u8 = 0xAA;

/// A payload over a buffer that lives as long as the writer.
struct Payload {
    writer: PayloadWriter<'static>,
    buffer: Box<[u8]>,
}

impl Payload {
    fn open(limit: MaxPayload, size: usize) -> Self {
        let mut buffer = vec![FILL; size].into_boxed_slice();
        // SAFETY: the box's bytes do not move, the writer is dropped before them (field order), and they
        // are read only between two calls of the writer.
        let lent = unsafe { std::slice::from_raw_parts_mut(buffer.as_mut_ptr(), size) };
        Payload { writer: PayloadWriter::new(lent, limit), buffer }
    }
}

pub struct World {
    cfg: StreamConfig,
    stream: Box<dyn Stream>,
    payload: Payload,
    /// What the last data, poll, error or nak gave, in full.
    last: String,
}

fn refused(number: u32) -> String {
    format!("refused {number}")
}

fn raw(seq: u16, bytes: &[u8]) -> RawCommand<'_> {
    let [a, b] = seq.to_be_bytes();
    RawCommand { header: Header { code: 0xFF, len: (bytes.len() / 4) as u8, csd1: a, csd2: b }, payload: bytes }
}

/// One item of reading.
fn item(raw: &RawCommand<'_>) -> String {
    let h = raw.header;
    if !normal::is_typed(h.code) {
        return format!("raw:{:02X}:{:02X}:{:02X}:{}", h.code, h.csd1, h.csd2, hex_words(raw.words()));
    }
    match h.code {
        0xFF => {
            let data = UmpData::read(raw);
            let mut messages = data.messages();
            let words: Vec<u32> = messages.by_ref().flat_map(|m| m.words().to_vec()).collect();
            format!("data:{}:{}:{}", data.seq.0, hex_words(words), u8::from(messages.truncated()))
        }
        0x80 => match RetransmitRequest::read(raw) {
            Ok(q) => format!("request:{}:{}", q.seq.0, q.count),
            Err(e) => format!("refused:{}", normal::malformed(e)),
        },
        _ => match RetransmitError::read(raw) {
            Ok(e) => format!("error:{}:{}", e.reason.0, e.seq.0),
            Err(e) => format!("refused:{}", normal::malformed(e)),
        },
    }
}

/// What reading finds, an item of it or the header of a command that is cut.
fn shown(found: &PacketItem<'_>) -> String {
    match found {
        PacketItem::Command(raw) => item(raw),
        PacketItem::Truncated(h) => format!("cut:{:02X}:{:02X}:{:02X}:{:02X}", h.code, h.len, h.csd1, h.csd2),
    }
}

fn reading(bytes: &[u8]) -> String {
    let packets = match command_packets(bytes) {
        Ok(packets) => packets,
        Err(e) => return refused(normal::packet(e)),
    };
    let mut out = "ok".to_string();
    for found in packets {
        out.push(' ');
        out += &shown(&found);
    }
    out
}

/// The call that a command is given to, if one takes it.
fn call_of(found: &PacketItem<'_>, now: u64) -> Option<Call> {
    let PacketItem::Command(raw) = found else { return None };
    Some(match raw.header.code {
        0xFF => Call::Data { now, seq: UmpData::read(raw).seq.0, words: raw.words().collect() },
        0x80 => RetransmitRequest::read(raw).map(|q| Call::Request { seq: q.seq.0, count: q.count }).ok()?,
        0x81 => RetransmitError::read(raw).map(|e| Call::Error { reason: e.reason.0, seq: e.seq.0 }).ok()?,
        _ => return None,
    })
}

impl World {
    pub fn new() -> Self {
        World {
            cfg: StreamConfig::DEFAULT,
            stream: stream::new(StreamConfig::DEFAULT, 64, 256, 4).expect("a stream of the default settings"),
            payload: Payload::open(MaxPayload::default(), 1400),
            last: "none".to_string(),
        }
    }

    pub fn answer(&mut self, call: Call) -> String {
        self.run(call).unwrap_or_else(refused)
    }

    fn settings(&self) -> Result<(), u32> {
        normal::settings(&self.cfg)
    }

    fn event(&mut self, e: Option<StreamEvent>) -> String {
        self.last = show::event_last(&e);
        show::event(&e)
    }

    /// Settings that are refused leave nothing to tell.
    fn settings_heard(&mut self) -> Result<(), u32> {
        self.last = "none".to_string();
        self.settings()
    }

    /// Each command of a payload by the call that takes it; the others as reading shows them.
    fn hear(&mut self, now: u64, bytes: &[u8]) -> Result<String, u32> {
        let mut answers = Vec::new();
        for found in command_packets(bytes).map_err(normal::packet)? {
            answers.push(call_of(&found, now).map_or_else(|| shown(&found), |call| self.answer(call)));
        }
        Ok(if answers.is_empty() { "-".to_string() } else { answers.join(" | ") })
    }

    fn run(&mut self, call: Call) -> Result<String, u32> {
        let ok = "ok".to_string();
        let w = &mut self.payload.writer;
        Ok(match call {
            Call::Cfg { t1, g, k, r, x, d, m, size } => {
                self.cfg = StreamConfig {
                    idle_interval_ms: t1,
                    idle_growth: g,
                    idle_further: k,
                    fec_repeats: r,
                    retransmit: x,
                    request_delay_ms: d,
                    max_requests: m,
                    max_command_words: usize::try_from(size).unwrap(),
                };
                self.settings()?;
                ok
            }
            Call::New { w, c, q } => {
                self.stream = stream::new(self.cfg, w, c, q)?;
                ok
            }
            Call::Queue(words) => {
                self.settings()?;
                self.stream.send_ump(&self.cfg, &words).map_err(normal::stream)?;
                ok
            }
            Call::Request { seq, count } => {
                self.settings()?;
                match self.stream.on_retransmit_request(&self.cfg, RetransmitRequest { seq: SeqNum(seq), count }) {
                    RequestOutcome::Queued => "queued".to_string(),
                    RequestOutcome::Ignored(Ignored::Pending) => "pending".to_string(),
                    RequestOutcome::Ignored(Ignored::Full) => "full".to_string(),
                    RequestOutcome::NotSupported => "notsupported".to_string(),
                    RequestOutcome::Error(e) => format!("error {} {}", e.reason.0, e.seq.0),
                }
            }
            Call::Open { limit, buffer } => {
                let limit = MaxPayload::new(usize::try_from(limit).unwrap()).map_err(normal::packet)?;
                self.payload = Payload::open(limit, buffer as usize);
                ok
            }
            Call::Raw { code, csd1, csd2, words } => {
                w.command(code, csd1, csd2, |p| words.iter().try_for_each(|x| p.word(*x))).map_err(normal::packet)?;
                ok
            }
            Call::SendData { seq, words } => {
                UmpData::write(w, SeqNum(seq), &words).map_err(normal::command)?;
                ok
            }
            Call::SendRequest { seq, count } => {
                RetransmitRequest { seq: SeqNum(seq), count }.write(w).map_err(normal::command)?;
                ok
            }
            Call::SendError { reason, seq } => {
                RetransmitError { reason: RetransmitErrorReason(reason), seq: SeqNum(seq) }.write(w).map_err(normal::command)?;
                ok
            }
            Call::Write(now) => {
                normal::settings(&self.cfg)?;
                let out = self.stream.write_data(&self.cfg, now, w).map_err(normal::stream)?;
                format!("ok {} {} {}", out.commands, u8::from(out.more), w.len())
            }
            Call::Payload => hex_bytes(&self.payload.buffer[..w.len()]),
            Call::Buffer => hex_bytes(&normal::buffer(&self.payload.buffer, w.len(), FILL)),
            Call::Read(bytes) => reading(&bytes),
            Call::Hear { now, bytes } => self.hear(now, &bytes)?,
            Call::Data { now, seq, words } => {
                self.settings_heard()?;
                let bytes: Vec<u8> = words.iter().flat_map(|w| w.to_be_bytes()).collect();
                let found = self.stream.on_ump_data(&self.cfg, now, UmpData::read(&raw(seq, &bytes)));
                self.last = show::delivery_last(&found);
                show::delivery(&found)
            }
            Call::Poll(now) => {
                self.settings_heard()?;
                let event = self.stream.poll(&self.cfg, now);
                self.event(event)
            }
            Call::Error { reason, seq } => {
                let event = self.stream.on_retransmit_error(RetransmitError { reason: RetransmitErrorReason(reason), seq: SeqNum(seq) });
                self.event(Some(event))
            }
            Call::Nak => {
                let event = self.stream.on_retransmit_nak();
                self.event(event)
            }
            Call::Take => {
                normal::settings(&self.cfg)?;
                let before = w.len();
                if self.stream.write_request(&self.cfg, w).map_err(normal::stream)? {
                    "more".to_string()
                } else {
                    format!("ok {}", u8::from(w.len() != before))
                }
            }
            Call::Reset => {
                self.stream.reset();
                ok
            }
            Call::Deadline => self.stream.next_deadline().map_or("none".to_string(), |t| t.to_string()),
            Call::Wants(now) => u8::from(self.stream.wants_write(now)).to_string(),
            Call::State => self.stream.state(),
            Call::Memory => self.stream.memory(),
            Call::Window { seq, count } => self.stream.window(SeqRange { first: SeqNum(seq), count }),
            Call::Next => self.stream.next_seq().0.to_string(),
            Call::Last => self.last.clone(),
        })
    }
}
