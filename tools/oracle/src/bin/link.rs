//! Runs on a pretend link (02's 7/14) with the Rust's streams at both ends: the lines and answers of the program
//! `link_trial`, for the sizes that `stream.rs` has.
use oracle::line::decimal;
use oracle::stream::{self, Stream};
use oracle::{lines, normal};
use zmidi_net::command::{Command, RetransmitError};
use zmidi_net::packet::{MaxPayload, PacketItem, PayloadWriter, command_packets};
use zmidi_net::stream::{RequestOutcome, StreamConfig, StreamEvent};

const LIMIT: usize = 1400;
const WORD: u32 = 0x2090_3C40;

/// The next value of a seed, and the words that a value asks to send.
fn draw(last: u32) -> u32 {
    last.wrapping_mul(1_664_525).wrapping_add(1_013_904_223)
}

fn words(value: u32) -> &'static [u32] {
    if value >> 31 == 0 { &[] } else { &[WORD; 8][..(value >> 28) as usize - 7] }
}

struct Trial {
    cfg: StreamConfig,
    sizes: (u64, u64, u64),
    seed: u32,
    drop: u32,
    figure: u16,
    budget: u32,
}

fn trial(line: &[u8]) -> Option<Trial> {
    if line.len() > 4096 {
        return None;
    }
    let fields: Vec<&str> = std::str::from_utf8(line).ok()?.split(' ').collect();
    let [t1, g, k, r, x, d, m, size, w, c, q, seed, drop, figure, budget] = fields[..] else { return None };
    let narrow = |f| decimal::<u32>(f).map(u64::from);
    Some(Trial {
        cfg: StreamConfig {
            idle_interval_ms: decimal(t1)?,
            idle_growth: decimal(g)?,
            idle_further: decimal(k)?,
            fec_repeats: decimal(r)?,
            retransmit: match decimal::<u8>(x)? {
                0 => false,
                1 => true,
                _ => return None,
            },
            request_delay_ms: decimal(d)?,
            max_requests: decimal(m)?,
            max_command_words: narrow(size)? as usize,
        },
        sizes: (narrow(w)?, narrow(c)?, narrow(q)?),
        seed: decimal(seed)?,
        drop: decimal(drop)?,
        figure: decimal(figure)?,
        budget: decimal(budget)?,
    })
}

struct Link {
    cfg: StreamConfig,
    console: Box<dyn Stream>,
    chamber: Box<dyn Stream>,
    /// The error that stands first in the console's next payload.
    waiting: Option<RetransmitError>,
    handed: u64,
    losses: u64,
}

/// What an end writes at this time, behind an error that waits.
fn written(end: &mut dyn Stream, cfg: &StreamConfig, now: u64, error: Option<RetransmitError>, buf: &mut [u8; LIMIT]) -> usize {
    let mut w = PayloadWriter::new(buf, MaxPayload::default());
    if let Some(e) = error {
        e.write(&mut w).expect("an error fits an empty payload");
    }
    end.write_data(cfg, now, &mut w).expect("a write is not refused");
    w.len()
}

/// The commands of a payload.
fn commands(payload: &[u8]) -> impl Iterator<Item = Command<'_>> {
    command_packets(payload).into_iter().flatten().map(|item| match item {
        PacketItem::Command(raw) => Command::parse(raw).expect("a command that was written"),
        PacketItem::Truncated(_) => unreachable!("payloads arrive whole"),
    })
}

impl Link {
    fn step(&mut self, now: u64, load: u32, carried: bool) {
        if let Err(e) = self.console.send_ump(&self.cfg, words(load)) {
            assert_eq!(normal::stream(e), 6, "words are refused with 6 alone");
        }
        let mut buf = [0; LIMIT];
        let len = written(&mut *self.console, &self.cfg, now, self.waiting.take(), &mut buf);
        if carried {
            commands(&buf[..len]).for_each(|c| self.hear(now, c));
        }
        self.losses += u64::from(matches!(self.chamber.poll(&self.cfg, now), Some(StreamEvent::DataLoss { .. })));
        let len = written(&mut *self.chamber, &self.cfg, now, None, &mut buf);
        commands(&buf[..len]).for_each(|c| self.answer(c));
    }

    fn hear(&mut self, now: u64, command: Command<'_>) {
        match command {
            Command::UmpData(data) => {
                let d = self.chamber.on_ump_data(&self.cfg, now, data);
                self.handed += u64::from(d.delivers());
                self.losses += u64::from(d.lost.is_some());
            }
            Command::RetransmitError(e) => {
                self.losses += u64::from(matches!(self.chamber.on_retransmit_error(e), StreamEvent::DataLoss { .. }));
            }
            _ => unreachable!("the console asks for nothing"),
        }
    }

    fn answer(&mut self, command: Command<'_>) {
        let Command::RetransmitRequest(req) = command else { unreachable!("the chamber plays nothing") };
        if let RequestOutcome::Error(e) = self.console.on_retransmit_request(&self.cfg, req) {
            self.waiting = Some(e);
        }
    }
}

/// The steps done, commands handed on and losses reported, or the number of a refusal.
fn run(t: &Trial) -> Result<(u32, u64, u64), u32> {
    normal::settings(&t.cfg)?;
    let (w, c, q) = t.sizes;
    normal::sizes(w, c, q)?;
    normal::budget(t.budget)?;
    let end = || stream::new(t.cfg, w, c, q);
    let mut link = Link { cfg: t.cfg, console: end()?, chamber: end()?, waiting: None, handed: 0, losses: 0 };
    let (mut load, mut line) = (t.seed, t.drop);
    for now in 0..t.budget {
        (load, line) = (draw(load), draw(line));
        link.step(now.into(), load, line % 256 >= t.figure.into());
    }
    Ok((t.budget, link.handed, link.losses))
}

fn main() {
    lines::answer(|line| match trial(line).as_ref().map(run) {
        None => "bad".to_string(),
        Some(Err(number)) => format!("refused {number}"),
        Some(Ok((steps, handed, losses))) => format!("{steps} {handed} {losses}"),
    });
}
