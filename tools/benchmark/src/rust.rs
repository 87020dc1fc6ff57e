//! The Rust's side. Each call is kept apart (`inline(never)`), as a program's calls are that come with packets and
//! timers; what it calls is inlined into it as the compiler likes.
use crate::side::{LARGE, LIMIT, PLACES, SMALL, Side, Stream, WINDOW, delivery, fold};
use std::collections::VecDeque;
use zmidi_net::command::{Command, RetransmitError, RetransmitRequest, SeqNum, UmpData, UmpMessages};
use zmidi_net::packet::{Header, MaxPayload, PacketItem, PayloadWriter, RawCommand, command_packets};
use zmidi_net::stream::{Class, DataStream, Ignored, ReceiveWindow, RequestOutcome, SeqRange, StreamConfig, StreamEvent};

const CFG: StreamConfig = StreamConfig::DEFAULT;

pub struct Rust;

/// A loss sheet as one would write it: the Rust has none.
pub struct Sheet {
    n: usize,
    held: VecDeque<(u8, u16)>,
    figures: [u32; 4],
}

pub struct Ends<const C: usize>(Box<DataStream<WINDOW, C, PLACES>>);

fn told(class: Class, lost: Option<SeqRange>) -> u64 {
    let (first, count) = lost.map_or((0, 0), |r| (r.first.0, r.count));
    match class {
        Class::New { gap } => delivery(0, gap, first, count),
        Class::Late => delivery(1, 0, first, count),
        Class::Duplicate => delivery(2, 0, first, count),
    }
}

#[inline(always)]
fn messages(mut walk: UmpMessages<'_>, mut sum: u64) -> u64 {
    for m in walk.by_ref() {
        for w in m.words() {
            sum = fold(sum, (*w).into());
        }
    }
    fold(sum, walk.truncated().into())
}

#[inline(always)]
fn commands(payload: &[u8], mut data: impl FnMut(u64, UmpData<'_>) -> u64) -> u64 {
    let Ok(items) = command_packets(payload) else { return 0 };
    let mut sum = 0;
    for item in items {
        match item {
            PacketItem::Truncated(_) => return fold(sum, 1),
            PacketItem::Command(raw) => {
                sum = match Command::parse(raw) {
                    Ok(Command::UmpData(d)) => data(sum, d),
                    Ok(Command::RetransmitRequest(_)) => fold(sum, 2),
                    Ok(Command::RetransmitError(_)) => fold(sum, 3),
                    _ => fold(sum, 0),
                }
            }
        }
    }
    fold(sum, 0)
}

#[inline(never)]
fn new_apart(buf: &mut [u8]) -> PayloadWriter<'_> {
    PayloadWriter::new(buf, limit())
}

#[inline(never)]
fn write_apart(w: &mut PayloadWriter<'_>, seq: u16, words: &[u32]) -> bool {
    UmpData::write(w, SeqNum(seq), words).is_ok()
}

fn limit() -> MaxPayload {
    MaxPayload::new(LIMIT).expect("a limit that is taken")
}

impl Side for Rust {
    type Window = ReceiveWindow<WINDOW>;
    type Small = Ends<SMALL>;
    type Large = Ends<LARGE>;
    type Sheet = Sheet;

    #[inline(never)]
    fn read(payload: &[u8]) -> u64 {
        commands(payload, |sum, d| messages(d.messages(), fold(sum, d.seq.0.into())))
    }

    #[inline(never)]
    fn write_data(buf: &mut [u8], seq: u16, words: &[u32]) -> usize {
        let mut w = PayloadWriter::new(buf, limit());
        UmpData::write(&mut w, SeqNum(seq), words).expect("words that fit");
        w.len()
    }

    fn write_data_apart(buf: &mut [u8], seq: u16, words: &[u32]) -> usize {
        let mut w = new_apart(buf);
        assert!(write_apart(&mut w, seq, words));
        w.len()
    }

    fn window() -> ReceiveWindow<WINDOW> {
        ReceiveWindow::new()
    }

    #[inline(never)]
    fn accept(w: &mut ReceiveWindow<WINDOW>, seq: u16) -> u64 {
        let a = w.accept(SeqNum(seq));
        told(a.class, a.lost)
    }

    /// One after the other: there is no jump in the Rust.
    #[inline(never)]
    fn drawn(seed: u32, n: u16) -> u32 {
        (0..n).fold(seed, |last, _| draw(last))
    }

    #[inline(never)]
    fn link(figure: u16, steps: u32) -> (u32, u32) {
        let mut link = Link::new();
        let (mut load, mut line) = (1, 2);
        for now in 0..steps {
            (load, line) = (draw(load), draw(line));
            link.step(now.into(), load, line % 256 >= figure.into());
        }
        (link.handed, link.losses)
    }

    fn sheet(n: usize) -> Sheet {
        Sheet { n, held: VecDeque::with_capacity(n), figures: [0; 4] }
    }

    #[inline(never)]
    fn figures(sheet: &mut Sheet, block: &[u8], out: &mut [u8]) {
        for (record, out) in block.chunks_exact(16).zip(out.chunks_exact_mut(16)) {
            if sheet.held.len() == sheet.n {
                let (class, lost) = sheet.held.pop_front().expect("n is not 0");
                sheet.figures[usize::from(class)] -= 1;
                sheet.figures[3] -= u32::from(lost);
            }
            let lost = u16::from_be_bytes([record[12], record[13]]);
            sheet.held.push_back((record[10], lost));
            sheet.figures[usize::from(record[10])] += 1;
            sheet.figures[3] += u32::from(lost);
            for (figure, to) in sheet.figures.iter().zip(out.chunks_exact_mut(4)) {
                to.copy_from_slice(&figure.to_be_bytes());
            }
        }
    }
}

fn draw(last: u32) -> u32 {
    last.wrapping_mul(1_664_525).wrapping_add(1_013_904_223)
}

/// A pretend link, as a program over the Rust has it.
struct Link {
    console: Box<DataStream<WINDOW, SMALL, PLACES>>,
    chamber: Box<DataStream<WINDOW, SMALL, PLACES>>,
    /// The error that stands first in the console's next payload.
    waiting: Option<RetransmitError>,
    handed: u32,
    losses: u32,
}

impl Link {
    fn new() -> Self {
        let end = || Box::new(DataStream::new(CFG).expect("settings that are taken"));
        Link { console: end(), chamber: end(), waiting: None, handed: 0, losses: 0 }
    }

    fn step(&mut self, now: u64, load: u32, carried: bool) {
        if load >> 31 == 1 {
            // Words for which there is no room are dropped.
            let _ = self.console.send_ump(&CFG, &[0x2090_3C40; 8][..(load >> 28) as usize - 7]);
        }
        let mut buf = [0; LIMIT];
        let mut w = PayloadWriter::new(&mut buf, limit());
        if let Some(e) = self.waiting.take() {
            e.write(&mut w).expect("an error fits an empty payload");
        }
        self.console.write_data(&CFG, now, &mut w).expect("commands that fit");
        let len = w.len();
        if carried {
            for item in command_packets(&buf[..len]).into_iter().flatten() {
                let PacketItem::Command(raw) = item else { unreachable!("payloads arrive whole") };
                match Command::parse(raw) {
                    Ok(Command::UmpData(data)) => {
                        let d = self.chamber.on_ump_data(&CFG, now, data);
                        self.handed += u32::from(d.delivers());
                        self.losses += u32::from(d.lost.is_some());
                    }
                    Ok(Command::RetransmitError(e)) => {
                        self.losses += u32::from(matches!(self.chamber.on_retransmit_error(e), StreamEvent::DataLoss { .. }));
                    }
                    _ => {}
                }
            }
        }
        self.losses += u32::from(matches!(self.chamber.poll(&CFG, now), Some(StreamEvent::DataLoss { .. })));
        let mut w = PayloadWriter::new(&mut buf, limit());
        self.chamber.write_data(&CFG, now, &mut w).expect("a request fits");
        let len = w.len();
        for item in command_packets(&buf[..len]).into_iter().flatten() {
            let PacketItem::Command(raw) = item else { unreachable!("payloads arrive whole") };
            if let Ok(Command::RetransmitRequest(req)) = Command::parse(raw) {
                if let RequestOutcome::Error(e) = self.console.on_retransmit_request(&CFG, req) {
                    self.waiting = Some(e);
                }
            }
        }
    }
}

impl<const C: usize> Stream for Ends<C> {
    fn fresh() -> Self {
        Ends(Box::new(DataStream::new(CFG).expect("settings that are taken")))
    }

    #[inline(never)]
    fn send(&mut self, words: &[u32]) {
        self.0.send_ump(&CFG, words).expect("words that fit");
    }

    #[inline(never)]
    fn write(&mut self, now: u64, buf: &mut [u8]) -> (usize, bool) {
        let mut w = PayloadWriter::new(buf, limit());
        let written = self.0.write_data(&CFG, now, &mut w).expect("commands that fit");
        (w.len(), written.more)
    }

    #[inline(never)]
    fn heard(&mut self, now: u64, seq: u16) -> u64 {
        let [a, b] = seq.to_be_bytes();
        let header = Header { code: 0xFF, len: 0, csd1: a, csd2: b };
        let d = self.0.on_ump_data(&CFG, now, UmpData::read(&RawCommand { header, payload: &[] }));
        told(d.class, d.lost)
    }

    #[inline(never)]
    fn receive(&mut self, now: u64, payload: &[u8]) -> u64 {
        commands(payload, |sum, data| {
            let d = self.0.on_ump_data(&CFG, now, data);
            let sum = fold(sum, told(d.class, d.lost));
            if d.delivers() { messages(d.messages(), sum) } else { sum }
        })
    }

    #[inline(never)]
    fn hear(&mut self, now: u64, payload: &[u8]) -> u64 {
        commands(payload, |sum, data| {
            let d = self.0.on_ump_data(&CFG, now, data);
            fold(sum, told(d.class, d.lost))
        })
    }

    #[inline(never)]
    fn request(&mut self, seq: u16, count: u16) -> u64 {
        match self.0.on_retransmit_request(&CFG, RetransmitRequest { seq: SeqNum(seq), count }) {
            RequestOutcome::Queued => 0,
            RequestOutcome::Ignored(Ignored::Pending) => 1,
            RequestOutcome::Ignored(Ignored::Full) => 2,
            RequestOutcome::Error(_) => 3,
            RequestOutcome::NotSupported => 4,
        }
    }

    #[inline(never)]
    fn poll(&mut self, now: u64) -> u64 {
        match self.0.poll(&CFG, now) {
            None => 0,
            Some(StreamEvent::DataLoss { error: None, .. }) => 1,
            Some(StreamEvent::DataLoss { .. }) => 2,
            Some(StreamEvent::RetransmitError(_)) => 3,
        }
    }

    #[inline(never)]
    fn wants(&self, now: u64) -> bool {
        self.0.wants_write(now)
    }
}
