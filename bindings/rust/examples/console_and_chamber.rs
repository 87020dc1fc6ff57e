//! A console plays notes to a chamber over a line that loses, doubles and delays payloads. At the end
//! each change that was played, a note-on or a note-off, was handed on once, or its command's number lies
//! in a reported loss.
//!
//! So that no pipe sounds on, the chamber tells the library what its stream answered, which says which
//! notes are held: a late command releases notes and never holds one, since its release may already have
//! come; a reported loss releases all held notes.
//!
//! Built and run by tools/run_rust_example; takes the generator's seed as an argument.
use sirmjold::{
    Class, HeldNotes, Payload, Read, Reader, RequestOutcome, SeqRange, Stream, StreamConfig,
    StreamEvent,
};

/// Note-ons and note-offs by turns.
const CHANGES: usize = 400;
const KEYS: u32 = 61;
const LIMIT: usize = 1400;
/// Words of the send history: 32 commands of one word.
const RING: usize = 65;
/// When the line is dead, in ms.
const OUT: std::ops::Range<u64> = 700..1000;

/// A stream that holds its own history.
type End = Stream<[u32; RING]>;

/// A generator of 32 bits (xorshift).
struct Random(u32);

impl Random {
    fn next(&mut self) -> u32 {
        self.0 ^= self.0 << 13;
        self.0 ^= self.0 >> 17;
        self.0 ^= self.0 << 5;
        self.0
    }
}

/// A payload on the way.
struct Flying {
    to_chamber: bool,
    due: u64,
    bytes: Vec<u8>,
}

/// The line, and what became of the payloads.
struct Line {
    random: Random,
    flying: Vec<Flying>,
    sent: usize,
    dropped: usize,
    doubled: usize,
}

impl Line {
    fn put(&mut self, to_chamber: bool, now: u64, bytes: &[u8]) {
        self.sent += 1;
        let copies = match self.random.next() % 100 {
            n if n < 25 || OUT.contains(&now) => {
                self.dropped += 1;
                0
            }
            25..=34 => {
                self.doubled += 1;
                2
            }
            _ => 1,
        };
        for _ in 0..copies {
            let due = now + 1 + u64::from(self.random.next() % 8);
            self.flying.push(Flying {
                to_chamber,
                due,
                bytes: bytes.to_vec(),
            });
        }
    }

    /// Takes the payloads that have arrived.
    fn arrived(&mut self, now: u64) -> Vec<Flying> {
        let (there, on_the_way) = self.flying.drain(..).partition(|f| f.due <= now);
        self.flying = on_the_way;
        there
    }
}

/// The change with this number, a MIDI 1.0 message of one word: each note-off follows its note-on.
fn change(n: usize) -> u32 {
    let key = 36 + n as u32 / 2 % KEYS;
    [0x2090_0040, 0x2080_0000][n % 2] | key << 8
}

/// What the chamber has heard, and which pipes sound.
struct Book {
    handed: Vec<usize>,
    lost: Vec<bool>,
    reports: usize,
    held: HeldNotes,
    notes_held: usize,
    late_ons: usize,
    let_go: usize,
}

impl Book {
    fn sounding(&self) -> usize {
        self.held.notes().count()
    }

    /// A loss: its numbers.
    fn report(&mut self, range: SeqRange) {
        self.reports += 1;
        for k in 0..range.count {
            self.lost[usize::from(range.first.wrapping_add(k))] = true;
        }
    }

    /// A poll or a Retransmit Error was answered so.
    fn told(&mut self, event: &StreamEvent) {
        self.let_go += self.held.told(event).notes().count();
        if let StreamEvent::DataLoss(range) | StreamEvent::ErrorLoss(range, _) = *event {
            self.report(range);
        }
    }

    /// A change was handed on.
    fn hand_on(&mut self, n: usize, class: Class) {
        self.handed[n] += 1;
        if n % 2 == 0 {
            match class {
                Class::Late => self.late_ons += 1,
                _ => self.notes_held += 1,
            }
        }
    }
}

/// Writes what an end has to write, payload by payload.
fn flush(end: &mut End, cfg: &StreamConfig, to_chamber: bool, now: u64, line: &mut Line) {
    while end.wants_write(now).unwrap() {
        let mut payload = Payload::new(LIMIT, [0; LIMIT]).unwrap();
        let written = end.write_data(cfg, now, &mut payload).unwrap();
        if written.commands > 0 {
            line.put(to_chamber, now, payload.bytes());
        }
        if !written.more {
            break;
        }
    }
}

fn arrive(
    end: &mut End,
    cfg: &StreamConfig,
    f: &Flying,
    now: u64,
    line: &mut Line,
    book: &mut Book,
) {
    let mut reader = Reader::new();
    let mut commands = reader.read(&f.bytes);
    while let Some(command) = commands.next_command().unwrap() {
        match command {
            Read::UmpData(data) => {
                let delivery = end.on_ump_data(cfg, now, data.seq).unwrap();
                book.let_go += book.held.delivered(&delivery, &data).notes().count();
                if let Some(range) = delivery.lost {
                    book.report(range);
                }
                if delivery.class != Class::Duplicate {
                    for message in data.messages() {
                        let n = usize::from(data.seq);
                        assert_eq!(
                            message,
                            [change(n)],
                            "a change in another command than its own"
                        );
                        book.hand_on(n, delivery.class);
                    }
                }
            }
            Read::RetransmitRequest(req) => {
                if let RequestOutcome::Error(err) = end.on_retransmit_request(cfg, req).unwrap() {
                    let mut payload = Payload::new(LIMIT, [0; LIMIT]).unwrap();
                    payload.retransmit_error(err).unwrap();
                    line.put(true, now, payload.bytes());
                }
            }
            Read::RetransmitError(err) => book.told(&end.on_retransmit_error(err).unwrap()),
            other => panic!("a command that nobody wrote: {other:?}"),
        }
    }
}

fn main() {
    let seed = std::env::args()
        .nth(1)
        .map_or(2463534242, |s| s.parse().expect("a seed"));
    println!("seed {seed}");
    let cfg = StreamConfig::default();
    let mut console = Stream::new(&cfg, 64, 16, [0; RING]).unwrap();
    let mut chamber = Stream::new(&cfg, 64, 16, [0; RING]).unwrap();
    let mut line = Line {
        random: Random(if seed == 0 { 1 } else { seed }),
        flying: Vec::new(),
        sent: 0,
        dropped: 0,
        doubled: 0,
    };
    let mut book = Book {
        handed: vec![0; CHANGES],
        lost: vec![false; 65536],
        reports: 0,
        held: HeldNotes::start(0).unwrap(),
        notes_held: 0,
        late_ons: 0,
        let_go: 0,
    };
    let mut played = 0;
    for now in 0..6000 {
        if played < CHANGES && now % 5 == 0 {
            // each change is written before the next is played: its command has its number
            console.send_ump(&cfg, &[change(played)]).unwrap();
            played += 1;
        }
        book.told(&chamber.poll(&cfg, now).unwrap());
        flush(&mut console, &cfg, true, now, &mut line);
        flush(&mut chamber, &cfg, false, now, &mut line);
        for f in line.arrived(now) {
            let end = if f.to_chamber {
                &mut chamber
            } else {
                &mut console
            };
            arrive(end, &cfg, &f, now, &mut line, &mut book);
        }
    }
    let mut on = 0;
    for n in 0..played {
        match book.handed[n] {
            0 => assert!(
                book.lost[n],
                "change {n} was neither handed on nor reported lost"
            ),
            1 => on += 1,
            times => panic!("change {n} was handed on {times} times"),
        }
    }
    assert_eq!(book.sounding(), 0, "pipes sound on");
    println!(
        "payloads {}, lost on the line {}, doubled {}",
        line.sent, line.dropped, line.doubled
    );
    println!(
        "changes played {played}, handed on {on}, in a reported loss {} ({} reports)",
        played - on,
        book.reports
    );
    println!(
        "notes held {}, late and not held {}, released by a loss {}, sounding at the end {}",
        book.notes_held,
        book.late_ons,
        book.let_go,
        book.sounding()
    );
}
