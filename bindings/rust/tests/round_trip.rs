//! Two ends play to each other over lines that lose, double and delay payloads. At the end each command that was played was
//! handed on once, with its words, or lies in a reported loss.
use sirmjold::{
    Class, Load, Payload, Read, Reader, RequestOutcome, SeqRange, Stream, StreamConfig, StreamEvent,
};

/// ms after the last command, in which nothing is lost: idle commands bring the last numbers to light.
const QUIET: u64 = 1000;

/// What a line does to payloads.
#[derive(Clone, Copy)]
struct Line {
    /// Of 100 payloads.
    lost: u32,
    /// Of 100 payloads.
    doubled: u32,
    /// The longest way, in ms.
    delay: u32,
}

/// The message of a position, of two words.
fn message(position: usize) -> [u32; 2] {
    [0x4090_3C00, position as u32]
}

/// One end, and what it was handed of the other's commands.
struct End {
    stream: Stream<Vec<u32>>,
    /// How often each position was handed on.
    handed: Vec<usize>,
    /// Whether it lies in a reported loss.
    lost: Vec<bool>,
    reports: usize,
    /// The highest position heard.
    highest: usize,
}

impl End {
    fn new(cfg: &StreamConfig, commands: usize) -> End {
        End {
            stream: Stream::new(cfg, 64, 16, vec![0; 256]).unwrap(),
            handed: vec![0; commands],
            lost: vec![false; commands],
            reports: 0,
            highest: 0,
        }
    }

    /// The position of a number, which is nearest to the highest.
    fn position(&self, seq: u16) -> usize {
        let ahead = seq.wrapping_sub(self.highest as u16) as i16;
        self.highest.checked_add_signed(ahead.into()).unwrap()
    }

    /// A loss is reported; idle commands lie behind all that was played.
    fn report(&mut self, range: SeqRange) {
        self.reports += 1;
        let first = self.position(range.first);
        for position in first..first + usize::from(range.count) {
            if let Some(lost) = self.lost.get_mut(position) {
                *lost = true;
            }
        }
    }

    fn told(&mut self, event: StreamEvent) {
        if let StreamEvent::DataLoss(range) | StreamEvent::ErrorLoss(range, _) = event {
            self.report(range);
        }
    }

    /// A payload arrives. The payload that answers it, if one has to.
    fn hear(&mut self, cfg: &StreamConfig, time: u64, bytes: &[u8]) -> Option<Vec<u8>> {
        let mut answer = Payload::new(1400, [0; 1400]).unwrap();
        let mut reader = Reader::new();
        let mut commands = reader.read(bytes);
        while let Some(command) = commands.next_command().unwrap() {
            match command {
                Read::UmpData(data) => {
                    let delivery = self.stream.on_ump_data(cfg, time, data.seq).unwrap();
                    let position = self.position(data.seq);
                    self.highest = self.highest.max(position);
                    delivery
                        .lost
                        .into_iter()
                        .for_each(|range| self.report(range));
                    if delivery.class != Class::Duplicate && position < self.handed.len() {
                        assert_eq!(data.words, message(position));
                        self.handed[position] += 1;
                    }
                }
                Read::RetransmitRequest(request) => {
                    let outcome = self.stream.on_retransmit_request(cfg, request).unwrap();
                    if let RequestOutcome::Error(error) = outcome {
                        answer.retransmit_error(error).unwrap();
                    }
                }
                Read::RetransmitError(error) => {
                    let event = self.stream.on_retransmit_error(error).unwrap();
                    self.told(event);
                }
                other => panic!("a command that nobody wrote: {other:?}"),
            }
        }
        let bytes = answer.bytes();
        (!bytes.is_empty()).then(|| bytes.to_vec())
    }

    /// All that there is to write, payload by payload.
    fn write(&mut self, cfg: &StreamConfig, time: u64) -> Vec<Vec<u8>> {
        let mut payloads = Vec::new();
        let mut payload = Payload::new(1400, vec![0; 1400]).unwrap();
        while self.stream.wants_write(time).unwrap() {
            payload.clear();
            if self
                .stream
                .write_data(cfg, time, &mut payload)
                .unwrap()
                .commands
                > 0
            {
                payloads.push(payload.bytes().to_vec());
            }
        }
        payloads
    }
}

/// A payload on the way to an end.
struct Flying {
    to: usize,
    due: u64,
    bytes: Vec<u8>,
}

/// Each end plays a command in each ms; all is accounted for. How many were handed on, and how many losses reported.
fn play(seed: u32, cfg: StreamConfig, line: Line, commands: usize) -> (usize, usize) {
    let mut load = Load::new(seed);
    let mut below = |n| (load.draw() >> 8) % n;
    let mut ends = [End::new(&cfg, commands), End::new(&cfg, commands)];
    // where nothing is asked for, what is missing is reported when it leaves the window: the last commands get through
    let lossy = commands as u64 - if cfg.retransmit { 0 } else { 200 };
    let mut flying: Vec<Flying> = Vec::new();
    for time in 0..commands as u64 + QUIET {
        let mut sent = Vec::new();
        for (to, end) in ends.iter_mut().enumerate() {
            if time < commands as u64 {
                end.stream.send_ump(&cfg, &message(time as usize)).unwrap();
            }
            let event = end.stream.poll(&cfg, time).unwrap();
            end.told(event);
            sent.extend(
                end.write(&cfg, time)
                    .into_iter()
                    .map(|bytes| (1 - to, bytes)),
            );
        }
        let (there, on_the_way) = flying.into_iter().partition(|f| f.due <= time);
        flying = on_the_way;
        for Flying { to, bytes, .. } in there {
            let answer = ends[to].hear(&cfg, time, &bytes);
            sent.extend(answer.map(|bytes| (1 - to, bytes)));
        }
        for (to, bytes) in sent {
            let copies = match below(100) {
                n if n < line.lost && time < lossy => 0,
                n if n >= 100 - line.doubled => 2,
                _ => 1,
            };
            for _ in 0..copies {
                let due = time + 1 + u64::from(below(line.delay));
                flying.push(Flying {
                    to,
                    due,
                    bytes: bytes.clone(),
                });
            }
        }
    }
    for end in &ends {
        for (position, &times) in end.handed.iter().enumerate() {
            assert!(
                times <= 1,
                "position {position} was handed on {times} times"
            );
            assert!(
                times == 1 || end.lost[position],
                "position {position} is unaccounted for"
            );
        }
    }
    let handed = ends.iter().flat_map(|end| &end.handed).sum();
    (handed, ends.iter().map(|end| end.reports).sum())
}

const CLEAN: Line = Line {
    lost: 0,
    doubled: 0,
    delay: 1,
};
const WILD: Line = Line {
    lost: 30,
    doubled: 10,
    delay: 20,
};

#[test]
fn a_clean_line_hands_on_all() {
    for fec_repeats in [0, 2] {
        let cfg = StreamConfig {
            fec_repeats,
            ..StreamConfig::default()
        };
        assert_eq!(play(1, cfg, CLEAN, 2000), (4000, 0));
    }
}

#[test]
fn a_line_that_reorders_hands_on_all() {
    let line = Line { lost: 0, ..WILD };
    let cfg = StreamConfig {
        request_delay_ms: 100,
        ..StreamConfig::default()
    };
    assert_eq!(play(2, cfg, line, 2000), (4000, 0));
}

#[test]
fn wild_lines() {
    for seed in 1..=10 {
        for (fec_repeats, retransmit) in [(0, false), (0, true), (2, false), (2, true)] {
            let cfg = StreamConfig {
                fec_repeats,
                retransmit,
                ..StreamConfig::default()
            };
            let (handed, reports) = play(seed, cfg, WILD, 1000);
            assert!(
                handed > 1000,
                "of 2000 no more than {handed} were handed on"
            );
            assert!(fec_repeats > 0 || retransmit || reports > 0);
        }
    }
}

#[test]
fn numbers_go_round() {
    let (handed, _) = play(3, StreamConfig::default(), WILD, 70_000);
    assert!(handed > 130_000);
}
