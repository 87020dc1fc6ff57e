//! The rows: each makes a batch for a side. A batch does `units` units of work, goes on from the state that the
//! last one left, and gives a sum of the answers.
use crate::ours::{self, Ours};
use crate::rust::Rust;
use crate::side::{LIMIT, SMALL, Side, Stream, fold};
use std::hint::black_box;

pub type Batch = Box<dyn FnMut() -> u64>;

pub struct Row {
    pub name: String,
    /// What one unit is.
    pub unit: &'static str,
    pub units: u32,
    /// A series of rows over a size, and the size.
    pub series: Option<(&'static str, usize)>,
    pub ours: fn(usize) -> Batch,
    pub rust: fn(usize) -> Batch,
    /// The library's tests of one unit alone.
    pub tests: Option<fn(usize) -> Batch>,
    /// The words of one unit alone, copied straight with their bytes swapped; only where there are tests.
    pub copy: Option<fn(usize) -> Batch>,
}

const UNITS: u32 = 256;
/// The records of a block, as many as a call takes.
const RECORDS: u32 = 4096;

/// A message of one word.
fn note(n: u32) -> u32 {
    0x2090_0000 | (n & 0xFFFF)
}

/// A payload with data commands of `each` words, as many as fit in `bytes`; the last one shorter.
fn payload(each: usize, bytes: usize) -> Vec<u8> {
    let mut p = b"MIDI".to_vec();
    let mut seq = 0u16;
    while p.len() + 8 <= bytes {
        let n = each.min((bytes - p.len()) / 4 - 1);
        p.extend([0xFF, n as u8]);
        p.extend(seq.to_be_bytes());
        for k in 0..n {
            p.extend(note(k as u32).to_be_bytes());
        }
        seq += 1;
    }
    p
}

/// What a console plays: so many words each time, or 1 to 4 of them drawn anew.
struct Load {
    words: Vec<u32>,
    drawn: bool,
    seed: u32,
}

/// The count of words that stands for 1 to 4 drawn ones.
const DRAWN: usize = 0;

impl Load {
    fn new(words: usize) -> Load {
        let drawn = words == DRAWN;
        Load { words: (0..if drawn { 4 } else { words as u32 }).map(note).collect(), drawn, seed: 1 }
    }

    fn next(&mut self) -> &[u32] {
        if self.drawn {
            self.seed = self.seed.wrapping_mul(1_664_525).wrapping_add(1_013_904_223);
            return &self.words[..1 + (self.seed >> 30) as usize];
        }
        &self.words
    }
}

fn reading<S: Side>(p: Vec<u8>) -> Batch {
    Box::new(move || (0..UNITS).fold(0, |sum, _| fold(sum, S::read(black_box(&p)))))
}

fn read_blocks<S: Side>(bytes: usize) -> Batch {
    reading::<S>(payload(64, bytes))
}

fn read_notes<S: Side>(bytes: usize) -> Batch {
    reading::<S>(payload(1, bytes))
}

/// The payload of `bytes` without its last four.
fn read_cut<S: Side>(bytes: usize) -> Batch {
    let mut p = payload(64, bytes);
    p.truncate(bytes - 4);
    reading::<S>(p)
}

fn writing(words: usize, write: impl Fn(&mut [u8], u16, &[u32]) -> usize + 'static) -> Batch {
    let words: Vec<u32> = (0..words as u32).map(note).collect();
    let mut buf = vec![0; LIMIT];
    Box::new(move || {
        (0..UNITS).fold(0, |sum, k| {
            let len = write(&mut buf, k as u16, black_box(&words));
            fold(sum, len as u64 + u64::from(buf[len - 1]))
        })
    })
}

fn write_command<S: Side>(words: usize) -> Batch {
    writing(words, S::write_data)
}

fn write_command_apart<S: Side>(words: usize) -> Batch {
    writing(words, S::write_data_apart)
}

/// Numbers that arrive, as steps from the number before: `steps` over and over.
fn arrivals(steps: &'static [i16]) -> impl FnMut() -> u16 {
    let (mut seq, mut k) = (0xFFFFu16, 0);
    move || {
        seq = seq.wrapping_add_signed(steps[k]);
        k = (k + 1) % steps.len();
        seq
    }
}

/// In order; every fourth skipped; every fourth late; each twice.
const ARRIVALS: [&[i16]; 4] = [&[1], &[1, 1, 2], &[1, 1, 2, -1, 2], &[1, 0]];

fn accept<S: Side>(kind: usize) -> Batch {
    let mut window = S::window();
    let mut next = arrivals(ARRIVALS[kind]);
    Box::new(move || (0..UNITS).fold(0, |sum, _| fold(sum, S::accept(&mut window, next()))))
}

fn hear<S: Side>(kind: usize) -> Batch {
    let mut stream = S::Small::fresh();
    let mut next = arrivals(ARRIVALS[kind]);
    Box::new(move || (0..UNITS).fold(0, |sum, _| fold(sum, stream.heard(0, next()))))
}

/// A payload of `commands` data commands of one word, whose numbers go up from payload to payload as they do with
/// repeats: all but the last are of the payloads before.
fn hearing<T: Stream + 'static>(commands: usize, hear: impl Fn(&mut T, u64, &[u8]) -> u64 + 'static) -> Batch {
    let mut stream = T::fresh();
    let mut p = payload(1, 4 + 8 * commands);
    let mut newest = 0u16;
    Box::new(move || {
        (0..UNITS).fold(0, |sum, _| {
            for k in 0..commands {
                let number = newest.wrapping_sub((commands - 1 - k) as u16);
                p[6 + 8 * k..8 + 8 * k].copy_from_slice(&number.to_be_bytes());
            }
            newest = newest.wrapping_add(1);
            fold(sum, hear(&mut stream, 0, black_box(&p)))
        })
    })
}

fn hear_each<S: Side>(commands: usize) -> Batch {
    hearing::<S::Small>(commands, S::Small::hear)
}

fn hear_payload<S: Side>(commands: usize) -> Batch {
    hearing::<S::Small>(commands, S::Small::hear_payload)
}

/// Queues `words` words and writes a payload, by two calls or by one.
fn queueing<T: Stream + 'static>(words: usize, mut play: impl FnMut(&mut T, &[u32], u64, &mut [u8]) -> (usize, bool) + 'static) -> Batch {
    let mut load = Load::new(words);
    let mut stream = T::fresh();
    let mut buf = vec![0; LIMIT];
    let mut now = 0;
    let mut batch = move |units| {
        (0..units).fold(0, |sum, _| {
            now += 1;
            let (len, more) = play(&mut stream, black_box(load.next()), now, &mut buf);
            fold(sum, len as u64 + u64::from(more) + u64::from(buf[len - 1]))
        })
    };
    batch(8 * UNITS);
    Box::new(move || batch(UNITS))
}

fn two_calls<T: Stream>(stream: &mut T, words: &[u32], now: u64, buf: &mut [u8]) -> (usize, bool) {
    stream.send(words);
    stream.write(now, buf)
}

fn queue_small<S: Side>(words: usize) -> Batch {
    queueing::<S::Small>(words, two_calls)
}

fn queue_large<S: Side>(words: usize) -> Batch {
    queueing::<S::Large>(words, two_calls)
}

fn play_small<S: Side>(words: usize) -> Batch {
    queueing::<S::Small>(words, S::Small::play)
}

fn play_large<S: Side>(words: usize) -> Batch {
    queueing::<S::Large>(words, S::Large::play)
}

/// A stream that has written `entries` commands of one word.
fn written<T: Stream>(entries: usize, buf: &mut [u8]) -> T {
    let mut stream = T::fresh();
    for k in 0..entries {
        stream.send(&[note(k as u32)]);
        stream.write(0, buf);
    }
    stream
}

/// Asks for the newest `count` of `entries` commands, and writes them.
fn serving<T: Stream + 'static>(entries: usize, count: usize) -> Batch {
    let mut buf = vec![0; LIMIT];
    let mut stream: T = written(entries, &mut buf);
    let first = (entries - count) as u16;
    Box::new(move || {
        (0..UNITS).fold(0, |sum, _| {
            let outcome = stream.request(first, count as u16);
            let (len, more) = stream.write(0, &mut buf);
            fold(sum, outcome + len as u64 + u64::from(more) + u64::from(buf[len - 1]))
        })
    })
}

fn serve_small<S: Side>(count: usize) -> Batch {
    serving::<S::Small>(128, count)
}

fn serve_large<S: Side>(count: usize) -> Batch {
    serving::<S::Large>(2048, count)
}

fn serve_one<S: Side>(entries: usize) -> Batch {
    serving::<S::Large>(entries, 1)
}

/// The words of the commands before the one that `standing` is about: three of them are held with it, whatever its
/// length.
const BEFORE: usize = 62;

/// A stream with a history of 256 words whose newest command has `words` words and its header at place `at`: one
/// command brings the others, of one length, to their places. The command's number comes with it.
fn standing<T: Stream>(words: usize, at: usize, buf: &mut [u8]) -> (T, u16) {
    let reached = |count| {
        let first = (at + 3 * SMALL - 1 - (1 + BEFORE) * count) % SMALL;
        (1..=64).contains(&first).then_some((first, count))
    };
    let (first, count) = (4..12).find_map(reached).expect("a place that can be reached");
    let mut stream = T::fresh();
    for n in [first].into_iter().chain(std::iter::repeat_n(BEFORE, count)).chain([words]) {
        stream.send(&Load::new(n).words);
        stream.write(0, buf);
    }
    (stream, count as u16 + 1)
}

/// The place of a header whose command of `words` words ends at the end of the history, and of one that has half of
/// them behind it.
fn before_end(words: usize) -> usize {
    SMALL - 1 - words
}

fn past_end(words: usize) -> usize {
    SMALL - 1 - words / 2
}

/// The payload with the command of `words` words at place `at`, asked for again.
fn again<T: Stream>(words: usize, at: usize) -> Vec<u8> {
    let mut buf = vec![0; LIMIT];
    let (mut stream, number): (T, u16) = standing(words, at, &mut buf);
    stream.request(number, 1);
    let (len, _) = stream.write(0, &mut buf);
    buf.truncate(len);
    buf
}

/// Asks for the newest command, with its header at place `at`, and writes it.
fn resending<T: Stream + 'static>(words: usize, at: usize) -> Batch {
    assert_eq!(again::<T>(words, at), again::<T>(words, before_end(words)), "other bytes past the end");
    let mut buf = vec![0; LIMIT];
    let (mut stream, number): (T, u16) = standing(words, at, &mut buf);
    Box::new(move || {
        (0..UNITS).fold(0, |sum, _| {
            let outcome = stream.request(number, 1);
            let (len, more) = stream.write(0, &mut buf);
            fold(sum, outcome + len as u64 + u64::from(more) + u64::from(buf[len - 1]))
        })
    })
}

fn resend_before<S: Side>(words: usize) -> Batch {
    resending::<S::Small>(words, before_end(words))
}

fn resend_past<S: Side>(words: usize) -> Batch {
    resending::<S::Small>(words, past_end(words))
}

fn test_resend(words: usize, at: usize) -> Batch {
    let (stream, _): (<Ours as Side>::Small, u16) = standing(words, at, &mut [0; LIMIT]);
    Box::new(move || (0..2 * UNITS).fold(0, |sum, _| fold(sum, black_box(&stream).wants(1).into())))
}

/// Stores the words straight, the highest byte of each first.
#[inline(never)]
fn swap_words(words: &[u32], out: &mut [u8]) {
    for (bytes, word) in out.chunks_exact_mut(4).zip(words) {
        bytes.copy_from_slice(&word.to_be_bytes());
    }
}

fn copy_words(words: usize) -> Batch {
    let words = Load::new(words).words;
    let mut buf = vec![0; LIMIT];
    Box::new(move || {
        (0..UNITS).fold(0, |sum, _| {
            swap_words(black_box(&words), &mut buf);
            fold(sum, buf[4 * words.len() - 1].into())
        })
    })
}

fn asking<T: Stream + 'static>(entries: usize) -> Batch {
    let stream: T = written(entries, &mut [0; LIMIT]);
    Box::new(move || (0..UNITS).fold(0, |sum, _| fold(sum, black_box(&stream).wants(1).into())))
}

fn ask_large<S: Side>(entries: usize) -> Batch {
    asking::<S::Large>(entries)
}

/// So many state tests over the history that commands of `words` words have filled: `wants` tests the state, and
/// then looks at it.
fn testing<T: Stream + 'static>(words: usize, tests: u32) -> Batch {
    let mut load = Load::new(words);
    let mut stream = T::fresh();
    let mut buf = vec![0; LIMIT];
    for _ in 0..8 * UNITS {
        stream.send(load.next());
        stream.write(0, &mut buf);
    }
    Box::new(move || (0..tests * UNITS).fold(0, |sum, _| fold(sum, black_box(&stream).wants(1).into())))
}

/// The two tests of a queue call, or of a request, and a write.
fn test_small(words: usize) -> Batch {
    testing::<<Ours as Side>::Small>(words, 2)
}

fn test_large(words: usize) -> Batch {
    testing::<<Ours as Side>::Large>(words, 2)
}

/// The one test of both in one call.
fn test_small_once(words: usize) -> Batch {
    testing::<<Ours as Side>::Small>(words, 1)
}

fn test_large_once(words: usize) -> Batch {
    testing::<<Ours as Side>::Large>(words, 1)
}

/// The tests of a call of a window, of a receiver or of a payload alone: calls that the last test refuses.
fn test_window(_: usize) -> Batch {
    Box::new(|| (0..UNITS).fold(0, |sum, _| fold(sum, ours::window_tests())))
}

fn test_payload(words: usize) -> Batch {
    let words: Vec<u32> = (0..words as u32).map(note).collect();
    let mut buf = vec![0; LIMIT];
    Box::new(move || (0..UNITS).fold(0, |sum, _| fold(sum, ours::payload_tests(&mut buf, black_box(&words)))))
}

fn test_hear(_: usize) -> Batch {
    let mut stream = <Ours as Side>::Small::refused();
    Box::new(move || (0..UNITS).fold(0, |sum, _| fold(sum, stream.heard_tests())))
}

fn poll<S: Side>(_: usize) -> Batch {
    let mut stream = S::Small::fresh();
    stream.heard(0, 0);
    stream.heard(0, 2);
    Box::new(move || (0..UNITS).fold(0, |sum, _| fold(sum, stream.poll(1))))
}

/// A console plays `words` words, its payload goes to the chamber unless it is each eighth, and both look at their
/// timers.
fn rounds<T: Stream + 'static>(words: usize) -> Batch {
    let mut load = Load::new(words);
    let (mut console, mut chamber) = (T::fresh(), T::fresh());
    let mut buf = vec![0; LIMIT];
    let mut now = 0u64;
    let mut batch = move |units| {
        (0..units).fold(0, |sum, _| {
            now += 1;
            console.send(black_box(load.next()));
            let (len, more) = console.write(now, &mut buf);
            let mut sum = fold(sum, len as u64 + u64::from(more));
            if now % 8 != 0 {
                sum = fold(sum, chamber.receive(now, &buf[..len]));
            }
            fold(sum, console.poll(now) + chamber.poll(now) + u64::from(chamber.wants(now)))
        })
    };
    batch(8 * UNITS);
    Box::new(move || batch(UNITS))
}

fn round_small<S: Side>(words: usize) -> Batch {
    rounds::<S::Small>(words)
}

fn round_large<S: Side>(words: usize) -> Batch {
    rounds::<S::Large>(words)
}

/// `n` draws from each of some seeds.
fn draw<S: Side>(n: usize) -> Batch {
    Box::new(move || (0..UNITS).fold(0, |sum, seed| fold(sum, S::drawn(black_box(seed), black_box(n as u16)).into())))
}

/// The steps of a run on the pretend link.
const STEPS: u32 = 65536;

/// A run whose line drops `figure` of 256 payloads.
fn link<S: Side>(figure: usize) -> Batch {
    Box::new(move || {
        let (handed, losses) = S::link(black_box(figure as u16), black_box(STEPS));
        fold(handed.into(), losses.into())
    })
}

/// The figures of a block of records over the last `n`.
fn sheet<S: Side>(n: usize) -> Batch {
    let mut sheet = S::sheet(n);
    let mut block = vec![0; 16 * RECORDS as usize];
    for (k, record) in block.chunks_exact_mut(16).enumerate() {
        record[10] = (k % 7 % 3) as u8;
        record[13] = (k % 11) as u8;
    }
    let mut out = vec![0; block.len()];
    Box::new(move || {
        S::figures(&mut sheet, black_box(&block[..]), &mut out);
        out.chunks_exact(8).step_by(31).fold(0, |sum, b| fold(sum, u64::from_be_bytes(b.try_into().expect("8 bytes"))))
    })
}

macro_rules! row {
    ($name:expr, $unit:literal, $series:expr, $make:ident, $size:expr) => {
        Row {
            name: $name.to_string(),
            unit: $unit,
            units: UNITS,
            series: $series,
            ours: $make::<Ours>,
            rust: $make::<Rust>,
            tests: None,
            copy: None,
        }
        .sized($size)
    };
    ($name:expr, $unit:literal, $series:expr, $make:ident, $size:expr, $tests:expr) => {{
        let mut sized = row!($name, $unit, $series, $make, $size);
        sized.row.tests = Some($tests);
        sized
    }};
    ($name:expr, $unit:literal, $series:expr, $make:ident, $size:expr, $tests:expr, $copy:expr) => {{
        let mut sized = row!($name, $unit, $series, $make, $size, $tests);
        sized.row.copy = Some($copy);
        sized
    }};
}

/// The same as a row: a unit is a step.
fn link_row(figure: usize) -> Sized {
    let mut sized = row!(format!("a step of the pretend link, {figure} of 256 dropped"), "step", None, link, figure);
    sized.row.units = STEPS;
    sized
}

/// A row with the size that its batches are made for.
pub struct Sized {
    pub row: Row,
    pub size: usize,
}

impl Row {
    fn sized(self, size: usize) -> Sized {
        Sized { row: self, size }
    }
}

pub fn rows() -> Vec<Sized> {
    let mut rows = vec![
        row!("read a payload, 1 word", "payload", None, read_notes, 12),
        row!("read a payload, 174 commands of 1 word", "payload", None, read_notes, LIMIT),
        row!("read a payload, 6 commands of up to 64 words", "payload", None, read_blocks, LIMIT),
        row!("read a payload, cut in its last command", "payload", None, read_cut, LIMIT),
        row!("write a command, 1 word", "command", None, write_command, 1),
        row!("write a command, 64 words", "command", None, write_command, 64),
        row!("the same steps apart, a command of 1 word", "command", None, write_command_apart, 1, test_payload),
    ];
    let kinds = ["in order", "every fourth skipped", "every fourth late", "each twice"];
    for (k, kind) in kinds.iter().enumerate() {
        rows.push(row!(format!("accept a number, {kind}"), "number", None, accept, k, test_window));
    }
    for (k, kind) in kinds.iter().enumerate() {
        rows.push(row!(format!("hear a command, {kind}"), "command", None, hear, k, test_hear));
    }
    for commands in [1, 3] {
        let name = |how| format!("hear a payload {how}, {commands} of 1 word");
        rows.push(row!(name("by commands"), "payload", None, hear_each, commands));
        rows.push(row!(name("in one call"), "payload", None, hear_payload, commands));
    }
    rows.extend([
        row!("poll, a request is not due yet", "call", None, poll, 0),
        row!("queue and write 1 word, history 256", "payload", None, queue_small, 1, test_small),
        row!("queue and write 1 word, history 4096", "payload", None, queue_large, 1, test_large),
        row!("queue and write 1 to 4 words, history 256", "payload", None, queue_small, DRAWN, test_small),
        row!("queue and write 1 to 4 words, history 4096", "payload", None, queue_large, DRAWN, test_large),
        row!("queue and write 192 words, history 256", "payload", None, queue_small, 192, test_small),
        row!("queue and write 192 words, history 4096", "payload", None, queue_large, 192, test_large),
        row!("queue and write in one call, 1 word, history 256", "payload", None, play_small, 1, test_small_once),
        row!("queue and write in one call, 1 word, history 4096", "payload", None, play_large, 1, test_large_once),
        row!("queue and write in one call, 1 to 4 words, history 256", "payload", None, play_small, DRAWN, test_small_once),
        row!("queue and write in one call, 1 to 4 words, history 4096", "payload", None, play_large, DRAWN, test_large_once),
        row!("queue and write in one call, 192 words, history 256", "payload", None, play_small, 192, test_small_once),
        row!("queue and write in one call, 192 words, history 4096", "payload", None, play_large, 192, test_large_once),
        row!("serve a request for 16 commands, history 256", "request", None, serve_small, 16, |_| test_small(1)),
        row!("serve a request for 16 commands, history 4096", "request", None, serve_large, 16, |_| test_large(1)),
        row!("a whole round, 1 word, history 256", "round", None, round_small, 1, test_small),
        row!("a whole round, 1 to 4 words, history 256", "round", None, round_small, DRAWN, test_small),
        row!("a whole round, 16 words, history 256", "round", None, round_small, 16, test_small),
        row!("a whole round, 192 words, history 256", "round", None, round_small, 192, test_small),
        row!("a whole round, 1 word, history 4096", "round", None, round_large, 1, test_large),
    ]);
    rows.extend([13, 128].map(link_row));
    for words in [4, 16, 64] {
        let name = |side| format!("resend {words} words, {side} the end");
        rows.push(row!(name("before"), "request", None, resend_before, words, |n| test_resend(n, before_end(n)), copy_words));
        rows.push(row!(name("past"), "request", None, resend_past, words, |n| test_resend(n, past_end(n)), copy_words));
    }
    for words in [1, 2, 4, 8, 16, 32, 64] {
        rows.push(row!(format!("write a command by words, {words}"), "command", Some(("words", words)), write_command, words));
    }
    for bytes in [12, 100, 200, 400, 800, LIMIT] {
        rows.push(row!(format!("read a payload by bytes, {bytes}"), "payload", Some(("bytes", bytes)), read_blocks, bytes));
    }
    for entries in [1, 8, 64, 256, 1024, 2048] {
        rows.push(row!(format!("serve the newest by entries, {entries}"), "request", Some(("entries", entries)), serve_one, entries));
    }
    for entries in [0, 8, 64, 256, 1024, 2048] {
        rows.push(row!(format!("ask whether to write by entries, {entries}"), "call", Some(("entries", entries)), ask_large, entries));
    }
    for n in [1, 2, 4, 16, 256, 4096, 65535] {
        rows.push(row!(format!("a jump by draws, {n}"), "jump", Some(("draws", n)), draw, n));
    }
    for n in [1, 64, 4096] {
        let mut figures = row!(format!("figures of a record by arrivals, {n}"), "record", Some(("arrivals", n)), sheet, n);
        figures.row.units = RECORDS;
        rows.push(figures);
    }
    rows
}
