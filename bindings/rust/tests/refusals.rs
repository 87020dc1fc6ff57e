//! Each refusal by its number. What was refused has changed nothing: all that a value holds is compared, as its `Debug`
//! shows it.
use sirmjold::{
    columns, restore, HeldNotes, Line, Payload, Read, Reader, Refusal, RetransmitError,
    RetransmitRequest, Sheet, Stream, StreamConfig, Uplink, Window,
};
use std::cell::Cell;
use std::error::Error;
use std::fmt::Debug;

const NOTE: u32 = 0x2090_3C40;
/// The first word of a message of two.
const HALF: u32 = 0x4090_3C00;

fn cfg() -> StreamConfig {
    StreamConfig::default()
}

fn stream() -> Stream<[u32; 65]> {
    Stream::new(&cfg(), 64, 4, [0; 65]).unwrap()
}

fn payload(max: usize) -> Payload<[u8; 1400]> {
    Payload::new(max, [0; 1400]).unwrap()
}

/// The call is refused with this number, and leaves the value as it was.
fn refused<V: Debug, A: Debug>(
    number: u8,
    value: &mut V,
    call: impl FnOnce(&mut V) -> Result<A, Refusal>,
) {
    let before = format!("{value:?}");
    assert_eq!(call(value).unwrap_err().number(), number);
    assert_eq!(format!("{value:?}"), before, "a call refused with {number}");
}

/// No value is made.
fn not_made<A: Debug>(number: u8, made: Result<A, Refusal>) {
    assert_eq!(made.unwrap_err().number(), number);
}

#[test]
fn numbers_and_texts() {
    let numbers: Vec<u8> = Refusal::ALL.iter().map(|r| r.number()).collect();
    assert_eq!(
        numbers,
        [1, 2, 3, 4, 5, 6, 7, 8, 9, 10, 11, 12, 13, 16, 17, 18]
    );
    for number in 0..=255 {
        let refusal = Refusal::from_number(number);
        assert_eq!(refusal.is_some(), numbers.contains(&number));
        if let Some(refusal) = refusal {
            assert_eq!(refusal.number(), number);
            assert!(refusal
                .to_string()
                .ends_with(&format!("(refusal {number})")));
        }
    }
    let error: Box<dyn Error + Send + Sync> = Refusal::Full.into();
    assert_eq!(
        error.to_string(),
        "the send history has no room (refusal 6)"
    );
}

#[test]
fn numbers_are_those_of_the_header() {
    let header = include_str!("../../../include/sirmjold.h");
    let table = header.split("enum sirmjold_refusal {").nth(1).unwrap();
    let table = table.split("};").next().unwrap();
    let of_header: Vec<u8> = table
        .lines()
        .filter_map(|line| line.split_once(" = "))
        .map(|(_, rest)| {
            let digits = rest.split(|c: char| !c.is_ascii_digit()).next();
            digits.unwrap().parse().unwrap()
        })
        .collect();
    let ours = Refusal::ALL.iter().map(|r| r.number());
    assert!(of_header.into_iter().eq(std::iter::once(0).chain(ours)));
}

#[test]
fn bad_signature() {
    let mut reader = Reader::new();
    for bytes in [&b""[..], b"MID", b"MIDX", b"midi\xFF\0\0\0"] {
        not_made(1, reader.read(bytes).next_command());
    }
}

#[test]
fn overflow_and_too_large() {
    let mut full = payload(16);
    refused(3, &mut full, |p| p.ump_data(0, &[NOTE; 3]));
    full.ump_data(0, &[NOTE]).unwrap();
    refused(2, &mut full, |p| p.ump_data(1, &[NOTE]));
    refused(2, &mut full, |p| p.command(0x20, 0, 0, &[0]));
    let request = RetransmitRequest { seq: 0, count: 1 };
    refused(2, &mut full, |p| p.retransmit_request(request));
    let error = RetransmitError { reason: 1, seq: 0 };
    refused(2, &mut full, |p| p.retransmit_error(error));

    let one = StreamConfig {
        max_command_words: 1,
        ..cfg()
    };
    refused(3, &mut stream(), |s| s.send_ump(&one, &[HALF, 0]));
}

#[test]
fn write_that_does_not_fit() {
    let mut both = (stream(), payload(12));
    both.0.send_ump(&cfg(), &[NOTE, NOTE]).unwrap();
    refused(3, &mut both, |(s, p)| s.write_data(&cfg(), 0, p));

    // a due request does not fit: of two payloads, neither way of writing it changes anything
    let mut both = (stream(), payload(8));
    both.0.on_ump_data(&cfg(), 0, 1).unwrap();
    both.0.poll(&cfg(), 10).unwrap();
    refused(3, &mut both, |(s, p)| s.write_data(&cfg(), 10, p));
    refused(3, &mut both, |(s, p)| s.write_request(&cfg(), p));
}

#[test]
fn the_one_refusal_that_changes_something() {
    let mut console = stream();
    console.send_ump(&cfg(), &[NOTE]).unwrap();
    let first = console.write_data(&cfg(), 0, &mut payload(1400));
    assert_eq!(first.unwrap().commands, 1);
    let mut short = Payload::new(8, [0; 7]).unwrap();
    let before = format!("{short:?}");
    assert_eq!(console.wants_write(99), Ok(false));
    let refused = console.write_data(&cfg(), 100, &mut short);
    assert_eq!(refused, Err(Refusal::TooLarge));
    assert_eq!(format!("{short:?}"), before, "the payload stays");
    assert_eq!(
        console.wants_write(99),
        Ok(true),
        "the idle command is queued"
    );
}

#[test]
fn invalid_values() {
    not_made(4, Payload::new(7, [0; 1400]));
    not_made(4, Payload::new(1401, [0; 1500]));
    refused(4, &mut payload(1400), |p| p.command(0x20, 0, 0, &[0; 256]));
    for words in [&[HALF][..], &[NOTE, HALF], &[NOTE; 65]] {
        refused(5, &mut payload(1400), |p| p.ump_data(0, words));
    }
    refused(5, &mut stream(), |s| s.send_ump(&cfg(), &[HALF]));
    let undefined = RetransmitError { reason: 2, seq: 0 };
    refused(11, &mut payload(1400), |p| p.retransmit_error(undefined));
}

#[test]
fn full_history() {
    let mut console = stream();
    console.send_ump(&cfg(), &[NOTE; 60]).unwrap();
    refused(6, &mut console, |s| s.send_ump(&cfg(), &[NOTE; 8]));
}

#[test]
fn settings() {
    for (number, bad) in [
        (
            7,
            StreamConfig {
                idle_interval_ms: 0,
                ..cfg()
            },
        ),
        (
            7,
            StreamConfig {
                idle_interval_ms: 301,
                ..cfg()
            },
        ),
        (
            8,
            StreamConfig {
                idle_growth: 0,
                ..cfg()
            },
        ),
        (
            9,
            StreamConfig {
                max_command_words: 0,
                ..cfg()
            },
        ),
        (
            9,
            StreamConfig {
                max_command_words: 65,
                ..cfg()
            },
        ),
    ] {
        not_made(number, Stream::new(&bad, 64, 4, [0; 65]));
        let request = RetransmitRequest { seq: 0, count: 1 };
        refused(number, &mut stream(), |s| s.send_ump(&bad, &[NOTE]));
        refused(number, &mut stream(), |s| {
            s.on_retransmit_request(&bad, request)
        });
        refused(number, &mut stream(), |s| s.on_ump_data(&bad, 0, 0));
        refused(number, &mut stream(), |s| s.poll(&bad, 0));
        let mut both = (stream(), payload(1400));
        refused(number, &mut both, |(s, p)| s.write_request(&bad, p));
        refused(number, &mut both, |(s, p)| s.write_data(&bad, 0, p));
        let mut rings = ([7; 65], [7; 65]);
        let line = Line {
            window: 64,
            places: 4,
            seed: 1,
            drop: 2,
            figure: 0,
        };
        refused(number, &mut rings, |(a, b)| line.run(&bad, 1, a, b));
    }
}

#[test]
fn a_request_without_its_word_is_read() {
    let mut reader = Reader::new();
    let mut commands = reader.read(b"MIDI\x80\0\0\0\xFF\0\0\x05");
    assert_eq!(commands.next_command(), Ok(Some(Read::Malformed)));
    let next = commands.next_command().unwrap();
    assert!(matches!(next, Some(Read::UmpData(data)) if data.seq == 5));
}

#[test]
fn sizes() {
    for (window, places, ring) in [
        (0, 4, 65),
        (129, 4, 65),
        (64, 0, 65),
        (64, 17, 65),
        (64, 4, 64),
        (64, 4, 32769),
    ] {
        let mut lent = vec![7; ring];
        refused(12, &mut lent, |ring| {
            Stream::new(&cfg(), window, places, &mut ring[..]).map(drop)
        });
    }
    not_made(12, Window::new(0));
    not_made(12, Window::starting_at(129, 0));
    not_made(12, HeldNotes::start(16));
    let line = Line {
        window: 64,
        places: 4,
        seed: 1,
        drop: 2,
        figure: 0,
    };
    refused(12, &mut ([7; 65], [7; 65]), |(a, b)| {
        line.run(&cfg(), 65537, a, b)
    });
    refused(12, &mut ([7; 65], [7; 66]), |(a, b)| {
        line.run(&cfg(), 1, a, b)
    });
    for arrivals in [0, 4097] {
        refused(12, &mut vec![7; arrivals], |ring| {
            Sheet::start(&mut ring[..]).map(drop)
        });
    }
}

/// Memory of which the half alone is handed out from some moment on.
#[derive(Debug)]
struct Shrinking<'a>([u32; 256], &'a Cell<bool>);

impl AsRef<[u32]> for Shrinking<'_> {
    fn as_ref(&self) -> &[u32] {
        &self.0[..if self.1.get() { 128 } else { 256 }]
    }
}

impl AsMut<[u32]> for Shrinking<'_> {
    fn as_mut(&mut self) -> &mut [u32] {
        &mut self.0[..if self.1.get() { 128 } else { 256 }]
    }
}

#[test]
fn memory_that_is_not_what_it_was() {
    let shrunk = Cell::new(false);
    let mut stream = Stream::new(&cfg(), 64, 4, Shrinking([0; 256], &shrunk)).unwrap();
    let mut sheet = Sheet::start(Shrinking([0; 256], &shrunk)).unwrap();
    stream.send_ump(&cfg(), &[NOTE]).unwrap();
    shrunk.set(true);
    refused(13, &mut stream, |s| s.send_ump(&cfg(), &[NOTE]));
    refused(13, &mut stream, |s| s.wants_write(0));
    refused(13, &mut (stream, payload(1400)), |(s, p)| {
        s.write_data(&cfg(), 0, p)
    });
    refused(13, &mut sheet, |s| s.block(&[0; 16], &mut [0; 16]));
}

#[test]
fn blocks_and_records() {
    let mut sheet = (Sheet::start(vec![0; 10]).unwrap(), [7; 32]);
    refused(16, &mut sheet, |(s, out)| s.block(&[0; 15], out));
    refused(16, &mut sheet, |(s, out)| s.block(&[0; 48], out));
    let mut record = [0; 16];
    record[10] = 3;
    refused(17, &mut sheet, |(s, out)| s.block(&record, out));
    record[10] = 0;
    record[11] = 1;
    refused(17, &mut sheet, |(s, out)| s.block(&record, out));
    for call in [columns, restore] {
        refused(16, &mut [7; 32], |out| call(&[0; 15], out));
        refused(16, &mut [7; 32], |out| call(&[0; 48], out));
        refused(16, &mut vec![7; 70_000], |out| call(&[0; 65_552], out));
    }
}

#[test]
fn divisions() {
    refused(18, &mut Uplink::new(), |u| u.grant(100, &[]));
    refused(18, &mut Uplink::new(), |u| u.grant(100, &[1; 9]));
    refused(18, &mut Uplink::starting_at(3), |u| u.grant(100, &[1; 3]));
}
