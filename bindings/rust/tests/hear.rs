//! A payload that is heard in one call leaves what its commands leave one by one: two streams are given the same payloads, one of them
//! each command by its own call, and every answer, stream and history is compared, with room for all answers and for few.
use sirmjold::{
    Answer, Heard, HeardCommand, Load, Payload, Read, Reader, Refusal, RetransmitError,
    RetransmitRequest, Stream, StreamConfig,
};

/// Drawn numbers.
struct Random(Load);

impl Random {
    fn below(&mut self, n: usize) -> usize {
        (self.0.draw() >> 8) as usize % n
    }
}

/// A payload of drawn commands, some of them cut, without their word or followed by one to three bytes.
fn payload(random: &mut Random) -> Vec<u8> {
    let mut payload = Payload::new(1400, [0; 1400]).unwrap();
    for _ in 0..random.below(9) {
        let seq = random.below(40) as u16;
        let written = match random.below(5) {
            0 => {
                let count = random.below(3) as u16;
                payload.retransmit_request(RetransmitRequest { seq, count })
            }
            1 => payload.retransmit_error(RetransmitError { reason: 1, seq }),
            2 => payload.command(0x20, 1, 2, &[seq.into()]),
            3 => payload.command(0x80 + random.below(2) as u8, 0, seq as u8, &[]),
            _ => payload.ump_data(seq, &[0x2090_3C40; 4][..random.below(5)]),
        };
        written.unwrap();
    }
    let mut bytes = payload.bytes().to_vec();
    if bytes.is_empty() {
        bytes.extend(b"MIDI");
    }
    match random.below(6) {
        0 => bytes.extend(&[0xFF; 3][..random.below(4)]),
        1 => bytes.truncate(4 + random.below(bytes.len() - 3)),
        2 => bytes[0] = b'm',
        _ => {}
    }
    bytes
}

/// Each command by its own call.
fn one_by_one(
    stream: &mut Stream<Vec<u32>>,
    cfg: &StreamConfig,
    time: u64,
    payload: &[u8],
) -> Result<Vec<HeardCommand>, Refusal> {
    stream.poll(cfg, time)?; // settings are tested before the payload, as in the one call
    let mut reader = Reader::new();
    let mut commands = reader.read(payload);
    let mut answers = Vec::new();
    while let Some(command) = commands.next_command()? {
        answers.push(match command {
            Read::UmpData(d) => HeardCommand::UmpData(d.seq, stream.on_ump_data(cfg, time, d.seq)),
            Read::RetransmitRequest(r) => {
                HeardCommand::RetransmitRequest(r, stream.on_retransmit_request(cfg, r))
            }
            Read::RetransmitError(e) => {
                HeardCommand::RetransmitError(e, stream.on_retransmit_error(e))
            }
            Read::Raw {
                code, csd1, csd2, ..
            } => HeardCommand::Raw { code, csd1, csd2 },
            Read::Truncated => HeardCommand::Truncated,
            Read::Malformed => HeardCommand::Malformed,
        });
    }
    Ok(answers)
}

/// In calls with room for so many answers.
fn together(
    stream: &mut Stream<Vec<u32>>,
    cfg: &StreamConfig,
    time: u64,
    payload: &[u8],
    room: &mut [u64],
) -> Result<Vec<Answer>, Refusal> {
    stream.poll(cfg, time)?;
    let mut answers = Vec::new();
    let mut at = 0;
    loop {
        let heard = stream.hear(cfg, time, payload, at, room)?;
        answers.extend(heard.answers());
        match heard.next {
            Some(next) => at = next,
            None => return Ok(answers),
        }
    }
}

#[test]
fn is_the_calls_one_by_one() {
    let (mut heard, mut refused, mut calls) = (0, 0, 0);
    for seed in 0..400 {
        let mut random = Random(Load::new(seed));
        let plain = StreamConfig::default();
        let start = || Stream::new(&plain, 8, 2, vec![0; 256]).unwrap();
        let (mut one, mut two) = (start(), start());
        let mut room = vec![0; Heard::WORDS * (1 + random.below(9)) + random.below(4)];
        let mut time = 0;
        for _ in 0..60 {
            time += random.below(20) as u64;
            if random.below(4) == 0 {
                for stream in [&mut one, &mut two] {
                    let mut to = Payload::new(1400, [0; 1400]).unwrap();
                    stream.send_ump(&plain, &[0x2090_3C40]).unwrap();
                    stream.write_data(&plain, time, &mut to).unwrap();
                }
            }
            let cfg = StreamConfig {
                idle_growth: u32::from(random.below(9) != 0),
                retransmit: random.below(5) != 0,
                ..plain
            };
            let bytes = payload(&mut random);
            let first = together(&mut one, &cfg, time, &bytes, &mut room);
            let second = one_by_one(&mut two, &cfg, time, &bytes);
            let commands = first
                .as_ref()
                .map(|answers| answers.iter().map(|a| a.command).collect::<Vec<_>>());
            assert_eq!(commands, second.as_ref().map(Vec::clone));
            assert_eq!(format!("{one:?}"), format!("{two:?}"));
            match first {
                Ok(answers) => {
                    calls += 1 + answers.len().saturating_sub(1) / (room.len() / Heard::WORDS);
                    heard += answers.len();
                }
                Err(_) => refused += 1,
            }
        }
    }
    assert!(heard > 20_000 && refused > 1000 && calls > 20_000);
}
