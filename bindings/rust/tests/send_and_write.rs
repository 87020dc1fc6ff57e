//! Queueing and writing in one call does what `send_ump` and then `write_data` do: two streams are given the same drawn calls, one
//! of them the two, and every answer, stream, history and payload is compared, of refused calls too.
use sirmjold::{
    Load, Payload, Refusal, RetransmitError, RetransmitRequest, Stream, StreamConfig, Written,
};

/// Drawn numbers.
struct Random(Load);

impl Random {
    fn below(&mut self, n: usize) -> usize {
        (self.0.draw() >> 8) as usize % n
    }
}

/// How often each way out was taken.
#[derive(Default)]
struct Taken {
    refused: [usize; 14],
    written: usize,
    more: usize,
    refused_behind: usize,
}

impl Taken {
    fn count(&mut self, answer: Result<Result<Written, Refusal>, Refusal>) {
        match answer {
            Err(why) => self.refused[usize::from(why.number())] += 1,
            Ok(Err(_)) => self.refused_behind += 1,
            Ok(Ok(w)) if w.more => self.more += 1,
            Ok(Ok(_)) => self.written += 1,
        }
    }
}

/// Settings, of which some are refused.
fn settings(random: &mut Random) -> StreamConfig {
    let one = |random: &mut Random, of: &[u32]| of[random.below(of.len())];
    StreamConfig {
        idle_interval_ms: one(random, &[1, 5, 100, 300, 301]),
        idle_growth: one(random, &[1, 2, 2, 3, 0]),
        idle_further: one(random, &[0, 1, 5]) as u8,
        fec_repeats: one(random, &[0, 1, 2, 2, 4, 9, 255]) as u8,
        retransmit: random.below(4) != 0,
        request_delay_ms: one(random, &[0, 1, 10]),
        max_requests: one(random, &[0, 1, 3]) as u8,
        max_command_words: one(random, &[1, 2, 4, 16, 64, 64, 65]),
    }
}

/// Whole messages, or words that end inside one.
fn words(random: &mut Random) -> Vec<u32> {
    let mut words = Vec::new();
    let most = 1 << random.below(6);
    for _ in 0..random.below(most) {
        words.push(0x2090_3C40 + random.below(4) as u32);
        if random.below(3) == 0 {
            words.extend([0x4090_3C00, random.below(9) as u32]);
        }
    }
    if random.below(9) == 0 {
        words.push(0x4090_3C00);
    }
    words
}

/// A call between: what one end hears, asks for or is told.
fn between(
    random: &mut Random,
    cfg: &StreamConfig,
    time: u64,
    streams: [&mut Stream<Vec<u32>>; 2],
) {
    let kind = random.below(5);
    let seq = random.below(60) as u16;
    let count = random.below(4) as u16;
    let answers = streams.map(|stream| match kind {
        0 => format!(
            "{:?}",
            stream.on_retransmit_request(cfg, RetransmitRequest { seq, count })
        ),
        1 => format!("{:?}", stream.on_ump_data(cfg, time, seq)),
        2 => format!("{:?}", stream.poll(cfg, time)),
        3 => format!(
            "{:?}",
            stream.on_retransmit_error(RetransmitError { reason: 1, seq })
        ),
        _ => format!("{:?}", stream.wants_write(time)),
    });
    assert_eq!(answers[0], answers[1]);
}

#[test]
fn is_the_two_calls() {
    let mut taken = Taken::default();
    for seed in 0..400 {
        let mut random = Random(Load::new(seed));
        let plain = StreamConfig::default();
        let size = [65, 66, 80, 256, 1024][random.below(5)];
        let start = || Stream::new(&plain, 64, 4, vec![0; size]).unwrap();
        let (mut one, mut two) = (start(), start());
        let mut payloads = [[0; 1400]; 2].map(|buf| Payload::new(1400, buf).unwrap());
        let mut time = 0;
        for _ in 0..120 {
            time += random.below(40) as u64;
            let cfg = if random.below(3) == 0 {
                settings(&mut random)
            } else {
                plain
            };
            if random.below(3) == 0 {
                between(&mut random, &cfg, time, [&mut one, &mut two]);
            }
            if random.below(4) != 0 {
                let limit = [8, 12, 16, 24, 64, 264, 1400][random.below(7)];
                payloads = [[0; 1400]; 2].map(|buf| Payload::new(limit, buf).unwrap());
            }
            let words = words(&mut random);
            let [first, second] = &mut payloads;
            let answer = one.send_and_write(&cfg, time, &words, first);
            let both = two
                .send_ump(&cfg, &words)
                .map(|()| two.write_data(&cfg, time, second));
            assert_eq!(answer, both);
            assert_eq!(format!("{one:?}"), format!("{two:?}"));
            assert_eq!(format!("{first:?}"), format!("{second:?}"));
            taken.count(answer);
        }
    }
    for number in [3, 5, 6, 7, 8, 9] {
        assert!(taken.refused[number] > 20, "words refused with {number}");
    }
    assert!(taken.written > 1000 && taken.more > 1000 && taken.refused_behind > 100);
}
