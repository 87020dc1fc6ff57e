//! No bytes make a call panic, and reading always ends: drawn bytes, and payloads of a stream with bytes changed, cut and
//! put in, are read and given to a stream and to held notes.
use sirmjold::{HeldNotes, Load, Payload, Read, Reader, Refusal, Stream, StreamConfig};

/// Drawn numbers.
struct Random(Load);

impl Random {
    fn below(&mut self, n: usize) -> usize {
        (self.0.draw() >> 8) as usize % n
    }

    fn byte(&mut self) -> u8 {
        self.below(256) as u8
    }
}

/// A chamber that hears whatever comes.
struct Chamber {
    cfg: StreamConfig,
    reader: Reader,
    stream: Stream<[u32; 256]>,
    held: HeldNotes,
    time: u64,
    data: usize,
}

impl Chamber {
    fn new() -> Chamber {
        let cfg = StreamConfig::default();
        Chamber {
            cfg,
            reader: Reader::new(),
            stream: Stream::new(&cfg, 64, 4, [0; 256]).unwrap(),
            held: HeldNotes::start(0).unwrap(),
            time: 0,
            data: 0,
        }
    }

    /// Each command is given to the stream, which refuses none of them.
    fn hear(&mut self, bytes: &[u8]) -> Result<(), Refusal> {
        self.time += 1;
        let mut commands = self.reader.read(bytes);
        let mut count = 0;
        while let Some(command) = commands.next_command()? {
            count += 1;
            assert!(4 * count < bytes.len(), "more commands than fit");
            match command {
                Read::UmpData(data) => {
                    let words: usize = data.messages().map(<[u32]>::len).sum();
                    assert_eq!(words, data.words.len());
                    let delivery = self.stream.on_ump_data(&self.cfg, self.time, data.seq)?;
                    self.held.delivered(&delivery, &data);
                    self.data += 1;
                }
                Read::RetransmitRequest(request) => {
                    self.stream.on_retransmit_request(&self.cfg, request)?;
                }
                Read::RetransmitError(error) => {
                    self.held.told(&self.stream.on_retransmit_error(error)?);
                }
                Read::Raw { .. } | Read::Truncated | Read::Malformed => {}
            }
        }
        self.held.told(&self.stream.poll(&self.cfg, self.time)?);
        self.stream
            .write_data(&self.cfg, self.time, &mut Payload::new(1400, [0; 1400])?)?;
        Ok(())
    }
}

#[test]
fn drawn_bytes() {
    let mut random = Random(Load::new(1));
    let mut chamber = Chamber::new();
    for _ in 0..20_000 {
        let mut bytes: Vec<u8> = (0..random.below(200)).map(|_| random.byte()).collect();
        if let Err(refusal) = chamber.hear(&bytes) {
            assert_eq!(refusal, Refusal::BadSignature);
        }
        let signed = [b"MIDI", &bytes[..]].concat();
        chamber.hear(&signed).unwrap();
        // the codes that a stream knows, with lengths that often fit
        for header in bytes.chunks_mut(4) {
            header[0] = [0xFF, 0x80, 0x81, 0x20][random.below(4)];
            if let Some(len) = header.get_mut(1) {
                *len = random.below(4) as u8;
            }
        }
        chamber.hear(&[b"MIDI", &bytes[..]].concat()).unwrap();
    }
    assert!(chamber.data > 10_000);
}

#[test]
fn changed_payloads() {
    let cfg = StreamConfig::default();
    let mut random = Random(Load::new(2));
    let mut console = Stream::new(&cfg, 64, 4, vec![0; 256]).unwrap();
    let mut chamber = Chamber::new();
    let mut payload = Payload::new(1400, vec![0; 1400]).unwrap();
    for time in 0..20_000 {
        let note = [0x2090_3C40, 0x2080_3C00][random.below(2)] | random.below(4) as u32;
        console
            .send_ump(&cfg, &[note, 0x4090_3E00, 0xFFFF_0000])
            .unwrap();
        payload.clear();
        console.write_data(&cfg, time, &mut payload).unwrap();
        let mut bytes = payload.bytes().to_vec();
        for _ in 0..random.below(4) {
            let at = 4 + random.below(bytes.len() - 4);
            match random.below(3) {
                0 => bytes[at] = random.byte(),
                1 => bytes.truncate(at + 1),
                _ => bytes.insert(at, random.byte()),
            }
        }
        chamber.hear(&bytes).unwrap();
    }
    assert!(chamber.data > 10_000);
}
