//! A console plays a seed's load: what each value asks to send is queued and written. Each value is made again by one jump
//! from the seed.
//!
//! Built and run by tools/run_rust_example; takes the seed as an argument.
use sirmjold::{Load, Payload, Stream, StreamConfig};

const LIMIT: usize = 1400;

fn main() {
    let seed = std::env::args()
        .nth(1)
        .map_or(1, |s| s.parse().expect("a seed"));
    let cfg = StreamConfig::default();
    let mut ring = [0; 256];
    let mut console = Stream::new(&cfg, 64, 4, &mut ring).unwrap();
    let mut load = Load::new(seed);
    let (mut sends, mut words, mut bytes) = (0, 0, 0);
    for step in 1..=u16::MAX {
        load.draw();
        let asked = load.words();
        console.send_ump(&cfg, asked.words()).unwrap();
        let mut buf = [0; LIMIT];
        let mut payload = Payload::new(LIMIT, &mut buf).unwrap();
        console.write_data(&cfg, step.into(), &mut payload).unwrap();
        sends += usize::from(!asked.words().is_empty());
        words += asked.words().len();
        bytes += payload.bytes().len();

        let mut again = Load::new(seed);
        let rounds = again.jump(step);
        assert_eq!(again, load, "{step} draws at one step");
        assert!(rounds <= 16, "{rounds} rounds for {step} draws");
    }
    println!(
        "seed {seed}: {} draws, {sends} of them send {words} words, in payloads of {bytes} bytes; the last value is {:08X}",
        u16::MAX,
        load.last()
    );
}
