//! How many repeats a line asks for: commands that a chamber hands on, as a part of all that are played, by R and by how many of 256
//! payloads the line drops, with no requests. The same run gives the same answer again.
//!
//! Built and run by tools/run_rust_example; takes the seeds of load and line as arguments.
use sirmjold::{Line, Refusal, StreamConfig};

const STEPS: u32 = 65536;

fn main() {
    let mut seeds = std::env::args().skip(1).map(|s| s.parse().expect("a seed"));
    let (seed, drop) = (seeds.next().unwrap_or(1), seeds.next().unwrap_or(2));
    let (mut ring, mut other) = ([0; 256], [0; 256]);
    let mut run = |fec_repeats, figure, budget| {
        let cfg = StreamConfig {
            fec_repeats,
            retransmit: false,
            ..StreamConfig::default()
        };
        let line = Line {
            window: 64,
            places: 4,
            seed,
            drop,
            figure,
        };
        line.run(&cfg, budget, &mut ring, &mut other)
    };
    let figures = [13, 35, 78, 128, 200];
    println!("seeds {seed} and {drop}, {STEPS} steps: of 100 commands handed on, by R and figure {figures:?}");
    for repeats in 0..=4 {
        let full = run(repeats, 0, STEPS).unwrap();
        assert_eq!((full.steps, full.losses), (STEPS, 0));
        let handed = figures.map(|figure| {
            let report = run(repeats, figure, STEPS).unwrap();
            assert_eq!(
                run(repeats, figure, STEPS),
                Ok(report),
                "the same run again"
            );
            format!(
                "{:6.2} ({} losses)",
                100.0 * f64::from(report.handed) / f64::from(full.handed),
                report.losses
            )
        });
        println!("  R {repeats}: {}", handed.join("  "));
    }
    assert_eq!(run(2, 13, STEPS + 1), Err(Refusal::SizeNotAllowed));
}
