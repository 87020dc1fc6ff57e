//! Runs this library and the Rust side by side on the same inputs.
//!
//!     benchmark time ROUNDS [PART]     a line for each row, or each that has PART in its name: name, unit, series, then for
//!                                      each side its ns per unit, one for each round
//!     benchmark run ROW SIDE BATCHES   that many batches of one side, to be counted from outside
//!     benchmark stack                  a line for each row: name, bytes of stack that a batch uses on each side
//!     benchmark rows                   the rows, by number
//!     benchmark read COUNT             reads that many drawn payloads on both sides, and compares
//!
//! The sides take turns, and the sums of their answers are compared after each round.
mod drawn;
mod ours;
#[allow(dead_code)]
#[path = "../../../bindings/rust/src/raw.rs"]
mod raw;
mod rows;
mod rust;
mod side;
mod stack;

use rows::{Batch, Sized, rows};
use std::time::Instant;

const SIDES: [&str; 4] = ["ours", "rust", "tests", "copy"];
/// How long one sample takes at least.
const SAMPLE_NS: u64 = 1_000_000;

/// The library, the Rust, or, where the row has such, the library's state tests or the copied words alone.
fn batch(row: &Sized, side: usize) -> Option<Batch> {
    [Some(row.row.ours), Some(row.row.rust), row.row.tests, row.row.copy][side].map(|make| make(row.size))
}

fn agree(row: &Sized, sums: &[u64]) {
    assert_eq!(sums[0], sums[1], "answers differ: {}", row.row.name);
}

/// The ns per unit of each round, for each side.
fn times(row: &Sized, rounds: usize) -> Vec<Vec<f64>> {
    let mut sides: Vec<Batch> = (0..SIDES.len()).filter_map(|side| batch(row, side)).collect();
    let start = Instant::now();
    let mut batches = 0u64;
    while (start.elapsed().as_nanos() as u64) < sides.len() as u64 * SAMPLE_NS {
        let sums: Vec<u64> = sides.iter_mut().map(|b| b()).collect();
        agree(row, &sums);
        batches += 1;
    }
    let mut times = vec![vec![]; sides.len()];
    for round in 0..rounds {
        let mut sums = vec![0; sides.len()];
        for turn in 0..sides.len() {
            let side = (turn + round) % sides.len();
            let start = Instant::now();
            for _ in 0..batches {
                sums[side] = side::fold(sums[side], sides[side]());
            }
            times[side].push(start.elapsed().as_nanos() as f64 / (batches * u64::from(row.row.units)) as f64);
        }
        agree(row, &sums);
    }
    times
}

fn line(row: &Sized) -> String {
    let series = row.row.series.map_or("-".to_string(), |(name, size)| format!("{name} {size}"));
    format!("{}\t{}\t{series}\t{}", row.row.name, row.row.unit, row.row.units)
}

fn main() {
    let args: Vec<String> = std::env::args().skip(1).collect();
    let words: Vec<&str> = args.iter().map(String::as_str).collect();
    match words[..] {
        ["time", rounds] | ["time", rounds, _] => {
            let part = words.get(2).copied().unwrap_or_default();
            for row in rows().iter().filter(|row| row.row.name.contains(part)) {
                let times = times(row, rounds.parse().expect("a count of rounds"));
                let shown: Vec<String> =
                    times.iter().map(|t| t.iter().map(|ns| format!("{ns:.2}")).collect::<Vec<_>>().join(" ")).collect();
                println!("{}\t{}", line(row), shown.join("\t"));
            }
        }
        ["run", row, side, batches] => {
            let row = &rows()[row.parse::<usize>().expect("a row's number")];
            let side = SIDES.iter().position(|s| *s == side).expect("ours, rust, tests or copy");
            let mut batch = batch(row, side).expect("a row with such a side");
            let sum = (0..batches.parse::<u32>().expect("a count")).fold(0, |sum, _| side::fold(sum, batch()));
            println!("{sum}");
        }
        ["stack"] => {
            let empty = stack::depth(&mut || ());
            for row in rows() {
                let used: Vec<String> = (0..2)
                    .map(|side| {
                        let mut batch = batch(&row, side).expect("both sides");
                        let mut sum = 0;
                        let used = stack::depth(&mut || sum = batch());
                        std::hint::black_box(sum);
                        (used - empty).to_string()
                    })
                    .collect();
                println!("{}\t{}", row.row.name, used.join("\t"));
            }
        }
        ["read", count] => drawn::compare(count.parse().expect("a count")),
        ["rows"] => rows().iter().for_each(|row| println!("{}", line(row))),
        _ => {
            eprintln!("benchmark time ROUNDS [PART] | run ROW SIDE BATCHES | stack | rows | read COUNT");
            std::process::exit(2);
        }
    }
}
