//! Line after line of standard input, each answered with one line. Empty lines and those that begin with # answer
//! nothing.
use std::io::{BufRead, Write};

pub fn answer(mut with: impl FnMut(&[u8]) -> String) {
    let mut input = std::io::stdin().lock();
    let mut out = std::io::BufWriter::new(std::io::stdout().lock());
    let mut bytes = Vec::new();
    loop {
        bytes.clear();
        if input.read_until(b'\n', &mut bytes).expect("standard input") == 0 {
            break;
        }
        if bytes.last() == Some(&b'\n') {
            bytes.pop();
            if bytes.last() == Some(&b'\r') {
                bytes.pop();
            }
        }
        if bytes.is_empty() || bytes[0] == b'#' {
            continue;
        }
        writeln!(out, "{}", with(&bytes)).expect("standard output");
    }
}
