//! Three divisions behind one uplink: what each still has to send is asked for in every step, until all is sent.
//!
//! Built and run by tools/run_rust_example; takes A as an argument.
use sirmjold::{Refusal, Uplink};

fn main() {
    let words = std::env::args()
        .nth(1)
        .map_or(100, |s| s.parse().expect("words of a step"));
    let mut uplink = Uplink::new();
    let mut wants = [500, 50, 260];
    let mut steps = 0;
    while wants != [0; 3] && steps < 1000 {
        let turn = uplink.turn();
        let step = uplink.grant(words, &wants).unwrap();
        let all: u32 = wants.iter().map(|&w| u32::from(w)).sum();
        let together: u32 = step.grants().iter().map(|&g| u32::from(g)).sum();
        assert_eq!(together, all.min(words.into()));
        for (want, grant) in wants.iter_mut().zip(step.grants()) {
            *want -= grant;
        }
        steps += 1;
        println!("turn {turn}: {:?}, still wanted {wants:?}", step.grants());
    }
    let turn = uplink.turn();
    assert_eq!(
        uplink.grant(words, &[1; 9]),
        Err(Refusal::DivisionsNotAllowed)
    );
    assert_eq!(uplink.turn(), turn, "a refused step keeps the turn");
    println!("all sent in {steps} steps of {words} words");
}
