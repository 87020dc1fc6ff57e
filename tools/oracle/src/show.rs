//! The Rust's answers and states as the script's text. States are read off what the Rust prints of them
//! (`Debug`): their fields are private.
use std::fmt::Debug;
use std::fmt::Write as _;
use zmidi_net::command::{RetransmitError, RetransmitRequest};
use zmidi_net::stream::{Class, Delivery, ReceiveWindow, Receiver, Sender, SeqRange, StreamEvent};

const DIGITS: &[u8; 16] = b"0123456789ABCDEF";

fn put(out: &mut String, byte: u8) {
    out.push(DIGITS[usize::from(byte >> 4)] as char);
    out.push(DIGITS[usize::from(byte & 15)] as char);
}

pub fn hex_bytes(bytes: &[u8]) -> String {
    if bytes.is_empty() {
        return "-".to_string();
    }
    let mut out = String::with_capacity(2 * bytes.len());
    bytes.iter().for_each(|b| put(&mut out, *b));
    out
}

pub fn hex_words(words: impl IntoIterator<Item = u32>) -> String {
    let mut out = String::new();
    words.into_iter().for_each(|w| w.to_be_bytes().iter().for_each(|b| put(&mut out, *b)));
    if out.is_empty() { "-".to_string() } else { out }
}

fn pair(a: u16, b: u16) -> String {
    format!("{a},{b}")
}

fn range(r: Option<SeqRange>) -> String {
    r.map_or("-".to_string(), |r| pair(r.first.0, r.count))
}

fn request(q: Option<RetransmitRequest>) -> String {
    q.map_or("-".to_string(), |q| pair(q.seq.0, q.count))
}

fn error(e: &RetransmitError) -> String {
    pair(u16::from(e.reason.0), e.seq.0)
}

/// The class as its letter, and the numbers skipped.
fn class(c: Class) -> (char, u16) {
    match c {
        Class::New { gap } => ('N', gap),
        Class::Late => ('L', 0),
        Class::Duplicate => ('D', 0),
    }
}

pub fn delivery(d: &Delivery<'_>) -> String {
    let (letter, gap) = class(d.class);
    let skipped = if letter == 'N' { gap } else { d.gap.map_or(0, |r| r.count) };
    let (first, count) = d.lost.map_or((0, 0), |r| (r.first.0, r.count));
    let mut messages = d.messages();
    let words: Vec<u32> = messages.by_ref().flat_map(|m| m.words().to_vec()).collect();
    format!("{letter} {skipped} {count} {first} {} {}", hex_words(words), u8::from(messages.truncated()))
}

/// What `data` leaves out: the number, and the numbers skipped before it.
pub fn delivery_last(d: &Delivery<'_>) -> String {
    format!("delivery {} {}", d.seq.0, range(d.gap))
}

pub fn event(e: &Option<StreamEvent>) -> String {
    match e {
        None => "none".to_string(),
        Some(StreamEvent::DataLoss { range, .. }) => format!("loss {} {}", range.first.0, range.count),
        Some(StreamEvent::RetransmitError(_)) => "error".to_string(),
    }
}

/// What an event's answer leaves out: the error that told it.
pub fn event_last(e: &Option<StreamEvent>) -> String {
    match e {
        None => "none".to_string(),
        Some(StreamEvent::DataLoss { error: None, .. }) => "loss -".to_string(),
        Some(StreamEvent::DataLoss { error: Some(e), .. }) => format!("loss {}", error(e)),
        Some(StreamEvent::RetransmitError(e)) => format!("error {}", error(e)),
    }
}

/// What a window says of a range's first number and of itself, and what marking the range in a copy does.
pub fn window<const W: usize>(w: &ReceiveWindow<W>, of: SeqRange) -> String {
    let (letter, gap) = class(w.classify(of.first));
    let mut copy = *w;
    let marked = copy.mark_range(of);
    format!(
        "class {letter} {gap} processed {} missing {} request {} marked {} bits {:032X}",
        u8::from(w.is_processed(of.first)),
        range(w.missing()),
        request(w.request()),
        range(marked),
        one(&printed(&copy), "bits"),
    )
}

fn printed(it: &impl Debug) -> String {
    let mut out = String::new();
    write!(out, "{it:?}").expect("a string");
    out
}

/// What stands behind `key: ` in a printed state.
fn field<'a>(text: &'a str, key: &str) -> &'a str {
    let start = text.find(&format!("{key}: ")).expect(key) + key.len() + 2;
    let rest = &text[start..];
    let mut depth = 0;
    for (i, c) in rest.bytes().enumerate() {
        match c {
            b'{' | b'[' | b'(' => depth += 1,
            b'}' | b']' | b')' if depth == 0 => return rest[..i].trim(),
            b'}' | b']' | b')' => depth -= 1,
            b',' if depth == 0 => return rest[..i].trim(),
            _ => {}
        }
    }
    rest.trim()
}

fn figures(text: &str) -> impl Iterator<Item = u128> {
    text.split(|c: char| !c.is_ascii_digit()).filter(|f| !f.is_empty()).map(|f| f.parse().unwrap())
}

fn one(text: &str, key: &str) -> u128 {
    figures(field(text, key)).next().expect(key)
}

fn optional(text: &str) -> String {
    if text == "None" {
        return "-".to_string();
    }
    figures(text).map(|n| n.to_string()).collect::<Vec<_>>().join(",")
}

fn flag(text: &str) -> u8 {
    u8::from(text == "true")
}

/// The history's words, and what is printed behind them.
fn words(history: &str) -> (Vec<u32>, &str) {
    let start = history.find("buf: [").expect("buf") + 6;
    let (mut words, mut word, mut open) = (Vec::with_capacity(4096), 0u32, false);
    for (i, c) in history.bytes().enumerate().skip(start) {
        if c.is_ascii_digit() {
            word = word * 10 + u32::from(c - b'0');
            open = true;
            continue;
        }
        if open {
            words.push(word);
        }
        (word, open) = (0, false);
        if c == b']' {
            return (words, &history[i..]);
        }
    }
    unreachable!("the words end")
}

/// The state line of the script.
pub fn state<const W: usize, const C: usize, const Q: usize>(receiver: &Receiver<W>, sender: &Sender<C, Q>) -> String {
    let (receiver, sender) = (printed(receiver), printed(sender));
    let (buf, history) = words(&sender);
    let ring = field(field(history, "queue"), "ring");
    let (head, used) = (one(history, "head") as usize, one(history, "used") as usize);
    let items: Vec<u128> = figures(field(ring, "items")).collect();
    let places = items.len() / 2;
    let (first, waiting) = (one(ring, "head") as usize, one(ring, "len") as usize);
    let requests: Vec<String> = (0..waiting)
        .map(|i| (first + i) % places)
        .map(|k| format!("{},{}", items[2 * k], items[2 * k + 1]))
        .collect();
    let after = &history[history.rfind("unsent: ").unwrap()..];
    format!(
        "highest {} bits {:032X} timer {} due {} refused {} asked {} head {head} used {used} count {} oldest {} last {} \
         unsent {} unsentwords {} idle {} ring {} history {}",
        one(&receiver, "highest"),
        one(&receiver, "bits"),
        optional(field(&receiver, "timer")),
        flag(field(&receiver, "request_due")),
        flag(field(&receiver, "refused")),
        optional(field(&receiver, "asked")),
        one(history, "count"),
        one(history, "oldest"),
        one(history, "last"),
        one(after, "unsent"),
        one(after, "unsent_words"),
        optional(field(after, "idle")),
        if requests.is_empty() { "-".to_string() } else { requests.join(";") },
        hex_words((0..used).map(|k| buf[(head + k) % C])),
    )
}

pub fn memory<const C: usize, const Q: usize>(sender: &Sender<C, Q>) -> String {
    hex_words(words(&printed(sender)).0)
}
