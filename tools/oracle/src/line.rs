//! A line of the script as a call, or nothing where it is none.

pub enum Call {
    Cfg { t1: u32, g: u32, k: u8, r: u8, x: bool, d: u32, m: u8, size: u64 },
    New { w: u64, c: u64, q: u64 },
    Queue(Vec<u32>),
    Request { seq: u16, count: u16 },
    Open { limit: u64, buffer: u64 },
    Raw { code: u8, csd1: u8, csd2: u8, words: Vec<u32> },
    SendData { seq: u16, words: Vec<u32> },
    SendRequest { seq: u16, count: u16 },
    SendError { reason: u8, seq: u16 },
    Write(u64),
    Payload,
    Buffer,
    Read(Vec<u8>),
    Hear { now: u64, bytes: Vec<u8> },
    Data { now: u64, seq: u16, words: Vec<u32> },
    Poll(u64),
    Error { reason: u8, seq: u16 },
    Nak,
    Take,
    Reset,
    Deadline,
    Wants(u64),
    State,
    Memory,
    Window { seq: u16, count: u16 },
    Next,
    Last,
}

/// A decimal figure that its type holds.
pub fn decimal<T: TryFrom<u64>>(field: &str) -> Option<T> {
    if field.is_empty() || !field.bytes().all(|b| b.is_ascii_digit()) {
        return None;
    }
    T::try_from(field.parse::<u64>().ok().or_else(|| field.trim_start_matches('0').parse().ok())?).ok()
}

fn hex(field: &str, digits: usize) -> Option<u32> {
    if field.len() != digits || !field.bytes().all(|b| b.is_ascii_hexdigit()) {
        return None;
    }
    u32::from_str_radix(field, 16).ok()
}

fn words(fields: &[&str], most: usize) -> Option<Vec<u32>> {
    if fields.len() > most {
        return None;
    }
    fields.iter().map(|f| hex(f, 8)).collect()
}

fn bytes(fields: &[&str]) -> Option<Vec<u8>> {
    match fields {
        [] => Some(Vec::new()),
        [one] if !one.is_empty() && one.len() % 2 == 0 && one.len() <= 4000 => {
            (0..one.len() / 2).map(|i| hex(one.get(2 * i..2 * i + 2)?, 2).map(|b| b as u8)).collect()
        }
        _ => None,
    }
}

pub fn call(line: &[u8]) -> Option<Call> {
    if line.len() > 4096 {
        return None;
    }
    let text = std::str::from_utf8(line).ok()?;
    let fields: Vec<&str> = text.split(' ').collect();
    let (name, rest) = (fields[0], &fields[1..]);
    let byte = |f: &str| hex(f, 2).map(|b| b as u8);
    Some(match (name, rest) {
        ("cfg", [t1, g, k, r, x, d, m, size]) => Call::Cfg {
            t1: decimal(t1)?,
            g: decimal(g)?,
            k: decimal(k)?,
            r: decimal(r)?,
            x: match decimal::<u64>(x)? {
                0 => false,
                1 => true,
                _ => return None,
            },
            d: decimal(d)?,
            m: decimal(m)?,
            size: decimal(size)?,
        },
        ("new", [w, c, q]) => Call::New { w: decimal(w)?, c: decimal(c)?, q: decimal(q)? },
        ("queue", ws) => Call::Queue(words(ws, 256)?),
        ("queuelong", ws) => Call::Queue(words(ws, 454)?),
        ("request", [seq, count]) => Call::Request { seq: decimal(seq)?, count: decimal(count)? },
        ("open", [limit, buffer]) => {
            let buffer = decimal(buffer)?;
            if buffer > 2048 {
                return None;
            }
            Call::Open { limit: decimal(limit)?, buffer }
        }
        ("raw", [code, csd1, csd2, ws @ ..]) => {
            Call::Raw { code: byte(code)?, csd1: byte(csd1)?, csd2: byte(csd2)?, words: words(ws, 300)? }
        }
        ("senddata", [seq, ws @ ..]) => Call::SendData { seq: decimal(seq)?, words: words(ws, 300)? },
        ("sendrequest", [seq, count]) => Call::SendRequest { seq: decimal(seq)?, count: decimal(count)? },
        ("senderror", [reason, seq]) => Call::SendError { reason: decimal(reason)?, seq: decimal(seq)? },
        ("write", [now]) => Call::Write(decimal(now)?),
        ("payload", []) => Call::Payload,
        ("buffer", []) => Call::Buffer,
        ("read", fields) => Call::Read(bytes(fields)?),
        ("hear", [now, fields @ ..]) => Call::Hear { now: decimal(now)?, bytes: bytes(fields)? },
        ("data", [now, seq, ws @ ..]) => Call::Data { now: decimal(now)?, seq: decimal(seq)?, words: words(ws, 255)? },
        ("poll", [now]) => Call::Poll(decimal(now)?),
        ("error", [reason, seq]) => Call::Error { reason: decimal(reason)?, seq: decimal(seq)? },
        ("nak", []) => Call::Nak,
        ("take", []) => Call::Take,
        ("reset", []) => Call::Reset,
        ("deadline", []) => Call::Deadline,
        ("wants", [now]) => Call::Wants(decimal(now)?),
        ("state", []) => Call::State,
        ("memory", []) => Call::Memory,
        ("window", [seq, count]) => Call::Window { seq: decimal(seq)?, count: decimal(count)? },
        ("next", []) => Call::Next,
        ("last", []) => Call::Last,
        _ => return None,
    })
}
