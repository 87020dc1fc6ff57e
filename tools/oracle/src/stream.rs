//! The Rust's `DataStream`, of sizes that are known when this is compiled, behind one face for all sizes.
use crate::normal::{self, Apart};
use crate::show;
use zmidi_net::command::{RetransmitError, RetransmitRequest, SeqNum, UmpData};
use zmidi_net::packet::PayloadWriter;
use zmidi_net::stream::{
    DataStream, Delivery, Receiver, RequestOutcome, Sender, SeqRange, StreamConfig, StreamError, StreamEvent, Written,
};

pub trait Stream {
    fn send_ump(&mut self, cfg: &StreamConfig, words: &[u32]) -> Result<(), StreamError>;
    fn on_retransmit_request(&mut self, cfg: &StreamConfig, req: RetransmitRequest) -> RequestOutcome;
    fn write_request(&mut self, cfg: &StreamConfig, w: &mut PayloadWriter<'_>) -> Result<bool, StreamError>;
    fn write_data(&mut self, cfg: &StreamConfig, now: u64, w: &mut PayloadWriter<'_>) -> Result<Written, StreamError>;
    fn on_ump_data<'a>(&mut self, cfg: &StreamConfig, now: u64, data: UmpData<'a>) -> Delivery<'a>;
    fn poll(&mut self, cfg: &StreamConfig, now: u64) -> Option<StreamEvent>;
    fn on_retransmit_error(&mut self, err: RetransmitError) -> StreamEvent;
    fn on_retransmit_nak(&mut self) -> Option<StreamEvent>;
    fn reset(&mut self);
    fn next_deadline(&self) -> Option<u64>;
    fn wants_write(&self, now: u64) -> bool;
    fn next_seq(&self) -> SeqNum;
    fn window(&self, range: SeqRange) -> String;
    fn state(&self) -> String;
    fn memory(&self) -> String;
}

/// The Rust's stream; after a `take`, its ends (see `Apart`).
enum Held<const W: usize, const C: usize, const Q: usize> {
    Whole(DataStream<W, C, Q>),
    Apart(Apart<W, C, Q>),
}
use Held::{Apart as Ends, Whole};

impl<const W: usize, const C: usize, const Q: usize> Held<W, C, Q> {
    fn sender(&self) -> &Sender<C, Q> {
        match self {
            Whole(s) => s.sender(),
            Ends(a) => &a.sender,
        }
    }

    fn receiver(&self) -> &Receiver<W> {
        match self {
            Whole(s) => s.receiver(),
            Ends(a) => &a.receiver,
        }
    }

    fn apart(&mut self) -> &mut Apart<W, C, Q> {
        if let Whole(s) = self {
            *self = Ends(Apart::of(s));
        }
        match self {
            Ends(a) => a,
            Whole(_) => unreachable!("its ends are apart"),
        }
    }
}

impl<const W: usize, const C: usize, const Q: usize> Stream for Held<W, C, Q> {
    fn send_ump(&mut self, cfg: &StreamConfig, words: &[u32]) -> Result<(), StreamError> {
        match self {
            Whole(s) => s.send_ump(cfg, words),
            Ends(a) => a.sender.send_ump(cfg, words),
        }
    }

    fn on_retransmit_request(&mut self, cfg: &StreamConfig, req: RetransmitRequest) -> RequestOutcome {
        match self {
            Whole(s) => s.on_retransmit_request(cfg, req),
            Ends(a) => a.sender.on_retransmit_request(cfg, req),
        }
    }

    fn write_request(&mut self, cfg: &StreamConfig, w: &mut PayloadWriter<'_>) -> Result<bool, StreamError> {
        self.apart().receiver.write_request(cfg, w)
    }

    fn write_data(&mut self, cfg: &StreamConfig, now: u64, w: &mut PayloadWriter<'_>) -> Result<Written, StreamError> {
        match self {
            Whole(s) => s.write_data(cfg, now, w),
            Ends(a) => a.write_data(cfg, now, w),
        }
    }

    fn on_ump_data<'a>(&mut self, cfg: &StreamConfig, now: u64, data: UmpData<'a>) -> Delivery<'a> {
        match self {
            Whole(s) => s.on_ump_data(cfg, now, data),
            Ends(a) => a.receiver.on_ump_data(cfg, now, data),
        }
    }

    fn poll(&mut self, cfg: &StreamConfig, now: u64) -> Option<StreamEvent> {
        match self {
            Whole(s) => s.poll(cfg, now),
            Ends(a) => a.receiver.poll(cfg, now),
        }
    }

    fn on_retransmit_error(&mut self, err: RetransmitError) -> StreamEvent {
        match self {
            Whole(s) => s.on_retransmit_error(err),
            Ends(a) => a.receiver.on_retransmit_error(err),
        }
    }

    fn on_retransmit_nak(&mut self) -> Option<StreamEvent> {
        match self {
            Whole(s) => s.on_retransmit_nak(),
            Ends(a) => a.receiver.on_retransmit_nak(),
        }
    }

    fn reset(&mut self) {
        match self {
            Whole(s) => s.reset(),
            Ends(a) => a.reset(),
        }
        *self = Whole(normal::fresh(&self.state(), |s| show::state(s.receiver(), s.sender())));
    }

    fn next_deadline(&self) -> Option<u64> {
        match self {
            Whole(s) => s.next_deadline(),
            Ends(a) => a.next_deadline(),
        }
    }

    fn wants_write(&self, now: u64) -> bool {
        match self {
            Whole(s) => s.wants_write(now),
            Ends(a) => a.wants_write(now),
        }
    }

    fn next_seq(&self) -> SeqNum {
        self.sender().next_seq()
    }

    fn window(&self, range: SeqRange) -> String {
        show::window(self.receiver().window(), range)
    }

    fn state(&self) -> String {
        show::state(self.receiver(), self.sender())
    }

    fn memory(&self) -> String {
        show::memory(self.sender())
    }
}

/// A fresh stream, or the number of a refusal.
pub fn new(cfg: StreamConfig, w: u64, c: u64, q: u64) -> Result<Box<dyn Stream>, u32> {
    normal::settings(&cfg)?;
    normal::sizes(w, c, q)?;
    macro_rules! each {
        ($($w:literal)*; $c:tt; $q:tt) => { $(each!(@c $w; $c; $q);)* };
        (@c $w:literal; ($($c:literal)*); $q:tt) => { $(each!(@q $w; $c; $q);)* };
        (@q $w:literal; $c:literal; ($($q:literal)*)) => { $(
            if (w, c, q) == ($w, $c, $q) {
                return Ok(Box::new(Whole(DataStream::<$w, $c, $q>::new(cfg).map_err(normal::stream)?)));
            }
        )* };
    }
    each!(1 2 4 32 64 127 128; (65 66 256 4096); (1 4 16));
    panic!("sizes {w} {c} {q} are not among those compiled")
}
