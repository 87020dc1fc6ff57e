//! The library's side, by its C functions, which are calls of their own.
use crate::raw::{self, ANSWER_WORDS, ANSWERS_MAX, COMMAND_WORDS_MAX as MOST, Delivery, STREAM_WORDS};
use crate::side::{LARGE, LIMIT, PLACES, SMALL, Side, Stream, WINDOW, delivery, fold};
use std::mem::MaybeUninit;

const CFG: [u32; 8] = [100, 2, 5, 2, 1, 10, 3, 64];

pub struct Ours;

pub struct Ends<const C: usize> {
    words: [u64; STREAM_WORDS],
    ring: Box<[u32; C]>,
}

fn told(d: Delivery) -> u64 {
    assert_eq!(d.refusal, 0);
    delivery(d.class.into(), d.skipped, d.lost_first, d.lost_count)
}

/// The words of the messages of a data command, and the cut mark.
#[inline(always)]
fn messages(words: &[u32], cut: bool, sum: u64) -> u64 {
    fold(words.iter().fold(sum, |sum, w| fold(sum, (*w).into())), cut.into())
}

/// Each command of a payload, one call for each: a data command's number to `data`, with the words of its whole messages
/// and the cut mark. Fewer than four bytes are the end.
#[inline(always)]
fn commands(payload: &[u8], mut data: impl FnMut(u64, u16, &[u32], bool) -> u64) -> u64 {
    let mut words = [MaybeUninit::<u32>::uninit(); MOST];
    let mut lens = [MaybeUninit::<u8>::uninit(); MOST];
    let (mut at, mut sum) = (0, 0);
    loop {
        let r = unsafe {
            raw::sirmjold_command_next(payload.as_ptr(), payload.len(), at, words.as_mut_ptr().cast(), MOST, lens.as_mut_ptr().cast(), MOST)
        };
        sum = match r.kind {
            // SAFETY: the call has stored at least `count` words.
            3 => data(sum, r.seq, unsafe { std::slice::from_raw_parts(words.as_ptr().cast(), r.count.into()) }, r.count < r.len.into()),
            0 if r.refusal == 1 => return 0,
            0 if r.refusal == 0 => return fold(sum, 0),
            1 => return fold(sum, 1),
            4 => fold(sum, 2),
            5 => fold(sum, 3),
            _ => fold(sum, 0),
        };
        at = r.next as usize;
        if payload.len() - at < 4 {
            return fold(sum, 0);
        }
    }
}

/// Words of a window of 64 that only the last of its tests refuses: a position outside the window is set.
const REFUSED: [u64; 4] = [WINDOW as u64, 0xFFFF, u64::MAX, 1];

/// The word of a stream with positions 64 to 127 of its window's set: of a window of 64 they are outside.
const SET_HIGH: usize = 1;

/// A call of a window that makes all its tests, and is refused by the last one.
pub fn window_tests() -> u64 {
    let mut w = REFUSED;
    let d = unsafe { raw::sirmjold_window_accept(std::hint::black_box(&mut w).as_mut_ptr(), 4, 0) };
    assert_eq!(d.refusal, 13);
    d.refusal.into()
}

/// The same of a write into a payload: its length is no multiple of 4.
pub fn payload_tests(buf: &mut [u8], words: &[u32]) -> u64 {
    let mut p = [10, LIMIT as u64];
    let wrote = unsafe {
        raw::sirmjold_ump_data_write(std::hint::black_box(&mut p).as_mut_ptr(), 2, buf.as_mut_ptr(), buf.len(), 0, words.as_ptr(), words.len())
    };
    assert_eq!(wrote, 13);
    wrote.into()
}

impl<const C: usize> Ends<C> {
    /// A stream whose receiver's calls make all their tests, and are refused by the last one.
    pub fn refused() -> Self {
        let mut e = Self::fresh();
        e.words[SET_HIGH] = 1;
        e
    }

    pub fn heard_tests(&mut self) -> u64 {
        let d = unsafe { raw::sirmjold_stream_on_ump_data(self.words.as_mut_ptr(), STREAM_WORDS, CFG.as_ptr(), 8, 0, 0) };
        assert_eq!(d.refusal, 13);
        d.refusal.into()
    }
}

impl Side for Ours {
    type Window = [u64; 4];
    type Small = Ends<SMALL>;
    type Large = Ends<LARGE>;
    type Sheet = (raw::Sheet, Vec<u32>);

    fn read(payload: &[u8]) -> u64 {
        commands(payload, |sum, seq, words, cut| messages(words, cut, fold(sum, seq.into())))
    }

    fn write_data(buf: &mut [u8], seq: u16, words: &[u32]) -> usize {
        let made = unsafe { raw::sirmjold_ump_data_payload(buf.as_mut_ptr(), buf.len(), LIMIT, seq, words.as_ptr(), words.len()) };
        assert_eq!(made.refusal, 0);
        made.len as usize
    }

    fn write_data_apart(buf: &mut [u8], seq: u16, words: &[u32]) -> usize {
        let mut p = [0; 2];
        let opened = unsafe { raw::sirmjold_payload_new(p.as_mut_ptr(), 2, LIMIT) };
        let wrote =
            unsafe { raw::sirmjold_ump_data_write(p.as_mut_ptr(), 2, buf.as_mut_ptr(), buf.len(), seq, words.as_ptr(), words.len()) };
        assert_eq!(opened | wrote, 0);
        p[0] as usize
    }

    fn window() -> [u64; 4] {
        let mut w = [0; 4];
        assert_eq!(unsafe { raw::sirmjold_window_starting_at(w.as_mut_ptr(), 4, WINDOW as u32, 0xFFFF) }, 0);
        w
    }

    fn accept(w: &mut [u64; 4], seq: u16) -> u64 {
        told(unsafe { raw::sirmjold_window_accept(w.as_mut_ptr(), 4, seq) })
    }

    fn drawn(seed: u32, n: u16) -> u32 {
        unsafe { raw::sirmjold_load_jump(raw::Load { last: seed }, n) }.load.last
    }

    fn link(figure: u16, steps: u32) -> (u32, u32) {
        let (mut ring, mut other) = ([0; SMALL], [0; SMALL]);
        let r = unsafe {
            raw::sirmjold_link_run(CFG.as_ptr(), 8, WINDOW as u32, PLACES, 1, 2, figure, steps, ring.as_mut_ptr(), SMALL, other.as_mut_ptr(), SMALL)
        };
        assert_eq!((r.refusal, r.steps), (0, steps));
        (r.handed, r.losses)
    }

    fn sheet(n: usize) -> Self::Sheet {
        let mut ring = vec![0; n];
        let started = unsafe { raw::sirmjold_sheet_start(n, ring.as_mut_ptr(), n) };
        assert_eq!(started.refusal, 0);
        (started.sheet, ring)
    }

    fn figures((sheet, ring): &mut Self::Sheet, block: &[u8], out: &mut [u8]) {
        let a = unsafe {
            raw::sirmjold_sheet_block(*sheet, ring.as_mut_ptr(), ring.len(), block.as_ptr(), block.len(), out.as_mut_ptr(), out.len())
        };
        assert_eq!(a.refusal, 0);
        *sheet = a.sheet;
    }
}

impl<const C: usize> Stream for Ends<C> {
    fn fresh() -> Self {
        let mut e = Ends { words: [0; STREAM_WORDS], ring: Box::new([0; C]) };
        let started = unsafe {
            raw::sirmjold_stream_new(e.words.as_mut_ptr(), STREAM_WORDS, CFG.as_ptr(), 8, WINDOW as u32, PLACES, e.ring.as_mut_ptr(), C)
        };
        assert_eq!(started, 0);
        e
    }

    fn send(&mut self, words: &[u32]) {
        let sent = unsafe {
            raw::sirmjold_stream_send_ump(self.words.as_mut_ptr(), STREAM_WORDS, CFG.as_ptr(), 8, self.ring.as_mut_ptr(), C, words.as_ptr(), words.len())
        };
        assert_eq!(sent, 0);
    }

    fn write(&mut self, now: u64, buf: &mut [u8]) -> (usize, bool) {
        let mut p = [0; 2];
        let opened = unsafe { raw::sirmjold_payload_new(p.as_mut_ptr(), 2, LIMIT) };
        let w = unsafe {
            raw::sirmjold_stream_write_data(
                self.words.as_mut_ptr(), STREAM_WORDS, CFG.as_ptr(), 8, now, p.as_mut_ptr(), 2, buf.as_mut_ptr(), buf.len(),
                self.ring.as_mut_ptr(), C,
            )
        };
        assert_eq!(opened | w.refusal, 0);
        (p[0] as usize, w.more != 0)
    }

    fn play(&mut self, words: &[u32], now: u64, buf: &mut [u8]) -> (usize, bool) {
        let mut p = [0; 2];
        let opened = unsafe { raw::sirmjold_payload_new(p.as_mut_ptr(), 2, LIMIT) };
        let w = unsafe {
            raw::sirmjold_stream_send_and_write(
                self.words.as_mut_ptr(), STREAM_WORDS, CFG.as_ptr(), 8, now, words.as_ptr(), words.len(), p.as_mut_ptr(), 2, buf.as_mut_ptr(),
                buf.len(), self.ring.as_mut_ptr(), C,
            )
        };
        assert_eq!((opened | w.refusal, w.queued), (0, 1));
        (p[0] as usize, w.more != 0)
    }

    fn heard(&mut self, now: u64, seq: u16) -> u64 {
        told(unsafe { raw::sirmjold_stream_on_ump_data(self.words.as_mut_ptr(), STREAM_WORDS, CFG.as_ptr(), 8, now, seq) })
    }

    fn receive(&mut self, now: u64, payload: &[u8]) -> u64 {
        commands(payload, |sum, seq, words, cut| {
            let d = self.heard(now, seq);
            let sum = fold(sum, d);
            if d & 3 == 2 { sum } else { messages(words, cut, sum) }
        })
    }

    fn hear(&mut self, now: u64, payload: &[u8]) -> u64 {
        commands(payload, |sum, seq, _, _| fold(sum, self.heard(now, seq)))
    }

    fn hear_payload(&mut self, now: u64, payload: &[u8]) -> u64 {
        let mut room = [MaybeUninit::<u64>::uninit(); ANSWER_WORDS * ANSWERS_MAX];
        let h = unsafe {
            raw::sirmjold_stream_hear(
                self.words.as_mut_ptr(), STREAM_WORDS, CFG.as_ptr(), 8, now, self.ring.as_ptr(), C, payload.as_ptr(), payload.len(), 0,
                room.as_mut_ptr().cast(), room.len(),
            )
        };
        assert_eq!((h.refusal, h.next), (0, 0));
        // SAFETY: the call has stored so many answers.
        let answers = unsafe { std::slice::from_raw_parts(room.as_ptr().cast::<u64>(), ANSWER_WORDS * h.count as usize) };
        let sum = answers.chunks_exact(ANSWER_WORDS).fold(0, |sum, a| {
            assert_eq!((a[1] as u8, a[2] as u8), (3, 0));
            fold(sum, delivery(u64::from((a[2] >> 8) as u8), (a[2] >> 16) as u16, a[3] as u16, (a[3] >> 16) as u16))
        });
        fold(sum, 0)
    }

    fn request(&mut self, seq: u16, count: u16) -> u64 {
        let o = unsafe {
            raw::sirmjold_stream_on_retransmit_request(self.words.as_mut_ptr(), STREAM_WORDS, CFG.as_ptr(), 8, self.ring.as_ptr(), C, seq, count)
        };
        assert_eq!(o.refusal, 0);
        o.kind.into()
    }

    fn poll(&mut self, now: u64) -> u64 {
        let e = unsafe { raw::sirmjold_stream_poll(self.words.as_mut_ptr(), STREAM_WORDS, CFG.as_ptr(), 8, now) };
        assert_eq!(e.refusal, 0);
        e.kind.into()
    }

    fn wants(&self, now: u64) -> bool {
        let w = unsafe { raw::sirmjold_stream_wants_write(self.words.as_ptr(), STREAM_WORDS, self.ring.as_ptr(), C, now) };
        assert_eq!(w.refusal, 0);
        w.wants != 0
    }
}
