//! The C functions, as `include/sirmjold.h` declares them.
pub const STREAM_WORDS: usize = 20;
pub const PAYLOAD_WORDS: usize = 2;
pub const WINDOW_WORDS: usize = 4;
pub const SETTINGS_WORDS: usize = 8;
pub const COMMAND_WORDS_MAX: usize = 255;
pub const ANSWER_WORDS: usize = 4;
pub const ANSWERS_MAX: usize = 349;

#[repr(C)]
pub struct Outcome {
    pub refusal: u8,
    pub kind: u8,
    pub reason: u8,
    pub seq: u16,
}

#[repr(C)]
pub struct Delivery {
    pub refusal: u8,
    pub class: u8,
    pub skipped: u16,
    pub gap_first: u16,
    pub gap_count: u16,
    pub lost_first: u16,
    pub lost_count: u16,
}

#[repr(C)]
pub struct Event {
    pub refusal: u8,
    pub kind: u8,
    pub reason: u8,
    pub seq: u16,
    pub first: u16,
    pub count: u16,
}

#[repr(C)]
pub struct Request {
    pub refusal: u8,
    pub kind: u8,
}

#[repr(C)]
pub struct Deadline {
    pub time: u64,
    pub refusal: u8,
    pub kind: u8,
}

#[repr(C)]
pub struct Wants {
    pub refusal: u8,
    pub wants: u8,
}

#[repr(C)]
pub struct Written {
    pub commands: u64,
    pub refusal: u8,
    pub more: u8,
}

#[repr(C)]
pub struct SentWritten {
    pub commands: u64,
    pub refusal: u8,
    pub more: u8,
    pub queued: u8,
}

#[repr(C)]
pub struct Heard {
    pub next: u64,
    pub count: u64,
    pub refusal: u8,
}

#[repr(C)]
pub struct Made {
    pub len: u64,
    pub refusal: u8,
}

#[repr(C)]
pub struct Read {
    pub next: u64,
    pub refusal: u8,
    pub kind: u8,
    pub code: u8,
    pub len: u8,
    pub seq: u16,
    pub count: u16,
}

#[repr(C)]
pub struct Load {
    pub last: u32,
}

#[repr(C)]
pub struct Jumped {
    pub load: Load,
    pub rounds: u32,
}

#[repr(C)]
pub struct Asked {
    pub words: [u32; 8],
    pub count: usize,
}

#[repr(C)]
pub struct Report {
    pub steps: u32,
    pub handed: u32,
    pub losses: u32,
    pub refusal: u8,
}

#[repr(C)]
#[derive(Debug, Clone, Copy, PartialEq, Eq)]
pub struct Held {
    pub group: u8,
    pub held: [u64; 32],
}

#[repr(C)]
#[derive(Debug, Clone, Copy, PartialEq, Eq)]
pub struct Notes {
    pub count: usize,
    pub items: [u16; 2048],
}

#[repr(C)]
pub struct Given {
    pub state: Held,
    pub notes: Notes,
    pub refusal: u8,
}

#[repr(C)]
pub struct Granted {
    pub grants: [u16; 8],
    pub turn: u16,
    pub refusal: u8,
}

#[repr(C)]
#[derive(Debug, Clone, Copy)]
pub struct Sheet {
    pub n: usize,
    pub head: usize,
    pub len: usize,
}

#[repr(C)]
pub struct SheetAnswer {
    pub sheet: Sheet,
    pub refusal: u8,
}

extern "C" {
    pub fn sirmjold_stream_new(
        s: *mut u64,
        s_len: usize,
        cfg: *const u32,
        cfg_len: usize,
        window: u32,
        places: usize,
        ring: *mut u32,
        ring_len: usize,
    ) -> u8;
    pub fn sirmjold_stream_reset(s: *mut u64, s_len: usize, ring: *mut u32, ring_len: usize) -> u8;
    pub fn sirmjold_stream_send_ump(
        s: *mut u64,
        s_len: usize,
        cfg: *const u32,
        cfg_len: usize,
        ring: *mut u32,
        ring_len: usize,
        words: *const u32,
        words_len: usize,
    ) -> u8;
    pub fn sirmjold_stream_on_retransmit_request(
        s: *mut u64,
        s_len: usize,
        cfg: *const u32,
        cfg_len: usize,
        ring: *const u32,
        ring_len: usize,
        seq: u16,
        count: u16,
    ) -> Outcome;
    pub fn sirmjold_stream_on_ump_data(
        s: *mut u64,
        s_len: usize,
        cfg: *const u32,
        cfg_len: usize,
        time: u64,
        seq: u16,
    ) -> Delivery;
    pub fn sirmjold_stream_on_retransmit_error(
        s: *mut u64,
        s_len: usize,
        reason: u8,
        seq: u16,
    ) -> Event;
    pub fn sirmjold_stream_on_retransmit_nak(s: *mut u64, s_len: usize) -> Event;
    pub fn sirmjold_stream_poll(
        s: *mut u64,
        s_len: usize,
        cfg: *const u32,
        cfg_len: usize,
        time: u64,
    ) -> Event;
    pub fn sirmjold_stream_write_request(
        s: *mut u64,
        s_len: usize,
        cfg: *const u32,
        cfg_len: usize,
        p: *mut u64,
        p_len: usize,
        buf: *mut u8,
        buf_len: usize,
    ) -> Request;
    pub fn sirmjold_stream_next_deadline(
        s: *const u64,
        s_len: usize,
        ring: *const u32,
        ring_len: usize,
    ) -> Deadline;
    pub fn sirmjold_stream_wants_write(
        s: *const u64,
        s_len: usize,
        ring: *const u32,
        ring_len: usize,
        time: u64,
    ) -> Wants;
    pub fn sirmjold_stream_write_data(
        s: *mut u64,
        s_len: usize,
        cfg: *const u32,
        cfg_len: usize,
        time: u64,
        p: *mut u64,
        p_len: usize,
        buf: *mut u8,
        buf_len: usize,
        ring: *mut u32,
        ring_len: usize,
    ) -> Written;
    pub fn sirmjold_stream_send_and_write(
        s: *mut u64,
        s_len: usize,
        cfg: *const u32,
        cfg_len: usize,
        time: u64,
        words: *const u32,
        words_len: usize,
        p: *mut u64,
        p_len: usize,
        buf: *mut u8,
        buf_len: usize,
        ring: *mut u32,
        ring_len: usize,
    ) -> SentWritten;
    pub fn sirmjold_stream_hear(
        s: *mut u64,
        s_len: usize,
        cfg: *const u32,
        cfg_len: usize,
        time: u64,
        ring: *const u32,
        ring_len: usize,
        payload: *const u8,
        payload_len: usize,
        at: usize,
        heard: *mut u64,
        heard_len: usize,
    ) -> Heard;
    pub fn sirmjold_payload_new(p: *mut u64, p_len: usize, max: usize) -> u8;
    pub fn sirmjold_payload_command(
        p: *mut u64,
        p_len: usize,
        buf: *mut u8,
        buf_len: usize,
        code: u8,
        csd1: u8,
        csd2: u8,
        words: *const u32,
        words_len: usize,
    ) -> u8;
    pub fn sirmjold_ump_data_write(
        p: *mut u64,
        p_len: usize,
        buf: *mut u8,
        buf_len: usize,
        seq: u16,
        words: *const u32,
        words_len: usize,
    ) -> u8;
    pub fn sirmjold_ump_data_payload(
        buf: *mut u8,
        buf_len: usize,
        max: usize,
        seq: u16,
        words: *const u32,
        words_len: usize,
    ) -> Made;
    pub fn sirmjold_retransmit_request_write(
        p: *mut u64,
        p_len: usize,
        buf: *mut u8,
        buf_len: usize,
        seq: u16,
        count: u16,
    ) -> u8;
    pub fn sirmjold_retransmit_error_write(
        p: *mut u64,
        p_len: usize,
        buf: *mut u8,
        buf_len: usize,
        reason: u8,
        seq: u16,
    ) -> u8;
    pub fn sirmjold_command_next(
        payload: *const u8,
        payload_len: usize,
        at: usize,
        words: *mut u32,
        words_len: usize,
        lens: *mut u8,
        lens_len: usize,
    ) -> Read;
    pub fn sirmjold_window_starting_at(w: *mut u64, w_len: usize, size: u32, highest: u16) -> u8;
    pub fn sirmjold_window_accept(w: *mut u64, w_len: usize, seq: u16) -> Delivery;
    pub fn sirmjold_load_draw(load: Load) -> Load;
    pub fn sirmjold_load_jump(load: Load, n: u16) -> Jumped;
    pub fn sirmjold_load_words(load: Load) -> Asked;
    pub fn sirmjold_link_run(
        cfg: *const u32,
        cfg_len: usize,
        window: u32,
        places: usize,
        seed: u32,
        drop: u32,
        figure: u16,
        budget: u32,
        ring: *mut u32,
        ring_len: usize,
        other: *mut u32,
        other_len: usize,
    ) -> Report;
    pub fn sirmjold_held_start(group: u8) -> Given;
    pub fn sirmjold_held_delivered(
        state: Held,
        refusal: u8,
        class: u8,
        lost: u16,
        body: *const u8,
        body_len: usize,
    ) -> Given;
    pub fn sirmjold_held_told(state: Held, kind: u8) -> Given;
    pub fn sirmjold_held_restarted(state: Held) -> Given;
    pub fn sirmjold_uplink_grant(
        words: u16,
        turn: u16,
        wants: *const u16,
        wants_len: usize,
    ) -> Granted;
    pub fn sirmjold_sheet_start(n: usize, ring: *mut u32, ring_len: usize) -> SheetAnswer;
    pub fn sirmjold_sheet_block(
        sheet: Sheet,
        ring: *mut u32,
        ring_len: usize,
        block: *const u8,
        block_len: usize,
        out: *mut u8,
        out_len: usize,
    ) -> SheetAnswer;
    pub fn sirmjold_sheet_columns(
        block: *const u8,
        block_len: usize,
        out: *mut u8,
        out_len: usize,
    ) -> u8;
    pub fn sirmjold_sheet_restore(
        stored: *const u8,
        stored_len: usize,
        out: *mut u8,
        out_len: usize,
    ) -> u8;
}
