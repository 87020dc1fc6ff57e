//! The data stream between an organ console and its pipe chamber: Network MIDI 2.0 over UDP, with repeats and retransmits.
//!
//! A thin safe wrapper of a library that is proved to do what its definitions say, through its C functions
//! (`include/sirmjold.h`). No sockets, no clock, no heap, no threads of its own, and no `std`.
//!
//! ```text
//! console                                                             chamber
//!
//! send_ump                                                            messages, gaps, losses
//!    |                                                                   ^
//!    v                                                                   |
//! [Stream] -- write_data --> [Payload] ~~~ UDP ~~> [Reader] --> on_ump_data --> [Stream]
//!    ^                                                                             |
//!    |                                                                       poll  |
//!    +--- on_retransmit_request <-- [Reader] <~~ UDP ~~~ [Payload] <-- write_data -+
//! ```
//!
//! # A console and its chamber
//!
//! A note is played and released. The first payload is lost; the second repeats its command, so both changes arrive.
//!
//! ```
//! use sirmjold::{Class, HeldNotes, Payload, Read, Reader, Refusal, Stream, StreamConfig};
//!
//! fn main() -> Result<(), Refusal> {
//!     let cfg = StreamConfig::default();
//!     let mut console = Stream::new(&cfg, 64, 4, [0; 256])?;
//!     let mut chamber = Stream::new(&cfg, 64, 4, [0; 256])?;
//!     let mut held = HeldNotes::start(0)?;
//!     let mut payload = Payload::new(1400, [0; 1400])?;
//!
//!     console.send_ump(&cfg, &[0x2090_3C40])?; // note on, at 0 ms
//!     console.write_data(&cfg, 0, &mut payload)?;
//!     payload.clear(); // sent, and lost
//!     console.send_ump(&cfg, &[0x2080_3C00])?; // note off, at 50 ms
//!     console.write_data(&cfg, 50, &mut payload)?;
//!
//!     let mut reader = Reader::new();
//!     let mut commands = reader.read(payload.bytes()); // it arrives at 53 ms
//!     let mut handed_on: Vec<u32> = Vec::new();
//!     while let Some(command) = commands.next_command()? {
//!         if let Read::UmpData(data) = command {
//!             let delivery = chamber.on_ump_data(&cfg, 53, data.seq)?;
//!             held.delivered(&delivery, &data); // which pipes sound
//!             if delivery.class != Class::Duplicate {
//!                 handed_on.extend(data.words);
//!             }
//!         }
//!     }
//!     assert_eq!(handed_on, [0x2090_3C40, 0x2080_3C00]);
//!     assert_eq!(held.notes().count(), 0);
//!     Ok(())
//! }
//! ```
//!
//! A program reads the other commands too, polls, and writes when there is something to write, at both ends: the example
//! `console_and_chamber` does, over a line that loses, doubles and delays.
//!
//! | what | for |
//! |---|---|
//! | [`Stream`], [`StreamConfig`] | both ends of a stream: queue, write, hear, ask again, report |
//! | [`Payload`], [`Reader`] | payloads that are written and read |
//! | [`HeldNotes`] | which notes a chamber sounds |
//! | [`Window`] | a receive window alone |
//! | [`Uplink`] | one uplink for up to eight divisions |
//! | [`Load`], [`Line`] | words to send from a seed, and settings tried on a pretend link |
//! | [`Sheet`], [`columns`], [`restore`] | figures over the last arrivals of a file, and its blocks stored by column |
//!
//! # Memory
//!
//! All memory is the caller's; nothing is allocated. Three values use more than they hold themselves: a [`Stream`] its send
//! history, a [`Payload`] its buffer, a [`Sheet`] its ring. Each takes any [`Memory`]: an array or a `Vec` is given away, and
//! the value can then be kept, moved and sent to another thread; a `&mut` borrow is lent. A stream is 160 bytes and its history,
//! a [`Reader`] about 1,300 bytes, [`GivenNotes`] about 4 KB on the stack.
//!
//! # Time
//!
//! The library has no clock. Times are arguments, in ms from any moment that the caller likes, and no call waits.
//! [`Stream::next_deadline`] says when [`Stream::poll`] and [`Stream::write_data`] have work next. How soon a loss is reported
//! is up to the settings and to when the caller polls.
//!
//! # Refusals
//!
//! A call that cannot be done answers a [`Refusal`], which is an `Error` with a number and a text, and has changed nothing.
//! Two exceptions stand at [`Stream::write_data`] and [`Stream::send_and_write`]. Bytes from the line are no errors: [`Read`] has a case for
//! each thing that a payload can hold, and only a payload without the signature is refused. No bytes make a call panic.
//!
//! # Threads
//!
//! Nothing is shared and nothing is kept between calls but what the values here hold, so each of them is `Send` and `Sync`
//! where its memory is. A stream has one owner: calls that change it take `&mut self`, and it is not `Clone`.
//!
//! # What a chamber has to do
//!
//! A change that is played is handed to the chamber once, or lies in a reported loss. That is a theorem; `docs/CONTRACT.md`
//! says what it asks for. So that it holds, and no pipe sounds on:
//!
//! * Start both ends fresh, and reset both or none. Nothing written before a reset is heard after it.
//! * Give a stream data commands from one peer alone, and no damaged payloads: UDP's checksum, or a better one, makes these
//!   lost ones.
//! * Hand the messages of each command on, as they arrive, unless it is a [`Class::Duplicate`].
//! * Never hold a note for a [`Class::Late`] command: its release may already have come. Commands are handed on as they
//!   arrive, so a late note-on can follow its own note-off, and a pipe that is held by it sounds on, with no loss reported
//!   and nothing missing.
//! * Release all held notes at a reported loss ([`Delivery::lost`], [`StreamEvent::DataLoss`], [`StreamEvent::ErrorLoss`]),
//!   before the messages of the command that it came with, and at a reset.
//! * Poll: without it, what is missing is not asked for, and is reported only when it leaves the window.
//!
//! [`HeldNotes`] keeps to the two rules about notes, by proof.
//!
//! # Safety
//!
//! The crate has one `unsafe` block, in the macro of `src/lend.rs`, which makes a safe function of each C function. It is
//! sound for these reasons:
//!
//! * Where C takes a pointer and a length, the safe function takes a slice: the pointer is aligned, not null, and good for
//!   that many elements.
//! * What C writes is `&mut` until the call is over. So nothing overlaps it, and no other thread sees it. Of slices that
//!   are only read, all but one are the settings, the state or the stream's own history. No function keeps a pointer.
//! * Nothing else is asked: every value is tested, and the functions are proved to stay within what they are lent, whatever
//!   it holds. So a [`Memory`] that hands out other slices than before leads to refusals, not to a bad read.
//! * Answers are numbers. None is trusted with memory: each index that comes from one is tested again by Rust.
//!
//! Outside of the proofs stand `src/raw.rs`, which has to declare the functions as the library exports them, and the
//! compilers of both.
#![no_std]
#![deny(missing_docs)]
#![deny(unsafe_code)]

#[macro_use]
mod lend;
mod raw;

mod codec;
mod delivery;
mod hearing;
mod held_notes;
mod link;
mod load;
mod memory;
mod refusal;
mod sheet;
mod stream;
mod uplink;
mod window;

pub use codec::{Payload, Read, Reader, Reading, RetransmitError, RetransmitRequest, UmpData};
pub use delivery::{Class, Delivery, SeqRange};
pub use hearing::{Answer, Heard, HeardCommand};
pub use held_notes::{GivenNotes, HeldNotes};
pub use link::{Line, Report};
pub use load::{Load, LoadWords};
pub use memory::Memory;
pub use refusal::Refusal;
pub use sheet::{columns, restore, Sheet};
pub use stream::{Request, RequestOutcome, Stream, StreamConfig, StreamEvent, Written};
pub use uplink::{Grants, Uplink};
pub use window::Window;
