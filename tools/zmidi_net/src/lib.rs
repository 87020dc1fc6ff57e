//! The Rust that the library is compared with: packet.rs, command.rs and stream.rs, unchanged.
include!(concat!(env!("OUT_DIR"), "/source.rs"));
mod identity;
