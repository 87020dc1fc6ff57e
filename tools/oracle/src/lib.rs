//! The Rust behind the call script (`oracle`) and on a pretend link (`link`). Everything that is not the Rust's own
//! answer is in `normal`, but for `bad`, which is `line`'s: a line that is no call.
pub mod line;
pub mod lines;
pub mod normal;
pub mod show;
pub mod stream;
pub mod world;
