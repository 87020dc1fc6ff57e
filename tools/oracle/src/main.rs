//! Answers the call script on standard input with the Rust: one line for each call. The script is that of
//! the program `replay`.
use oracle::{line, lines, world};

fn main() {
    let mut world = world::World::new();
    lines::answer(|bytes| line::call(bytes).map_or_else(|| "bad".to_string(), |call| world.answer(call)));
}
