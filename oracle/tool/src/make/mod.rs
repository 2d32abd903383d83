//! What requests are made of, seeded: cubes and move lists, arrays of coordinates, sticker strings, move text, inputs of
//! the program.
pub mod arrays;
mod cubes;
pub mod programs;
pub mod stickers;
pub mod texts;

pub use cubes::*;
