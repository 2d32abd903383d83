//! The line protocol: what a request and an answer look like. Used by the oracle and by the driver of the product.

mod args;
mod layout;
mod names;
mod serve;

pub use args::{bytes_text, join, Args, Cube};
pub use layout::{fnv, summed, LENGTHS, PRUNE_OF};
pub use names::NAMES;
pub use serve::serve;

/// An answer line: the result, or the number of the refusal.
pub fn answer(result: Result<String, u8>) -> String {
    match result {
        Ok(text) => format!("ok {text}"),
        Err(number) => format!("refused {number}"),
    }
}

pub fn yes(holds: bool) -> String {
    if holds { "yes" } else { "no" }.to_string()
}
