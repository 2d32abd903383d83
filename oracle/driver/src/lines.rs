//! Answer lines from what a call gave.
use crate::lent::Outcome;
use wire::{answer, join, Cube};

/// An answer line; `changed` where the call touched memory that it must not touch.
pub fn line<T>(outcome: Outcome<T>, say: impl Fn(T) -> String) -> Option<String> {
    Some(match outcome {
        Outcome::Done(bytes) => answer(Ok(say(bytes))),
        Outcome::Refused(number) => answer(Err(number)),
        Outcome::Changed => "changed".to_string(),
    })
}

pub fn cube_line(outcome: Outcome<Cube>) -> Option<String> {
    line(outcome, |cube| join(&cube))
}

pub fn number_line(outcome: Outcome<[u8; 1]>) -> Option<String> {
    line(outcome, |[n]| n.to_string())
}

/// 1 is yes, 0 is no; another byte is shown as it is, and agrees with nothing.
pub fn yes_line(outcome: Outcome<[u8; 1]>) -> Option<String> {
    line(outcome, |[n]| match n {
        0 | 1 => wire::yes(n == 1),
        other => other.to_string(),
    })
}
