//! Step "coords": the seven coordinates, both ways.
use crate::ffi;
use crate::lent::Outcome;
use crate::lines::line;
use std::ops::Range;
use wire::{answer, join, Args};

/// The coordinates in the order of their numbers in the C interface, each with the places of its array in a cube.
const KINDS: [(&str, Range<usize>); 7] = [
    ("co", 8..16),
    ("eo", 28..40),
    ("e_combo", 16..28),
    ("cp", 0..8),
    ("ud_ep", 16..28),
    ("e_ep", 16..28),
    ("ep", 16..28),
];

/// The number of a KIND, and how many places its array has.
fn kind(args: &Args) -> Option<(u8, usize)> {
    let name = args.word(0)?;
    let number = KINDS.iter().position(|(kind, _)| *kind == name)?;
    Some((number as u8, KINDS[number].1.len()))
}

/// A number; `r` and the refusal; `changed` where the call touched memory that it must not touch.
fn word(outcome: Outcome<u32>) -> String {
    match outcome {
        Outcome::Done(n) => n.to_string(),
        Outcome::Refused(n) => format!("r{n}"),
        Outcome::Changed => "changed".to_string(),
    }
}

/// Each coordinate by a call of its own.
pub fn coords(args: &Args) -> Option<String> {
    let cube = args.cube(0)?;
    let calls = (0..).zip(KINDS).map(|(number, (_, places))| ffi::arrangement_to_index(number, &cube[places]));
    let words: Vec<String> = calls.map(word).collect();
    Some(answer(Ok(words.join(" "))))
}

/// A list of another length than the kind's is no request.
pub fn index(args: &Args) -> Option<String> {
    let ((number, places), list) = (kind(args)?, args.list(1)?);
    if list.len() != places {
        return None;
    }
    line(ffi::arrangement_to_index(number, &list), |n| n.to_string())
}

/// A number that doesn't fit into the C function's argument is refused here, and only such a one.
pub fn arrange(args: &Args) -> Option<String> {
    let ((number, places), n) = (kind(args)?, args.number::<u64>(1)?);
    match u32::try_from(n) {
        Ok(n) => line(ffi::index_to_arrangement(number, n, places), |list| join(&list)),
        Err(_) => Some(answer(Err(8))),
    }
}
