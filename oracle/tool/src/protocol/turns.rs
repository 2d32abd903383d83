//! Requests about moves alone.
use crate::cubes::{move_of, numbers};
use crate::VARIANT;
use kewb::oracle::moves::Move;
use kewb::oracle::utils::ALL_MOVES;
use wire::{answer, yes, Args};

pub fn variant() -> String {
    answer(Ok(format!("{} {}", VARIANT, numbers(&ALL_MOVES))))
}

pub fn inverse(args: &Args) -> Option<String> {
    let m = move_of(args.number(0)?);
    Some(answer(m.map(|m| (m.get_inverse() as u8).to_string())))
}

/// A question about two moves, 7 where either is none.
pub fn of_two(args: &Args, holds: impl Fn(Move, Move) -> bool) -> Option<String> {
    let (a, b) = (move_of(args.number(0)?), move_of(args.number(1)?));
    Some(answer(a.and_then(|a| Ok(yes(holds(a, b?))))))
}
