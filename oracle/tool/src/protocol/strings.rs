//! Requests about sticker strings and move text.
use crate::cubes::{cube_text, move_list, numbers, solvable_cube};
use crate::{readers, text};
use kewb::scramble::scramble_from_str;
use wire::{answer, bytes_text, Args};

pub fn read(args: &Args) -> Option<String> {
    Some(answer(readers::read_plain(&args.bytes()?).map(|c| cube_text(&c))))
}

pub fn strict(args: &Args) -> Option<String> {
    Some(answer(readers::read_strict(&args.bytes()?).map(|c| cube_text(&c))))
}

pub fn picture(args: &Args) -> Option<String> {
    Some(answer(solvable_cube(&args.cube(0)?).map(|c| readers::picture(&c))))
}

pub fn text(args: &Args) -> Option<String> {
    let (list, room) = (move_list(&args.list(0)?), args.number_or(1, usize::MAX)?);
    let text = list.and_then(|l| text::text_into(&l, room));
    Some(answer(text.map(|t| bytes_text(t.as_bytes()))))
}

pub fn parse(args: &Args) -> Option<String> {
    let (room, b) = args.number_and_bytes()?;
    Some(answer(text::parse_into(&b, room).map(|l| numbers(&l))))
}

/// kewb's scramble_from_str as it is.
pub fn rawparse(args: &Args) -> Option<String> {
    let b = args.bytes()?;
    let list = scramble_from_str(std::str::from_utf8(&b).ok()?);
    Some(answer(list.map(|l| numbers(&l)).map_err(readers::number)))
}

pub fn program(args: &Args) -> Option<String> {
    Some(answer(Ok(text::program(&args.bytes()?))))
}
