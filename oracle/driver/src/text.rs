//! Step "text": move text and the program.
use crate::ffi;
use crate::lines::line;
use wire::{bytes_text, join, Args};

pub fn parse(args: &Args) -> Option<String> {
    let (room, text) = args.number_and_bytes()?;
    line(ffi::scramble_from_str(&text, room), |moves| join(&moves))
}

/// Where no room is given, three bytes a move are lent, and eight more.
pub fn text(args: &Args) -> Option<String> {
    let list = args.list(0)?;
    let room = args.number_or(1, 3 * list.len() + 8)?;
    line(ffi::scramble_to_str(&list, room), |text| bytes_text(&text))
}

/// The lines printed, joined by `|`; a last one without LF is shown so that it agrees with nothing.
pub fn program(args: &Args) -> Option<String> {
    line(ffi::judge(&args.bytes()?), |printed| {
        let text = String::from_utf8_lossy(&printed).replace('\n', "|");
        match text.strip_suffix('|') {
            Some(lines) => lines.to_string(),
            None => text + " (no LF)",
        }
    })
}
