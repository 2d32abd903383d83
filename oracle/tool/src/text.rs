//! Move text and the paper's program. Move::from_str and Display are kewb's, the rule of spaces is the paper's.
use crate::cubes::solved;
use crate::readers::{number, read_strict};
use kewb::oracle::moves::Move;
use std::str::FromStr;
use wire::yes;

pub fn list_text(v: &[Move]) -> String {
    let words: Vec<String> = v.iter().map(Move::to_string).collect();
    words.join(" ")
}

/// The same with room for `room` bytes, else 10.
pub fn text_into(v: &[Move], room: usize) -> Result<String, u8> {
    Some(list_text(v)).filter(|text| text.len() <= room).ok_or(10)
}

fn parse_move(word: &[u8]) -> Result<Move, u8> {
    let word = std::str::from_utf8(word).map_err(|_| 7u8)?;
    Move::from_str(word).map_err(number)
}

/// Moves with one space between; empty text is the empty list.
pub fn parse(b: &[u8]) -> Result<Vec<Move>, u8> {
    if b.is_empty() {
        return Ok(vec![]);
    }
    b.split(|&c| c == b' ').map(parse_move).collect()
}

/// The same with room for `room` moves, else 10.
pub fn parse_into(b: &[u8], room: usize) -> Result<Vec<Move>, u8> {
    Some(parse(b)?).filter(|list| list.len() <= room).ok_or(10)
}

/// What the paper's program prints, lines joined by `|`.
pub fn program(b: &[u8]) -> String {
    judge(b).unwrap_or_else(|n| format!("refused {n}"))
}

fn judge(b: &[u8]) -> Result<String, u8> {
    if b.len() > 1024 {
        return Err(10);
    }
    let mut lines = b.splitn(2, |&x| x == b'\n');
    let stickers = lines.next().unwrap_or(b"");
    let moves = lines.next().unwrap_or(b"");
    let cube = read_strict(stickers)?;
    let list = parse_into(moves.strip_suffix(b"\n").unwrap_or(moves), 255)?;
    let ends = yes(cube.apply_moves(&list) == solved());
    Ok(format!("moves {}|strokes {}|solved {}", list.len(), list.len(), ends))
}
