//! Inputs of the paper's program: stickers, LF, move text.
use super::random_scramble;
use super::stickers::{
    any_byte_in, any_bytes, changed, corners_interchanged, misread, of_colours, some_picture, twisted,
};
use super::texts::{bad_word, badly_spaced, spoil, spoilt, text_of};
use crate::cubes::solved;
use crate::readers::{picture, solved_picture};
use crate::rng::Rng;
use crate::text::list_text;
use kewb::oracle::moves::Move;

fn input(stickers: &[u8], moves: &[u8]) -> Vec<u8> {
    [stickers, b"\n", moves].concat()
}

pub fn small_inputs() -> Vec<Vec<u8>> {
    let after_u = picture(&solved().apply_move(Move::U)).into_bytes();
    let solved = solved_picture();
    let mut v = vec![vec![], b"\n".to_vec(), b"U".to_vec(), after_u.clone(), solved.clone()];
    for moves in [&b"U'"[..], b"U'\n", b"U'\n\n", b"U", b"", b"\n"] {
        v.push(input(&after_u, moves));
    }
    for moves in [&b""[..], b"U2", b" U", b"U "] {
        v.push(input(&solved, moves));
    }
    v.push(input(&[b'U'; 54], b"U"));
    v.push([&solved[..], b"\r\nU"].concat());
    v.push(input(b"", &solved));
    v
}

/// Lists and inputs round the lengths that are refused.
pub fn long_inputs() -> Vec<Vec<u8>> {
    let solved = solved_picture();
    let mut v = vec![];
    for n in [254, 255, 256, 300] {
        let (quarter, back) = (vec!["U"; n].join(" "), vec!["U'"; n].join(" "));
        for moves in [quarter.clone(), quarter.clone() + "\n", back, quarter + " X"] {
            v.push(input(&solved, moves.as_bytes()));
        }
    }
    for n in [1023, 1024, 1025] {
        let mut text = input(&solved, "U2 ".repeat((n - 55) / 3).as_bytes());
        text.resize(n, b'X');
        v.push(text);
        v.push(vec![b'U'; n]);
    }
    v
}

/// A scramble's picture and mostly the list that solves it, sometimes spoilt.
pub fn random_input(g: &mut Rng) -> Vec<u8> {
    let (scramble, mut stickers, back) = scrambled(g);
    if g.once_in(12) {
        stickers[g.place(54)] = g.pick(b"URFDLBX");
    }
    let mut moves = list_text(if g.once_in(6) { &scramble } else { &back }).into_bytes();
    if g.once_in(8) {
        moves.insert(g.place(moves.len() + 1), g.pick(b" 2'XU\n"));
    }
    if g.once_in(3) {
        moves.push(b'\n');
    }
    input(&stickers, &moves)
}

/// A scramble, its picture and the list that solves it.
fn scrambled(g: &mut Rng) -> (Vec<Move>, Vec<u8>, Vec<Move>) {
    let n = g.place(20);
    let scramble = random_scramble(g, n);
    let back = scramble.iter().rev().map(|m| m.get_inverse()).collect();
    let stickers = picture(&solved().apply_moves(&scramble)).into_bytes();
    (scramble, stickers, back)
}

/// Stickers refused with 1, 2, 3 or 15, or a picture of another cube.
fn other_stickers(g: &mut Rng) -> Vec<u8> {
    let (k, length) = (1 + g.place(6), g.place(60));
    match g.below(9) {
        0 => changed(g, k),
        1 => of_colours(g, k),
        2 => twisted(g, &[1]),
        3 => corners_interchanged(g),
        4 => misread(g, 2),
        5 => some_picture(g).into_iter().cycle().take(length).collect(),
        6 => any_bytes(g, length),
        7 => any_byte_in(g),
        _ => some_picture(g),
    }
}

/// Move text refused with 7 or 10, or another list.
fn other_moves(g: &mut Rng) -> Vec<u8> {
    let (few, many) = (1 + g.place(3), 250 + g.place(10));
    match g.below(6) {
        0 => spoilt(g, few),
        1 => badly_spaced(g),
        2 => bad_word(g),
        3 => text_of(g, many),
        4 => {
            let mut text = text_of(g, many);
            spoil(g, &mut text);
            text
        }
        _ => text_of(g, few),
    }
}

const BETWEEN: [&[u8]; 5] = [b"", b"\r\n", b"\n\n", b" ", b" \n"];
const AT_END: [&[u8]; 8] = [b"", b"", b"\n", b"\n", b"\n\n", b"\r\n", b" \n", b"\n "];

/// Any of the parts wrong, or several: stickers, what is between, moves, what is at the end.
pub fn any_input(g: &mut Rng) -> Vec<u8> {
    let (_, picture, back) = scrambled(g);
    let stickers = if g.once_in(4) { other_stickers(g) } else { picture };
    let between = if g.once_in(10) { g.pick(&BETWEEN) } else { b"\n" };
    let moves = if g.once_in(3) { other_moves(g) } else { list_text(&back).into_bytes() };
    [&stickers[..], between, &moves, g.pick(&AT_END)].concat()
}

/// A list's text of exactly n bytes.
fn text_of_bytes(n: usize) -> Vec<u8> {
    let tail: &[u8] = [&b"U2 U"[..], b"U", b"U2", b"U U"][n % 4];
    [b"U R ".repeat((n - 1) / 4), tail.to_vec()].concat()
}

/// Every length round 1,024: right and wrong stickers with lists and with no list, and inputs of one byte repeated.
pub fn round_1024() -> Vec<Vec<u8>> {
    let mut v = vec![];
    for n in 1018..=1030 {
        for stickers in [solved_picture(), vec![b'U'; 54], vec![b'X'; 54], vec![b'U'; 53], vec![]] {
            let room = n - stickers.len() - 1;
            let closed = [&text_of_bytes(room - 1)[..], b"\n"].concat();
            let moves = [text_of_bytes(room), closed, vec![b' '; room], vec![b'\n'; room], vec![b'X'; room]];
            v.extend(moves.iter().map(|m| input(&stickers, m)));
        }
        v.extend(b"UX\n".iter().map(|&b| vec![b; n]));
    }
    v
}
