//! Move text: of lists, and spoilt.
use crate::cubes::DECLARED;
use crate::rng::Rng;
use crate::text::list_text;
use kewb::oracle::moves::Move;

/// Text that is a list, and text that misses it by little.
#[rustfmt::skip]
pub const FIXED: [&[u8]; 44] = [
    b"", b"U", b"U2", b"U'", b"U3", b"U1", b"u", b" ", b"  ", b" U", b"U ", b"U  R", b"U\tR", b"U\n", b"\n", b"U R",
    b"U' R2 F", b"UR", b"U'2", b"U2'", b"U''", b"'", b"2", b"U 2", b"U '", b"M", b"x", b"U\x00", b"\x00", b"\xff",
    b"U \xc2\xa0R", b"U\xe2\x80\x99", b"R2 L2 U2 D2 F2 B2", b"U U U U", b"F' F' F'", b"B2 B' B", b"D D2 D'",
    b"L L2 L'", b"R R2 R'", b"U,R", b"(U)", b"U R\r", b"U\r\nR", b"U'  ",
];

/// The text of n moves, each any of the 18.
pub fn text_of(g: &mut Rng, n: usize) -> Vec<u8> {
    let list: Vec<Move> = (0..n).map(|_| g.pick(&DECLARED)).collect();
    list_text(&list).into_bytes()
}

/// The text of a list of up to 60 moves.
pub fn some_text(g: &mut Rng) -> Vec<u8> {
    let n = g.place(61);
    text_of(g, n)
}

/// One byte put in, changed or taken out.
pub fn spoil(g: &mut Rng, text: &mut Vec<u8>) {
    let i = g.place(text.len() + 1);
    let c = match g.below(4) {
        0 => b' ',
        1 => g.pick(b"URFDLB2'3"),
        2 => b'\'',
        _ => g.below(256) as u8,
    };
    match g.below(3) {
        0 => text.insert(i, c),
        _ if i == text.len() => {}
        1 => text[i] = c,
        _ => drop(text.remove(i)),
    }
}

/// A list's text spoilt n times, which may leave it a list.
pub fn spoilt(g: &mut Rng, n: usize) -> Vec<u8> {
    let mut text = some_text(g);
    (0..n).for_each(|_| spoil(g, &mut text));
    text
}

/// What isn't one space.
const GAPS: [&[u8]; 12] =
    [b"  ", b"   ", b"\t", b"\n", b"\r\n", b",", b" \t", b"\t ", b"\x00", b"\x0b", b"\xc2\xa0", b"\xe3\x80\x80"];

/// A list's text with a gap, or a space, before all or after all; or with a gap, or nothing, between two words.
pub fn badly_spaced(g: &mut Rng) -> Vec<u8> {
    let (n, k) = (1 + g.place(20), 1 + g.place(10));
    let (text, rest) = (text_of(g, n), text_of(g, k));
    let gap = if g.once_in(3) { None } else { Some(g.pick(&GAPS)) };
    match g.below(4) {
        0 => [gap.unwrap_or(b" "), &text].concat(),
        1 => [&text, gap.unwrap_or(b" ")].concat(),
        _ => [&text, gap.unwrap_or(b""), &rest].concat(),
    }
}

/// Words that aren't moves, though near to one.
#[rustfmt::skip]
const NEAR: [&[u8]; 20] = [
    b"U3", b"u", b"U''", b"U2'", b"U'2", b"U22", b"2U", b"'U", b"M", b"E2", b"x'", b"Rw", b"U1", b"U0", b"F4", b"(B)", b"D`",
    b"L\xe2\x80\x99", b"R\xb4", b"\xc3\x9c",
];

/// A list's text with one word that is no move.
pub fn bad_word(g: &mut Rng) -> Vec<u8> {
    let (before, after) = (g.place(20), g.place(20));
    let words = [text_of(g, before), g.pick(&NEAR).to_vec(), text_of(g, after)];
    words.into_iter().filter(|w| !w.is_empty()).collect::<Vec<_>>().join(&b' ')
}
