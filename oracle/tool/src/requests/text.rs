//! Step "text": move text and the program.
use super::{different, Ask, Class};
use crate::make::any_list;
use crate::make::programs::{any_input, long_inputs, random_input, round_1024, small_inputs};
use crate::make::texts::*;
use crate::rng::Rng;
use crate::text::parse as moves_of;
use wire::{bytes_text, join};

pub fn compare(seed: u64, factor: u64, ask: Ask) -> usize {
    let g = &mut Rng::stream(seed, 4);
    short_texts(ask);
    FIXED.iter().for_each(|t| [0, 1, 2, 31, 255].iter().for_each(|&room| parse(t, room, ask)));
    long_texts(g, ask);
    let texts = different(g, &TEXTS, 1000 * factor, &mut |g, t| in_rooms(g, t, ask));
    short_lists(ask);
    bad_lists(g, ask);
    let lists = different(g, &LISTS, 1000 * factor, &mut |g, list| written(g, list, ask));
    let inputs = [small_inputs(), long_inputs(), round_1024()].concat();
    inputs.iter().for_each(|i| program(i, ask));
    texts + lists + different(g, &INPUTS, 1000 * factor, &mut |_, i| program(i, ask))
}

fn parse(text: &[u8], room: usize, ask: Ask) {
    ask(format!("parse {} {}", room, bytes_text(text)));
}

fn text(list: &[u8], room: usize, ask: Ask) {
    ask(format!("text {} {}", join(list), room));
}

fn program(input: &[u8], ask: Ask) {
    ask(format!("program {}", bytes_text(input)));
}

/// The marks of the moves' words, what stands between them, and some that are neither.
const MARKS: &[u8] = b"URFDLB2' 3";
const MORE: &[u8] = b"URFDLB2' 3014urMEx,-.()`\"\t\n\r\x00\x0b\x7f\x80\xa0\xc2\xff";

/// All strings of n of these bytes.
fn strings(n: u32, of: &[u8]) -> impl Iterator<Item = Vec<u8>> + '_ {
    let k = of.len();
    (0..k.pow(n)).map(move |number| (0..n).map(|i| of[number / k.pow(i) % k]).collect())
}

/// All texts of up to four marks and of up to two of more bytes; every byte alone, before, after and between moves.
fn short_texts(ask: Ask) {
    let marks = (3..=4).flat_map(|n| strings(n, MARKS));
    for t in (0..=2).flat_map(|n| strings(n, MORE)).chain(marks) {
        (0..=2).for_each(|room| parse(&t, room, ask));
    }
    for b in 0..=255 {
        parse(&[b], 2, ask);
        parse(&[b, b'U'], 2, ask);
        parse(&[b'U', b, b'R', b'2'], 2, ask);
        b"URFDLB".iter().for_each(|&letter| parse(&[letter, b], 2, ask));
    }
}

/// Lists longer than any that the product keeps.
fn long_texts(g: &mut Rng, ask: Ask) {
    for n in [61, 254, 255, 256, 257, 1000, 65537] {
        let whole = text_of(g, n);
        [n, n - 1, n + 1, 0, n % 256].iter().for_each(|&room| parse(&whole, room, ask));
        let mut bad = whole;
        *bad.last_mut().unwrap() = b'X';
        [n, n - 1, 0].iter().for_each(|&room| parse(&bad, room, ask));
    }
}

/// Texts of every sort, of 110.
const TEXTS: [Class<Vec<u8>>; 5] =
    [(40, some_text), (30, |g| spoilt(g, 1)), (10, |g| spoilt(g, 2)), (15, badly_spaced), (15, bad_word)];

/// A list's text with room for it, with one place too few, with none and with many; another text with any of these.
fn in_rooms(g: &mut Rng, text: &[u8], ask: Ask) {
    let n = moves_of(text).map_or_else(|_| g.place(40), |list| list.len());
    let rooms = [n, n.saturating_sub(1), 0, n + 1 + g.place(300)];
    if moves_of(text).is_ok() {
        rooms.iter().for_each(|&room| parse(text, room, ask));
    } else {
        parse(text, g.pick(&rooms), ask);
    }
}

/// Lists of one number, every one, and all pairs up to 18, with 0 to 6 bytes of room.
fn short_lists(ask: Ask) {
    let ones = (0..=255).map(|m| vec![m]);
    let pairs = (0..=18).flat_map(|a| (0..=18).map(move |b| vec![a, b]));
    for list in ones.chain(pairs).chain([vec![]]) {
        (0..=6).for_each(|room| text(&list, room, ask));
        ask(format!("text {}", join(&list)));
    }
}

/// 18 and 255 at each place of lists of up to 60.
fn bad_lists(g: &mut Rng, ask: Ask) {
    for (n, place) in (1..=60).flat_map(|n| (0..n).map(move |place| (n, place))) {
        for bad in [18, 255] {
            let mut list = any_list(g, n, u64::MAX);
            list[place] = bad;
            text(&list, g.pick(&[0, n, 3 * n, 200]), ask);
        }
    }
}

/// Lists of up to 60 numbers, all of them moves or nearly all.
const LISTS: [Class<Vec<u8>>; 2] = [
    (18, |g| {
        let n = g.place(61);
        any_list(g, n, u64::MAX)
    }),
    (4, |g| {
        let n = g.place(61);
        any_list(g, n, 30)
    }),
];

/// A list with as much room as its text needs, one byte less, none and eight more; also with none said.
fn written(g: &mut Rng, list: &[u8], ask: Ask) {
    let n = text_length(list);
    [n, n.saturating_sub(1), 0, n + 8].iter().for_each(|&room| text(list, room, ask));
    if g.once_in(4) {
        ask(format!("text {}", join(list)));
    }
}

/// How many bytes a list's text has if all its numbers are moves: a word has one byte, or two with its mark.
fn text_length(list: &[u8]) -> usize {
    let words: usize = list.iter().map(|m| if m % 3 == 0 { 1 } else { 2 }).sum();
    words + list.len().saturating_sub(1)
}

const INPUTS: [Class<Vec<u8>>; 2] = [(10, random_input), (40, any_input)];

/// The sample to record: texts of up to 120 bytes, lists of up to 40 moves.
pub fn sample(seed: u64, ask: Ask) {
    let g = &mut Rng::stream(seed, 5);
    for (i, t) in sample_texts(g).iter().enumerate() {
        let n = moves_of(t).map_or(9, |list| list.len());
        parse(t, [n, n.saturating_sub(1), n + 8, n, n + 1, 0][i / 2 % 6], ask);
    }
    let mut lists: Vec<Vec<u8>> = (0..=19).chain([255]).map(|m| vec![m]).chain([vec![]]).collect();
    while lists.len() < 200 {
        let n = g.place(41);
        lists.push(any_list(g, n, if lists.len() % 5 == 4 { 20 } else { u64::MAX }));
    }
    for (i, list) in lists.iter().enumerate() {
        let n = text_length(list);
        text(list, [n, n.saturating_sub(1), n + 8][i % 3], ask);
    }
}

/// Half of them lists, half of them not or hardly.
fn sample_texts(g: &mut Rng) -> Vec<Vec<u8>> {
    let mut texts: Vec<Vec<u8>> = FIXED.iter().map(|t| t.to_vec()).collect();
    while texts.len() < 200 {
        let (_, spoilt) = TEXTS[1 + texts.len() / 2 % 4];
        let n = g.place(41);
        let t = if texts.len() % 2 == 1 { text_of(g, n) } else { spoilt(g) };
        if t.len() <= 120 {
            texts.push(t);
        }
    }
    texts
}
