//! Step "stickers": both readers and the picture.
use super::cubie::{one_number_off, CLASSES as CUBES};
use super::{different, Ask, Class};
use crate::cubes::{raw, solved};
use crate::make::stickers::*;
use crate::make::{random_cube, spoilt_cube};
use crate::readers::{read_plain, read_strict, solved_picture};
use crate::rng::Rng;
use crate::text::parse;
use wire::{bytes_text, join, Cube};

pub fn compare(seed: u64, factor: u64, ask: Ask) -> usize {
    let g = &mut Rng::stream(seed, 2);
    fixed().iter().for_each(|s| both(s, ask));
    two_changed(ask);
    both_corners_misread(ask);
    every_byte_everywhere(ask);
    lengths(g, ask);
    let strings = different(g, &STRINGS, 1000 * factor, &mut |_, s| both(s, ask));
    picture(&raw(&solved()), ask);
    one_number_off().for_each(|cube| picture(&cube, ask));
    let solvable: Class<Cube> = (80, |g| raw(&random_cube(g)));
    let classes = [&[solvable], &CUBES[..]].concat();
    strings + different(g, &classes, 1000 * factor, &mut |_, cube| picture(cube, ask))
}

fn both(stickers: &[u8], ask: Ask) {
    let text = bytes_text(stickers);
    ask(format!("read {text}"));
    ask(format!("strict {text}"));
}

fn picture(cube: &Cube, ask: Ask) {
    ask(format!("picture {}", join(cube)));
}

/// The solved picture, every change of one sticker of it, one letter alone, and letters of the wrong case.
fn fixed() -> Vec<Vec<u8>> {
    let mut v = vec![solved_picture(), solved_picture().to_ascii_lowercase()];
    v.extend(COLOURS.iter().map(|&c| vec![c; 54]));
    v.extend(one_changed());
    v
}

/// Every change of two stickers of the solved picture.
fn two_changed(ask: Ask) {
    let all = one_changed();
    for (n, a) in all.iter().enumerate() {
        let i = n / 5;
        for b in &all[5 * (i + 1)..] {
            let mut s = b.clone();
            s[i] = a[i];
            both(&s, ask);
        }
    }
}

/// Two corners of the solved cube twisted in place, one each way, and one sticker of each changed in every way.
fn both_corners_misread(ask: Ask) {
    let pairs = (0..8).flat_map(|i| (0..8).map(move |j| (i, j))).filter(|(i, j)| i != j);
    for (i, j) in pairs {
        let held = drawn(&twisted_pair(i, j));
        for (p, q) in corner(i).into_iter().flat_map(|p| corner(j).map(|q| (p, q))) {
            for (&c, &d) in COLOURS.iter().flat_map(|c| COLOURS.iter().map(move |d| (c, d))) {
                let mut s = held.clone();
                (s[p], s[q]) = (c, d);
                both(&s, ask);
            }
        }
    }
}

/// Every byte that is no colour at each place of the solved picture.
fn every_byte_everywhere(ask: Ask) {
    for i in 0..54 {
        for b in (0..=255).filter(|b| !COLOURS.contains(b)) {
            let mut s = solved_picture();
            s[i] = b;
            both(&s, ask);
        }
    }
}

/// Lengths 0 to 60 and some above: of the solved picture over and over, of colours, of any bytes.
fn lengths(g: &mut Rng, ask: Ask) {
    for n in (0..=60).chain([64, 100, 107, 108, 162, 255, 256, 256 + 54, 1000, 65536 + 54]) {
        both(&cut(n), ask);
        both(&vec![b'U'; n], ask);
        both(&any_bytes(g, n), ask);
        both(&(0..n).map(|_| g.pick(COLOURS)).collect::<Vec<_>>(), ask);
    }
}

/// n stickers of the solved picture over and over.
fn cut(n: usize) -> Vec<u8> {
    solved_picture().into_iter().cycle().take(n).collect()
}

/// Sticker strings of every sort, of 1,000.
const STRINGS: [Class<Vec<u8>>; 20] = [
    (140, some_picture),
    (200, |g| up_to(g, 6, changed)),
    (50, |g| up_to(g, 4, swapped)),
    (80, |g| twisted(g, &[1, 2])),
    (20, |g| twisted(g, &[1, 1, 1])),
    (20, |g| twisted(g, &[2, 2, 2])),
    (10, |g| twisted(g, &[1, 2, 1])),
    (15, |g| twisted(g, &[1])),
    (15, |g| twisted(g, &[2])),
    (50, |g| flipped(g, 2)),
    (30, |g| up_to(g, 3, flipped)),
    (60, corners_interchanged),
    (30, |g| interchanged(g, 8, 0..54)),
    (60, |g| up_to(g, 3, misread)),
    (40, |g| filled_in(g).1),
    (80, |g| up_to(g, 6, of_colours)),
    (20, shuffled),
    (40, |g| drawn(&spoilt_cube(g))),
    (20, centre_changed),
    (20, any_byte_in),
];

/// Made with a number from 1 to n.
fn up_to(g: &mut Rng, n: usize, make: fn(&mut Rng, usize) -> Vec<u8>) -> Vec<u8> {
    let k = 1 + g.place(n);
    make(g, k)
}

/// The sample to record.
pub fn sample(seed: u64, ask: Ask) {
    let g = &mut Rng::stream(seed, 3);
    patient(g, ask);
    known(ask);
    let mut strings = fixed();
    strings.truncate(8);
    strings.extend(one_changed().into_iter().step_by(4));
    strings.extend((0..54).map(|i| {
        let mut s = some_picture(g);
        s[i] = g.pick(b"\x00\nXu '\x80\xff");
        s
    }));
    strings.extend([0, 1, 2, 27, 53, 55, 60, 108].map(cut));
    while strings.len() < 400 {
        strings.push(STRINGS[strings.len() % STRINGS.len()].1(g));
    }
    strings.iter().for_each(|s| both(s, ask));
    for i in 0..140 {
        let cube = if i % 2 == 0 { raw(&random_cube(g)) } else { CUBES[i / 2 % CUBES.len()].1(g) };
        picture(&cube, ask);
    }
}

const SOLVED_BUT_FOR_TWO: &str = "\
# The patient's case.
# A cube that is solved but for two corners, UFR and UFL, twisted in place. The lamp shines on its upper face: the two F
# there, bytes 6 and 8, are read as U. The plain reader can't match either corner, fills in the solved ones and accepts
# a solved cube, which nobody holds. The strict reader answers 15.";
const ONE_OR_NEITHER: &str = "\
# One of the two alone: 3 from both. Neither: the cube that is held, from both; its picture.";
const SCRAMBLED: &str = "\
# The same lamp over the cube after D' R2 U' L' D' L2 F' D2: the stickers as read, then the cube that is held.";
const ANY_TWO: &str = "\
# Any two corners twisted in place, a sticker of each misread: the stickers as read, then the cube that is held.";

/// What the strict reader is for: pictures in which corners can't be matched, so that the plain reader fills them in.
fn patient(g: &mut Rng, ask: Ask) {
    ask(SOLVED_BUT_FOR_TWO.into());
    let held = twisted_pair(2, 3);
    lamp(&held, ask);
    ask(ONE_OR_NEITHER.into());
    let mut one = under_the_lamp(&held);
    one[6] = b'F';
    both(&one, ask);
    both(&drawn(&held), ask);
    picture(&held, ask);
    ask(SCRAMBLED.into());
    let scramble = parse(b"D' R2 U' L' D' L2 F' D2").expect("a list");
    let held = raw(&solved().apply_moves(&scramble));
    lamp(&held, ask);
    picture(&held, ask);
    ask(ANY_TWO.into());
    for _ in 0..8 {
        let (held, stickers) = filled_in(g);
        both(&stickers, ask);
        picture(&held, ask);
    }
}

/// The paper's known examples that concern stickers.
fn known(ask: Ask) {
    ask("# Known examples: 54 times U; solved with byte 0 changed to D, R and F; the picture after U.".into());
    both(&[b'U'; 54], ask);
    for letter in *b"DRF" {
        let mut s = drawn(&raw(&solved()));
        s[0] = letter;
        both(&s, ask);
    }
    picture(&raw(&solved().apply_moves(&parse(b"U").expect("a list"))), ask);
    ask("# Stickers of every sort, and cubes to draw.".into());
}

/// A cube under the lamp: the plain reader accepts another, the strict one refuses with 15.
fn lamp(held: &Cube, ask: Ask) {
    let stickers = under_the_lamp(held);
    assert!(read_plain(&stickers).is_ok_and(|read| raw(&read) != *held) && read_strict(&stickers) == Err(15));
    both(&stickers, ask);
}
