//! Sticker strings for both readers.
use crate::Out;
use tool::make::spoilt_cube;
use tool::make::stickers::*;
use tool::readers::solved_picture;
use tool::rng::Rng;
use wire::bytes_text;

fn both(o: &mut Out, stickers: &[u8]) {
    let text = bytes_text(stickers);
    o.ask(format!("read {text}"));
    o.ask(format!("strict {text}"));
}

pub fn readers(o: &mut Out, g: &mut Rng) {
    both(o, &solved_picture());
    both(o, &[b'U'; 54]);
    one_changed().iter().for_each(|s| both(o, s));
    some(o, g, 300, some_picture);
    for k in 1..=4 {
        some(o, g, 220, |g| changed(g, k));
        some(o, g, 60, |g| swapped(g, k));
    }
    some(o, g, 120, |g| interchanged(g, 8, 0..54));
    some(o, g, 150, |g| drawn(&spoilt_cube(g)));
    some(o, g, 20, centre_changed);
    for k in [6, 2, 3] {
        some(o, g, 60, |g| of_colours(g, k));
    }
    some(o, g, 60, shuffled);
    lengths(o, g);
    every_byte(o, g);
}

/// So many strings that are made in one way.
fn some(o: &mut Out, g: &mut Rng, n: usize, make: impl Fn(&mut Rng) -> Vec<u8>) {
    (0..n).for_each(|_| both(o, &make(g)));
}

fn lengths(o: &mut Out, g: &mut Rng) {
    let solved = solved_picture();
    for n in [0, 1, 2, 9, 26, 27, 52, 53, 55, 56, 64, 100, 108, 255] {
        let s: Vec<u8> = solved.iter().cycle().take(n).copied().collect();
        both(o, &s);
        both(o, &any_bytes(g, n));
    }
}

/// Every byte somewhere, random bytes, and a letter of two bytes.
fn every_byte(o: &mut Out, g: &mut Rng) {
    for b in 0..=255 {
        let mut s = some_picture(g);
        s[g.place(54)] = b;
        both(o, &s);
    }
    for _ in 0..30 {
        both(o, &any_bytes(g, 54));
        let mut s = some_picture(g);
        let i = g.place(53);
        s[i..i + 2].copy_from_slice("é".as_bytes());
        both(o, &s);
    }
}
