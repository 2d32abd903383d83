//! Sticker strings: pictures of cubes, and pictures spoilt as hands and cameras spoil them.
use super::{random_cube, shuffle, some_cube};
use crate::cubes::{raw, solved};
use crate::readers::{picture, read_plain, solved_picture};
use crate::rng::Rng;
use kewb::oracle::facelet::{CORNER_COLOR, CORNER_FACELET, EDGE_COLOR, EDGE_FACELET};
use wire::Cube;

pub const COLOURS: &[u8] = b"URFDLB";

/// The places of a corner's stickers.
pub fn corner(i: usize) -> [usize; 3] {
    CORNER_FACELET[i].map(|f| f as usize)
}

fn edge(i: usize) -> [usize; 2] {
    EDGE_FACELET[i].map(|f| f as usize)
}

/// The picture of a cube in range that needn't be solvable, which kewb itself refuses to draw.
pub fn drawn(cube: &Cube) -> Vec<u8> {
    let mut s = solved_picture();
    for i in 0..8 {
        for (j, place) in corner(i).into_iter().enumerate() {
            let turned = (j + 3 - cube[8 + i] as usize) % 3;
            s[place] = CORNER_COLOR[cube[i] as usize][turned].to_string().as_bytes()[0];
        }
    }
    for i in 0..12 {
        for (j, place) in edge(i).into_iter().enumerate() {
            let flipped = (j + cube[28 + i] as usize) % 2;
            s[place] = EDGE_COLOR[cube[16 + i] as usize][flipped].to_string().as_bytes()[0];
        }
    }
    s
}

/// Every change of one sticker of the solved picture.
pub fn one_changed() -> Vec<Vec<u8>> {
    let changed = |i: usize, c: u8| {
        let mut s = solved_picture();
        s[i] = c;
        s
    };
    let all = (0..54).flat_map(|i| COLOURS.iter().map(move |&c| changed(i, c)));
    all.filter(|s| *s != solved_picture()).collect()
}

pub fn some_picture(g: &mut Rng) -> Vec<u8> {
    picture(&some_cube(g)).into_bytes()
}

/// A picture with k stickers changed, a few of them to what they were.
pub fn changed(g: &mut Rng, k: usize) -> Vec<u8> {
    let mut s = some_picture(g);
    (0..k).for_each(|_| s[g.place(54)] = g.pick(COLOURS));
    s
}

/// A picture with k pairs of stickers interchanged.
pub fn swapped(g: &mut Rng, k: usize) -> Vec<u8> {
    let mut s = some_picture(g);
    (0..k).for_each(|_| s.swap(g.place(54), g.place(54)));
    s
}

/// U and D interchanged, each once in n times: at a corner the plain reader doesn't tell them apart.
pub fn interchanged(g: &mut Rng, n: u64, places: impl Iterator<Item = usize>) -> Vec<u8> {
    let mut s = some_picture(g);
    for i in places {
        s[i] = match s[i] {
            b'U' if g.once_in(n) => b'D',
            b'D' if g.once_in(n) => b'U',
            other => other,
        };
    }
    s
}

/// U and D interchanged on corners alone.
pub fn corners_interchanged(g: &mut Rng) -> Vec<u8> {
    interchanged(g, 3, (0..8).flat_map(corner))
}

pub fn centre_changed(g: &mut Rng) -> Vec<u8> {
    let mut s = some_picture(g);
    s[4 + 9 * g.place(6)] = g.pick(COLOURS);
    s
}

/// Any 54 of the first k colours.
pub fn of_colours(g: &mut Rng, k: usize) -> Vec<u8> {
    (0..54).map(|_| g.pick(&COLOURS[..k])).collect()
}

/// The stickers of the solved cube, stuck on anywhere.
pub fn shuffled(g: &mut Rng) -> Vec<u8> {
    let mut s = solved_picture();
    (1..54).rev().for_each(|i| s.swap(i, g.place(i + 1)));
    s
}

pub fn any_bytes(g: &mut Rng, n: usize) -> Vec<u8> {
    (0..n).map(|_| g.below(256) as u8).collect()
}

/// A picture with any byte put in.
pub fn any_byte_in(g: &mut Rng) -> Vec<u8> {
    let mut s = some_picture(g);
    s[g.place(54)] = g.below(256) as u8;
    s
}

/// The stickers of one piece turned in place.
fn turn<const N: usize>(s: &mut [u8], places: [usize; N], by: usize) {
    let old = places.map(|p| s[p]);
    places.iter().enumerate().for_each(|(j, &p)| s[p] = old[(j + N - by) % N]);
}

/// A picture in which corners are twisted in place, one by each of the turns.
pub fn twisted(g: &mut Rng, turns: &[usize]) -> Vec<u8> {
    let mut s = some_picture(g);
    shuffle(g, 8).iter().zip(turns).for_each(|(&i, &by)| turn(&mut s, corner(i as usize), by));
    s
}

/// A picture in which n edges are flipped in place.
pub fn flipped(g: &mut Rng, n: usize) -> Vec<u8> {
    let mut s = some_picture(g);
    shuffle(g, 12).iter().take(n).for_each(|&i| turn(&mut s, edge(i as usize), 1));
    s
}

/// A picture in which n corners are misread: one sticker, two interchanged, or all three.
pub fn misread(g: &mut Rng, n: usize) -> Vec<u8> {
    let mut s = some_picture(g);
    for &i in shuffle(g, 8).iter().take(n) {
        let places = corner(i as usize);
        match g.below(3) {
            0 => s[g.pick(&places)] = g.pick(COLOURS),
            1 => s.swap(places[0], places[1 + g.place(2)]),
            _ => places.iter().for_each(|&p| s[p] = g.pick(COLOURS)),
        }
    }
    s
}

/// The solved cube with two corners twisted in place, one each way.
pub fn twisted_pair(i: usize, j: usize) -> Cube {
    let mut cube = raw(&solved());
    (cube[8 + i], cube[8 + j]) = (1, 2);
    cube
}

/// A cube's picture in which the stickers of UFL and UFR on the upper face, bytes 6 and 8, are read as U. Where the two
/// corners are twisted in place and show F there, the plain reader can't match either and fills in the solved ones.
pub fn under_the_lamp(held: &Cube) -> Vec<u8> {
    let mut s = drawn(held);
    (s[6], s[8]) = (b'U', b'U');
    s
}

/// Two corners of a cube that are in place and twisted, one each way.
fn twisted_in_place(cube: &Cube) -> Option<[usize; 2]> {
    let with = |twist: u8| (0..8).find(|&i| cube[i] as usize == i && cube[8 + i] == twist);
    Some([with(1)?, with(2)?])
}

/// A solvable cube with two corners twisted in place, and its picture with a sticker of each misread such that the plain
/// reader can't match them, fills in two solved corners and so accepts a cube that nobody holds.
pub fn filled_in(g: &mut Rng) -> (Cube, Vec<u8>) {
    loop {
        let held = random_cube(g);
        let Some(corners) = twisted_in_place(&raw(&held)) else { continue };
        let mut s = picture(&held).into_bytes();
        corners.iter().for_each(|&i| s[g.pick(&corner(i))] = g.pick(COLOURS));
        if read_plain(&s).is_ok_and(|read| read != held) {
            return (raw(&held), s);
        }
    }
}
