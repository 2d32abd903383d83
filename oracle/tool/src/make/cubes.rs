//! Seeded cubes and move lists: solvable ones, and ones spoilt in every way that the paper tells apart.
use crate::cubes::{in_range, raw, solved, top, DECLARED};
use crate::rng::Rng;
use kewb::oracle::cubie::CubieCube;
use kewb::oracle::moves::{is_move_available, Move};
use kewb::oracle::utils::PHASE2_MOVES;
use wire::Cube;

pub fn shuffle(g: &mut Rng, n: usize) -> Vec<u8> {
    let mut v: Vec<u8> = (0..n as u8).collect();
    for i in (1..n).rev() {
        v.swap(i, g.place(i + 1));
    }
    v
}

fn odd(v: &[u8]) -> bool {
    let inversions = |i: usize| v[i + 1..].iter().filter(|&&x| x < v[i]).count();
    (0..v.len()).map(inversions).sum::<usize>() % 2 == 1
}

/// Random numbers below `of`, the last one such that all sum to 0 modulo `of`.
fn fill(g: &mut Rng, part: &mut [u8], of: u8) {
    let (last, rest) = part.split_last_mut().unwrap();
    rest.iter_mut().for_each(|x| *x = g.below(of as u64) as u8);
    *last = (of - rest.iter().sum::<u8>() % of) % of;
}

/// A uniformly random solvable cube.
pub fn random_cube(g: &mut Rng) -> CubieCube {
    let mut r = [0; 40];
    let cp = shuffle(g, 8);
    let mut ep = shuffle(g, 12);
    if odd(&cp) != odd(&ep) {
        ep.swap(0, 1);
    }
    r[..8].copy_from_slice(&cp);
    r[16..28].copy_from_slice(&ep);
    fill(g, &mut r[8..16], 3);
    fill(g, &mut r[28..], 2);
    let c = in_range(&r).unwrap();
    assert!(c.is_solvable());
    c
}

/// A list of n moves in which each is available after the one before.
fn list_of(g: &mut Rng, n: usize, from: &[Move]) -> Vec<Move> {
    let mut v: Vec<Move> = vec![];
    while v.len() < n {
        let m = g.pick(from);
        if v.last().is_none_or(|p| is_move_available(*p, m)) {
            v.push(m);
        }
    }
    v
}

pub fn random_scramble(g: &mut Rng, n: usize) -> Vec<Move> {
    list_of(g, n, &DECLARED)
}

/// The same of the ten moves of the second phase.
pub fn phase2_scramble(g: &mut Rng, n: usize) -> Vec<Move> {
    list_of(g, n, &PHASE2_MOVES)
}

/// A random solvable cube, or one a few moves from solved.
pub fn some_cube(g: &mut Rng) -> CubieCube {
    if g.once_in(4) {
        let n = g.place(6);
        solved().apply_moves(&random_scramble(g, n))
    } else {
        random_cube(g)
    }
}

/// Any cube in range: pieces mostly repeat.
pub fn loose_cube(g: &mut Rng) -> Cube {
    std::array::from_fn(|i| g.below(top(i) as u64) as u8)
}

/// Two places of n, never one twice.
pub fn two_places(g: &mut Rng, n: usize) -> (usize, usize) {
    let i = g.place(n);
    (i, (i + 1 + g.place(n - 1)) % n)
}

fn swap_two(g: &mut Rng, part: &mut [u8]) {
    let (i, j) = two_places(g, part.len());
    part.swap(i, j);
}

/// Spoilt in one way alone: corners and edges of unequal parity.
pub fn parity_cube(g: &mut Rng) -> Cube {
    let mut r = raw(&some_cube(g));
    let part = if g.once_in(2) { 0..8 } else { 16..28 };
    swap_two(g, &mut r[part]);
    r
}

/// Spoilt in one way alone: twists that don't sum to 0 modulo 3.
pub fn twist_cube(g: &mut Rng) -> Cube {
    let mut r = raw(&some_cube(g));
    let i = 8 + g.place(8);
    r[i] = (r[i] + 1 + g.below(2) as u8) % 3;
    r
}

/// Spoilt in one way alone: flips that don't sum to 0 modulo 2.
pub fn flip_cube(g: &mut Rng) -> Cube {
    let mut r = raw(&some_cube(g));
    r[28 + g.place(12)] ^= 1;
    r
}

/// Spoilt in one way alone: one corner or one edge stands at two places.
pub fn repeat_cube(g: &mut Rng) -> Cube {
    let mut r = raw(&some_cube(g));
    let (from, n) = if g.once_in(2) { (0, 8) } else { (16, 12) };
    let (i, j) = two_places(g, n);
    r[from + i] = r[from + j];
    r
}

/// One or two random spoilings, which may undo each other.
pub fn spoilt_cube(g: &mut Rng) -> Cube {
    let mut r = raw(&some_cube(g));
    for _ in 0..1 + g.below(2) {
        match g.below(6) {
            0 => swap_two(g, &mut r[..8]),
            1 => swap_two(g, &mut r[16..28]),
            2 => r[8 + g.place(8)] = g.below(3) as u8,
            3 => r[28 + g.place(12)] ^= 1,
            4 => r[g.place(8)] = g.below(8) as u8,
            _ => r[16 + g.place(12)] = g.below(12) as u8,
        }
    }
    r
}

/// A number out of range for a place: the first one, the last one or any.
pub fn bad_number(g: &mut Rng, place: usize) -> u8 {
    let top = top(place);
    match g.below(4) {
        0 => top,
        1 => 255,
        _ => top + g.below(256 - top as u64) as u8,
    }
}

/// The four parts of a cube as bits of a choice of parts.
const PARTS: [(u64, usize, usize); 4] = [(CORNERS, 0, 8), (TWISTS, 8, 8), (EDGES, 16, 12), (FLIPS, 28, 12)];
pub const CORNERS: u64 = 1;
pub const TWISTS: u64 = 2;
pub const EDGES: u64 = 4;
pub const FLIPS: u64 = 8;

/// A cube with one or two numbers out of range in each of the parts chosen, none in the others.
pub fn bad_in(g: &mut Rng, choice: u64) -> Cube {
    let mut r = if g.once_in(2) { raw(&some_cube(g)) } else { loose_cube(g) };
    for (part, from, n) in PARTS {
        if choice & part != 0 {
            for _ in 0..1 + g.below(2) {
                let i = from + g.place(n);
                r[i] = bad_number(g, i);
            }
        }
    }
    r
}

/// A cube with numbers out of range anywhere.
pub fn bad_cube(g: &mut Rng) -> Cube {
    let choice = 1 + g.below(15);
    bad_in(g, choice)
}

pub fn any_cube(g: &mut Rng) -> Cube {
    match g.below(4) {
        0 => raw(&some_cube(g)),
        1 => loose_cube(g),
        2 => spoilt_cube(g),
        _ => bad_cube(g),
    }
}

/// A move list as numbers, one in `bad` of them no move.
pub fn any_list(g: &mut Rng, n: usize, bad: u64) -> Vec<u8> {
    let one = |g: &mut Rng| if g.once_in(bad) { 18 + g.below(238) } else { g.below(18) };
    (0..n).map(|_| one(g) as u8).collect()
}
