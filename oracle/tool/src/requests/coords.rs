//! Step "coords": the seven coordinates, both ways.
use super::cubie::CLASSES as CUBES;
use super::{different, more, Ask, Class};
use crate::coords::Kind::{self, *};
use crate::coords::{arrange as array_of, index as number_of, KINDS};
use crate::cubes::{raw, solved, top, DECLARED};
use crate::make::arrays::*;
use crate::make::random_scramble;
use crate::rng::Rng;
use kewb::oracle::moves::Move;
use std::collections::HashSet;
use std::ops::RangeInclusive;
use wire::{join, Cube};

pub fn compare(seed: u64, factor: u64, ask: Ask) -> usize {
    let g = &mut Rng::stream(seed, 6);
    for kind in KINDS.into_iter().filter(|kind| *kind != Ep) {
        (0..kind.count()).for_each(|n| both_ways(kind, n, ask));
    }
    let numbers = random_numbers(g, factor, ask);
    every_sum(ask);
    every_choice(g, ask);
    for kind in KINDS {
        with_each(kind, &solved_array(kind), 0..=255, ask);
        with_each(kind, &inside(g, kind), 0..=255, ask);
    }
    let arrays = random_arrays(g, factor, ask);
    coords(&raw(&solved()), ask);
    DECLARED.iter().for_each(|&m| coords(&raw(&solved().apply_move(m)), ask));
    let classes = [&CUBES[..], &[TURNED]].concat();
    numbers + arrays + different(g, &classes, 200 * factor, &mut |_, cube| coords(cube, ask))
}

fn coords(cube: &Cube, ask: Ask) {
    ask(format!("coords {}", join(cube)));
}

fn index(kind: Kind, array: &[u8], ask: Ask) {
    ask(format!("index {} {}", kind.name(), join(array)));
}

fn arrange(kind: Kind, n: u64, ask: Ask) {
    ask(format!("arrange {} {}", kind.name(), n));
}

/// A number below the count, then the array that it stands for.
fn both_ways(kind: Kind, n: u64, ask: Ask) {
    arrange(kind, n, ask);
    index(kind, &array_of(kind, n).expect("a number below the count"), ask);
}

fn solved_array(kind: Kind) -> Vec<u8> {
    kind.part(&raw(&solved())).to_vec()
}

/// Numbers at and above the count; for ep 65,535 and 65,536 are below it.
fn at_count(kind: Kind) -> [u64; 5] {
    [kind.count(), kind.count() + 1, 65535, 65536, 4294967295]
}

/// A number not below the count: little above it, or such that its lower 16 bits are below it, or any.
fn too_high(g: &mut Rng, kind: Kind) -> u64 {
    let count = kind.count();
    let low = g.below(65536) * 65536 + g.below(count.min(65536));
    match g.below(3) {
        0 => count + g.below(1000),
        1 if low >= count => low,
        _ => count + g.below((1 << 32) - count),
    }
}

/// The ends of ep and random numbers of it, both ways; numbers not below the count.
fn random_numbers(g: &mut Rng, factor: u64, ask: Ask) -> usize {
    let (mut met, count) = (HashSet::new(), Ep.count());
    [0, 1, count - 2, count - 1].iter().for_each(|&n| both_ways(Ep, n, ask));
    more(&mut met, g, 100_000 * factor, |g| (Ep, g.below(count)), &mut |_, &(kind, n)| both_ways(kind, n, ask));
    for kind in KINDS {
        at_count(kind).iter().for_each(|&n| arrange(kind, n, ask));
        more(&mut met, g, 1000 * factor, |g| (kind, too_high(g, kind)), &mut |_, &(kind, n)| arrange(kind, n, ask));
    }
    met.len()
}

/// Every array of twists and every array of flips, whatever their sum.
fn every_sum(ask: Ask) {
    for (kind, turns) in [(Co, 3_usize), (Eo, 2)] {
        let places = kind.places().len() as u32;
        for number in 0..turns.pow(places) {
            let array: Vec<u8> = (0..places).map(|i| (number / turns.pow(i) % turns) as u8).collect();
            index(kind, &array, ask);
        }
    }
}

/// Every choice of the places that hold an edge below 4, each with any edges four times.
fn every_choice(g: &mut Rng, ask: Ask) {
    for choice in 0..4096 {
        (0..4).for_each(|_| index(ECombo, &chosen(g, choice), ask));
    }
}

/// An array with each of the numbers put in at each place.
fn with_each(kind: Kind, array: &[u8], numbers: RangeInclusive<u8>, ask: Ask) {
    for place in 0..array.len() {
        for number in numbers.clone() {
            let mut other = array.to_vec();
            other[place] = number;
            index(kind, &other, ask);
        }
    }
}

/// A way to make an array of a coordinate.
type Sort = fn(&mut Rng, Kind) -> Vec<u8>;

/// The sorts of random arrays; there are too few of co and eo in range and of cp in the domain, and all those are asked
/// about anyway.
const SORTS: [(Kind, &[Sort]); 7] = [
    (Co, &[out_of_range]),
    (Eo, &[out_of_range]),
    (ECombo, &[out_of_range, loose, inside, outside]),
    (Cp, &[out_of_range, loose, outside]),
    (UdEp, &[out_of_range, loose, inside, outside, repeated_elsewhere]),
    (EEp, &[out_of_range, loose, inside, outside, repeated_elsewhere]),
    (Ep, &[out_of_range, loose, inside, outside]),
];

/// Each sort with its coordinate.
fn sorts() -> impl Iterator<Item = (Kind, Sort)> {
    SORTS.into_iter().flat_map(|(kind, sorts)| sorts.iter().map(move |&sort| (kind, sort)))
}

fn random_arrays(g: &mut Rng, factor: u64, ask: Ask) -> usize {
    let mut met = HashSet::new();
    for (kind, sort) in sorts() {
        let make = |g: &mut Rng| (kind, sort(g, kind));
        more(&mut met, g, 10_000 * factor, make, &mut |_, (kind, array)| index(*kind, array, ask));
    }
    met.len()
}

/// Cubes after lists of 1 to 40 moves.
const TURNED: Class<Cube> = (100, |g| {
    let n = 1 + g.place(40);
    raw(&solved().apply_moves(&random_scramble(g, n)))
});

/// The sample to record.
pub fn sample(seed: u64, ask: Ask) {
    let g = &mut Rng::stream(seed, 7);
    known(ask);
    ask("# Numbers both ways: the ends, the middle and random ones; then numbers not below the count.".into());
    for kind in KINDS {
        let count = kind.count();
        [0, 1, count / 2, count - 2, count - 1].iter().for_each(|&n| both_ways(kind, n, ask));
        (0..15).for_each(|_| both_ways(kind, g.below(count), ask));
        at_count(kind).iter().for_each(|&n| arrange(kind, n, ask));
        (0..5).for_each(|_| arrange(kind, too_high(g, kind), ask));
    }
    ask("# Arrays: the first number out of range at each place of the solved one; random ones of every sort.".into());
    for kind in KINDS {
        let top = top(kind.places().start);
        with_each(kind, &solved_array(kind), top..=top, ask);
    }
    for (kind, sort) in sorts().chain([(Co, loose as Sort), (Eo, loose)]) {
        (0..8).for_each(|_| index(kind, &sort(g, kind), ask));
    }
}

/// The paper's known examples of coordinates after a move.
const AFTER: [(Move, [(Kind, u64); 3]); 3] = [
    (Move::U, [(Cp, 15120), (UdEp, 15120), (EEp, 0)]),
    (Move::R, [(Co, 410), (Eo, 0), (ECombo, 139)]),
    (Move::F, [(Co, 150), (Eo, 404), (ECombo, 90)]),
];

/// The paper's known examples that concern coordinates.
fn known(ask: Ask) {
    ask("# Known examples: solved; after U, R and F; the last of co, eo and cp; 2,187 and 40,320 as co and cp.".into());
    KINDS.iter().for_each(|&kind| index(kind, &solved_array(kind), ask));
    for (m, numbers) in AFTER {
        let cube = raw(&solved().apply_move(m));
        for (kind, n) in numbers {
            assert_eq!(number_of(kind, kind.part(&cube)), Ok(n));
            index(kind, kind.part(&cube), ask);
        }
    }
    [(Co, 2186), (Eo, 2047), (Cp, 40319)].iter().for_each(|&(kind, n)| both_ways(kind, n, ask));
    arrange(Co, 2187, ask);
    arrange(Cp, 40320, ask);
}
