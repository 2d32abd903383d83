//! Step "cubie": cubes, products, moves, solvability, counts, and moves by themselves.
use super::{different, Ask, Class};
use crate::cubes::{cube_text, raw, solved, DECLARED};
use crate::make::*;
use crate::rng::Rng;
use wire::{join, Cube};

const OF_TWO: [&str; 3] = ["isinverse", "samelayer", "available"];
const OF_CUBE: [&str; 3] = ["solvable", "solved", "counts"];

pub fn compare(seed: u64, factor: u64, ask: Ask) -> usize {
    let g = &mut Rng::stream(seed, 0);
    (0..=255).for_each(|m| ask(format!("inverse {m}")));
    pairs(21, ask);
    pairs_with_255(ask);
    every_move(g, ask);
    short_lists(ask);
    bad_lists(g, ask);
    of_cube(&raw(&solved()), ask);
    for cube in one_number_off() {
        of_cube(&cube, ask);
        ask(format!("move {} {}", join(&cube), g.below(18)));
    }
    different(g, &CLASSES, 1000 * factor, &mut |g, cube| of_random(g, cube, ask))
}

/// The sample to record: what is small whole, of the rest a little of everything.
pub fn sample(seed: u64, ask: Ask) {
    let g = &mut Rng::stream(seed, 1);
    (0..=20).for_each(|m| ask(format!("inverse {m}")));
    pairs(19, ask);
    for cube in [vec![raw(&solved())], random_cubes(g, 6)].concat() {
        (0..=18).chain([255]).for_each(|m| ask(format!("move {} {}", join(&cube), m)));
    }
    for _ in 0..40 {
        let (a, b) = (any_cube(g), any_cube(g));
        ask(format!("mul {} {}", join(&a), join(&b)));
    }
    for i in 0..60 {
        let n = if i <= 40 { i } else { 1 + g.place(40) };
        let cube = if i % 6 == 5 { any_cube(g) } else { raw(&some_cube(g)) };
        let bad = if i % 3 == 2 { 20 } else { u64::MAX };
        ask(format!("moves {} {}", join(&cube), join(&any_list(g, n, bad))));
    }
    let mut cubes = vec![raw(&solved())];
    while cubes.len() < 80 {
        let (_, make) = CLASSES[cubes.len() % CLASSES.len()];
        cubes.push(make(g));
    }
    for cube in cubes {
        of_cube(&cube, ask);
    }
}

fn of_cube(cube: &Cube, ask: Ask) {
    OF_CUBE.iter().for_each(|name| ask(format!("{} {}", name, join(cube))));
}

/// All pairs of numbers below n.
fn pairs(n: u8, ask: Ask) {
    for name in OF_TWO {
        for a in 0..n {
            (0..n).for_each(|b| ask(format!("{name} {a} {b}")));
        }
    }
}

fn pairs_with_255(ask: Ask) {
    for name in OF_TWO {
        for m in (0..=18).chain([255]) {
            ask(format!("{name} {m} 255"));
            ask(format!("{name} 255 {m}"));
        }
    }
}

fn random_cubes(g: &mut Rng, n: usize) -> Vec<Cube> {
    (0..n).map(|_| raw(&random_cube(g))).collect()
}

/// Every number as a move, of the solved cube and of 20 random ones; every product of two moves' cubes.
fn every_move(g: &mut Rng, ask: Ask) {
    for cube in [vec![raw(&solved())], random_cubes(g, 20)].concat() {
        (0..=255).for_each(|m| ask(format!("move {} {}", join(&cube), m)));
    }
    let after = DECLARED.map(|m| cube_text(&solved().apply_move(m)));
    for a in &after {
        after.iter().for_each(|b| ask(format!("mul {a} {b}")));
    }
}

/// All lists of no, one and two moves on the solved cube.
fn short_lists(ask: Ask) {
    let cube = cube_text(&solved());
    ask(format!("moves {cube} -"));
    for a in 0..18 {
        ask(format!("moves {cube} {a}"));
        (0..18).for_each(|b| ask(format!("moves {cube} {a},{b}")));
    }
}

/// A number that is no move at each place of short lists, on a cube in range and on one that isn't.
fn bad_lists(g: &mut Rng, ask: Ask) {
    for n in 1..=8 {
        for place in 0..n {
            for bad in [18, 19, 128, 255] {
                let mut list = any_list(g, n, u64::MAX);
                list[place] = bad;
                for cube in [raw(&some_cube(g)), loose_cube(g), bad_cube(g)] {
                    ask(format!("moves {} {}", join(&cube), join(&list)));
                }
            }
        }
    }
}

/// Every cube that differs from the solved one in one number.
pub fn one_number_off() -> impl Iterator<Item = Cube> {
    let start = raw(&solved());
    let numbers = move |place: usize| (0..=255).filter(move |&n| n != start[place]);
    (0..40).flat_map(move |place| {
        numbers(place).map(move |number| {
            let mut cube = start;
            cube[place] = number;
            cube
        })
    })
}

/// Cubes of every sort, of 120.
pub const CLASSES: [Class<Cube>; 10] = [
    (30, |g| raw(&some_cube(g))),
    (10, parity_cube),
    (10, twist_cube),
    (10, flip_cube),
    (10, repeat_cube),
    (15, loose_cube),
    (8, |g| bad_in(g, CORNERS)),
    (8, |g| bad_in(g, EDGES)),
    (9, |g| match g.below(3) {
        0 => bad_in(g, TWISTS),
        1 => bad_in(g, FLIPS),
        _ => bad_in(g, TWISTS | FLIPS),
    }),
    (10, bad_cube),
];

/// A cube asked about in every way; of each three, one in a product and one with a list.
fn of_random(g: &mut Rng, cube: &Cube, ask: Ask) {
    of_cube(cube, ask);
    ask(format!("move {} {}", join(cube), any_list(g, 1, 12)[0]));
    match g.below(3) {
        0 if g.once_in(2) => ask(format!("mul {} {}", join(cube), join(&any_cube(g)))),
        0 => ask(format!("mul {} {}", join(&any_cube(g)), join(cube))),
        1 => {
            let n = g.place(41);
            ask(format!("moves {} {}", join(cube), join(&any_list(g, n, 100))));
        }
        _ => {}
    }
}
