//! Step "solve": the search over true tables, its limits and budgets, and over damaged ones.
use super::cubie::CLASSES as CUBES;
use super::Ask;
use crate::coords::{number_of, KINDS};
use crate::cubes::{cube_text, raw, solved, DECLARED};
use crate::make::{phase2_scramble, random_scramble};
use crate::rng::Rng;
use crate::search::search;
use crate::tables::LENGTHS;
use kewb::oracle::cubie::CubieCube;
use kewb::oracle::utils::{ALL_MOVES, PHASE2_MOVES};
use kewb::DataTable;
use std::collections::HashSet;
use wire::{join, Cube};

/// The largest budget.
const LARGE: u64 = u32::MAX as u64;

pub fn compare(seed: u64, factor: u64, ask: Ask) -> usize {
    let g = &mut Rng::stream(seed, 9);
    let tables = DataTable::default();
    near(ask);
    let cubes: Vec<CubieCube> = (0..2000 * factor).map(|_| random_cube(g)).collect();
    for (i, c) in cubes.iter().enumerate() {
        solve(c, 22 + i as u64 % 4, LARGE, ask);
    }
    let others: Vec<u64> = (0..22).chain(26..32).collect();
    for i in 0..200 * factor {
        solve(&random_cube(g), others[i as usize % others.len()], 3_000_000, ask);
    }
    (0..300 * factor).for_each(|_| budgets(g, &tables, ask));
    refusals(g, ask);
    let damages = 2000 * factor;
    (0..damages).for_each(|_| damaged(g, ask));
    cubes.len() + 200 * factor as usize + damages as usize
}

fn solve(c: &CubieCube, limit: u64, budget: u64, ask: Ask) {
    ask(format!("solve {} {limit} {budget}", cube_text(c)));
}

fn random_cube(g: &mut Rng) -> CubieCube {
    let n = 30 + g.place(20);
    solved().apply_moves(&random_scramble(g, n))
}

/// Every cube within three moves, at every limit.
fn near(ask: Ask) {
    let mut met: HashSet<Cube> = HashSet::from([raw(&solved())]);
    let mut all = vec![solved()];
    let mut last = all.clone();
    for _ in 0..3 {
        let next: Vec<CubieCube> = last.iter().flat_map(|c| DECLARED.iter().map(|&m| c.apply_move(m))).collect();
        last = next.into_iter().filter(|c| met.insert(raw(c))).collect();
        all.extend(&last);
    }
    for c in &all {
        (0..32).for_each(|limit| solve(c, limit, LARGE, ask));
    }
}

/// The budgets 0 and 1, those round the count, and a large one.
fn budgets(g: &mut Rng, tables: &DataTable, ask: Ask) {
    let n = g.place(9);
    let second = g.once_in(3);
    let c = match g.below(4) {
        0 => random_cube(g),
        _ if second => solved().apply_moves(&phase2_scramble(g, n)),
        _ => solved().apply_moves(&random_scramble(g, n)),
    };
    let limit = g.below(32);
    let (_, count) = search(tables, c, limit as u8, 400_000);
    for budget in [0, 1, count.saturating_sub(1), count, count + 1, 400_000] {
        solve(&c, limit, budget, ask);
    }
}

/// Limits above 31, cubes out of range and cubes that aren't solvable, and both at once.
fn refusals(g: &mut Rng, ask: Ask) {
    for limit in 32..=255 {
        solve(&solved(), limit, 10, ask);
    }
    for (_, make) in CUBES {
        for _ in 0..200 {
            let (cube, limit): (Cube, u64) = (make(g), g.pick(&[0, 1, 5, 31, 32, 255]));
            ask(format!("solve {} {limit} 1000", join(&cube)));
        }
    }
}

/// Fifty searches over tables with some entries changed: anywhere, near the solved cube, or met by the cube that is searched.
fn damaged(g: &mut Rng, ask: Ask) {
    let second = g.once_in(2);
    let n = g.place(6);
    let c = solved().apply_moves(&if second { phase2_scramble(g, n) } else { random_scramble(g, n) });
    for _ in 0..1 + g.below(6) {
        match g.below(3) {
            0 => anywhere(g, ask),
            _ => met(g, c, second, ask),
        }
    }
    for _ in 0..50 {
        let far = g.place(4);
        let other = c.apply_moves(&if second { phase2_scramble(g, far) } else { random_scramble(g, far) });
        let (limit, budget) = (g.below(32), g.pick(&[0, 1, 10, 100, 1000, 10_000]));
        solve(&other, limit, budget, ask);
    }
    ask("mend".into());
}

fn poke(t: usize, i: u64, v: u64, ask: Ask) {
    ask(format!("poke {t} {i} {v}"));
}

/// One entry of any table: too large, 0, or any.
fn anywhere(g: &mut Rng, ask: Ask) {
    let t = g.place(10);
    let i = if g.once_in(2) { g.below(LENGTHS[t].min(400)) } else { g.below(LENGTHS[t]) };
    let v = match (t < 6, g.below(3)) {
        (true, 0) => KINDS[t].count(),
        (true, 1) => g.below(65536),
        (false, 0) => g.below(256),
        _ => g.below(3),
    };
    poke(t, i, v, ask);
}

/// The three entries of a move of a cube near c, or some of them: 0, so that what is no end is taken for one; or in range; or too large.
fn met(g: &mut Rng, c: CubieCube, second: bool, ask: Ask) {
    let moves: &[_] = if second { &PHASE2_MOVES } else { &ALL_MOVES };
    let near = (0..g.below(3)).fold(c, |x, _| x.apply_move(g.pick(moves)));
    let (column, style) = (g.below(moves.len() as u64), g.below(4));
    for t in if second { 3..6 } else { 0..3 } {
        let count = KINDS[t].count();
        let value = match style {
            0 | 1 => 0,
            2 => g.below(count),
            _ => g.pick(&[0, count - 1, count, 65535]),
        };
        poke(t, number_of(KINDS[t], &near) * moves.len() as u64 + column, value, ask);
    }
}

/// The sample to record.
pub fn sample(seed: u64, ask: Ask) {
    let (g, tables) = (&mut Rng::stream(seed, 10), &DataTable::default());
    ask("# The paper's known examples: the solved cube, and the cube after U.".into());
    let after_u = solved().apply_move(DECLARED[0]);
    for (limit, budget) in [(0, 1), (0, 0), (1, 2), (1, 1), (31, 100), (32, 100), (255, 0)] {
        solve(&solved(), limit, budget, ask);
    }
    [(1, LARGE), (2, LARGE), (2, 3), (2, 2)].iter().for_each(|&(limit, budget)| solve(&after_u, limit, budget, ask));
    ask("# Cubes near the solved one, at every limit in turn, with budgets 0, 1, those round the count, and a large one.".into());
    (0..30).for_each(|_| budgets(g, tables, ask));
    ask("# Random cubes at limits 22 to 25.".into());
    (0..40).for_each(|i| solve(&random_cube(g), 22 + i % 4, LARGE, ask));
    ask("# Random cubes at other limits, within 200,000 entries.".into());
    (0..32).filter(|limit| !(22..26).contains(limit)).for_each(|limit| solve(&random_cube(g), limit, 200_000, ask));
    ask("# Cubes out of range and cubes that aren't solvable.".into());
    for (_, make) in CUBES {
        (0..4).for_each(|_| ask(format!("solve {} {} 1000", join(&make(g)), g.pick(&[0, 5, 31, 32]))));
    }
}
