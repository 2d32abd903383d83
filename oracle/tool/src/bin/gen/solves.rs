//! Searches over true tables, and the plain search.
use crate::Out;
use kewb::oracle::cubie::CubieCube;
use tool::cubes::{cube_text, solved, DECLARED};
use tool::make::{any_cube, phase2_scramble, random_cube, random_scramble};
use tool::rng::Rng;
use tool::search::{search, Answer};
use wire::join;

/// The largest budget.
const WHOLE: u64 = 4294967295;

fn ask(o: &mut Out, c: &CubieCube, limit: u64, budget: u64) {
    o.ask(format!("solve {} {} {}", cube_text(c), limit, budget));
}

/// Budgets round the count where the search ends within `cap` entries, else one that is spent.
fn budgets(o: &mut Out, g: &mut Rng, c: CubieCube, limit: u64, cap: u64) {
    let (answer, count) = search(o.state.tables(), c, limit as u8, cap);
    if answer == Answer::Spent {
        return ask(o, &c, limit, g.below(cap.min(200_000)));
    }
    let mut v = vec![WHOLE, count, count - 1, count + 1, g.below(count + 1)];
    if g.once_in(8) {
        v.push(g.below(4));
    }
    v.dedup();
    v.iter().for_each(|&b| ask(o, &c, limit, b));
}

/// One more than the scramble's length, about that, or any.
fn some_limit(g: &mut Rng, n: usize) -> u64 {
    match g.below(3) {
        0 => n as u64 + 1,
        1 => g.below(n as u64 + 3),
        _ => g.below(32),
    }
}

pub fn short(o: &mut Out, g: &mut Rng) {
    for limit in 0..=33 {
        for budget in [0, 1, 2, 3, WHOLE] {
            ask(o, &solved(), limit, budget);
        }
    }
    for m in DECLARED {
        for limit in [0, 1, 2, 3, 4, 8, 9, 10, 31] {
            budgets(o, g, solved().apply_move(m), limit, 300_000);
        }
    }
    // 9 comes before 4, 5 and 6; a cube that isn't solvable is 6
    for _ in 0..150 {
        o.ask(format!("solve {} {} {}", join(&any_cube(g)), 28 + g.below(8), g.below(2000)));
    }
    for _ in 0..560 {
        let n = 1 + g.place(8);
        let c = solved().apply_moves(&random_scramble(g, n));
        let limit = some_limit(g, n);
        budgets(o, g, c, limit, 600_000);
    }
}

/// Cubes of the ten moves of the second phase.
pub fn phase2(o: &mut Out, g: &mut Rng) {
    for _ in 0..560 {
        let n = 1 + g.place(14);
        let c = solved().apply_moves(&phase2_scramble(g, n));
        let limit = some_limit(g, n);
        budgets(o, g, c, limit, 600_000);
    }
}

/// Random cubes, every limit, more of the high ones.
pub fn random(o: &mut Out, g: &mut Rng) {
    for i in 0..620 {
        let limit = if i < 160 { i % 32 } else { 23 + g.below(9) };
        let c = random_cube(g);
        budgets(o, g, c, limit, if i % 40 == 0 { 3_000_000 } else { 400_000 });
    }
}

/// Few and long: counts from 3 to 60 million.
pub fn long(o: &mut Out, g: &mut Rng) {
    let mut n = 0;
    while n < 12 {
        let c = random_cube(g);
        let limit = 22 + g.below(3);
        let (answer, count) = search(o.state.tables(), c, limit as u8, 60_000_000);
        if answer != Answer::Spent && count > 3_000_000 {
            [WHOLE, count, count - 1].iter().for_each(|&b| ask(o, &c, limit, b));
            n += 1;
        }
    }
}

pub fn plain(o: &mut Out, g: &mut Rng) {
    for limit in 0..=3 {
        o.ask(format!("plain {} {}", cube_text(&solved()), limit));
        for m in DECLARED {
            o.ask(format!("plain {} {}", cube_text(&solved().apply_move(m)), limit));
        }
    }
    for _ in 0..500 {
        let n = 1 + g.place(4);
        let c = solved().apply_moves(&random_scramble(g, n));
        let limit = if g.once_in(4) { 5 } else { g.below(5) };
        o.ask(format!("plain {} {}", cube_text(&c), limit));
    }
}
