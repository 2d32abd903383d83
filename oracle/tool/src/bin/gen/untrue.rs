//! Tables with entries changed: the check (13), the search (11, 12, other answers) and the builder (11, 14).
use crate::Out;
use kewb::oracle::cubie::CubieCube;
use kewb::oracle::utils::{ALL_MOVES, PHASE2_MOVES};
use tool::coords::{cube_of, number_of, Kind, KINDS};
use tool::cubes::{cube_text, solved};
use tool::make::{phase2_scramble, random_scramble};
use tool::rng::Rng;
use tool::tables::{columns, LENGTHS, PRUNE_OF};

pub fn untrue(o: &mut Out, g: &mut Rng) {
    for round in 0..100 {
        anywhere(o, g, round % 4 == 0);
    }
    for _ in 0..420 {
        met(o, g);
    }
    for _ in 0..60 {
        near_start(o, g);
    }
    for _ in 0..60 {
        let t = g.place(10);
        let v = if t < 6 { g.below(65536) } else { g.below(12) };
        poke(o, t, g.below(LENGTHS[t]), v);
        o.ask("check".to_string());
        mend(o);
    }
    for t in 6..10 {
        builder(o, g, t);
    }
}

fn poke(o: &mut Out, t: usize, i: u64, v: u64) {
    o.ask(format!("poke {t} {i} {v}"));
}

fn mend(o: &mut Out) {
    o.ask("mend".to_string());
}

fn solve(o: &mut Out, c: &CubieCube, limit: u64, budget: u64) -> String {
    o.ask(format!("solve {} {} {}", cube_text(c), limit, budget))
}

/// The budgets round the count of an answer.
fn exact(o: &mut Out, c: &CubieCube, limit: u64, answer: &str) {
    if let Some(count) = answer.split(' ').nth(2).and_then(|x| x.parse::<u64>().ok()) {
        for budget in [count.saturating_sub(1), count, count + 1] {
            solve(o, c, limit, budget);
        }
    }
}

fn short_cube(g: &mut Rng, second: bool, below: usize) -> CubieCube {
    let n = g.place(below);
    solved().apply_moves(&if second { phase2_scramble(g, n) } else { random_scramble(g, n) })
}

/// A new value for an entry of any table: too large, 0 or any.
fn some_value(g: &mut Rng, t: usize) -> u64 {
    match (t < 6, g.below(4)) {
        (true, 0) => KINDS[t].count(),
        (true, 1) => 65535,
        (false, 0) => 255,
        (_, 2) => 0,
        (true, _) => g.below(KINDS[t].count()),
        (false, _) => g.below(16),
    }
}

/// Entries anywhere, mostly near the start of a table.
fn anywhere(o: &mut Out, g: &mut Rng, check: bool) {
    for _ in 0..1 + g.below(3) {
        let t = g.place(10);
        let near = if g.once_in(3) { LENGTHS[t] } else { LENGTHS[t].min(40) };
        poke(o, t, g.below(near), some_value(g, t));
    }
    if check {
        o.ask("check".to_string());
    }
    for _ in 0..4 {
        let second = g.once_in(3);
        let c = short_cube(g, second, 6);
        let (limit, budget) = (g.below(14), g.pick(&[5, 100, 3000, 200_000]));
        solve(o, &c, limit, budget);
    }
    mend(o);
}

/// Entries that a search of this cube meets: in rows of the cube itself or of one a move or two away.
fn met(o: &mut Out, g: &mut Rng) {
    let second = g.once_in(2);
    let c =
        if !second && g.once_in(5) { cube_of(Kind::Co, g.below(Kind::Co.count())) } else { short_cube(g, second, 5) };
    for _ in 0..1 + g.below(3) {
        poke_near(o, g, c, second);
    }
    let limit = 1 + g.below(11);
    let answer = solve(o, &c, limit, 150_000);
    if g.once_in(2) {
        exact(o, &c, limit, &answer);
    }
    mend(o);
}

/// The three entries of one move of a cube near c. In two styles of six all three are 0, so that the search takes for
/// an end what is none and finds a list that doesn't solve.
fn poke_near(o: &mut Out, g: &mut Rng, c: CubieCube, second: bool) {
    let moves: &[_] = if second { &PHASE2_MOVES } else { &ALL_MOVES };
    let near = (0..g.below(3)).fold(c, |x, _| x.apply_move(g.pick(moves)));
    let column = g.below(moves.len() as u64);
    let style = g.below(6);
    for t in if second { 3..6 } else { 0..3 } {
        if style > 1 && g.once_in(2) {
            continue;
        }
        let count = KINDS[t].count();
        let value = match style {
            0 | 1 => 0,
            2 => count,
            3 => 65535,
            4 => count - 1,
            _ => g.below(count),
        };
        let row = number_of(KINDS[t], &near);
        poke(o, t, row * moves.len() as u64 + column, value);
    }
}

/// One entry near the start of a move table, with exact budgets round the 11 or the 12.
fn near_start(o: &mut Out, g: &mut Rng) {
    let t = g.place(6);
    let count = KINDS[t].count();
    let value = if g.once_in(2) { count } else { g.below(count) };
    poke(o, t, g.below(LENGTHS[t].min(200)), value);
    let c = short_cube(g, false, 4);
    let limit = 1 + g.below(9);
    let answer = solve(o, &c, limit, 400_000);
    exact(o, &c, limit, &answer);
    mend(o);
}

/// The builder over true move tables, with an entry too large (11), with pairs cut off (14: row 0 leads nowhere), and
/// with some entries changed in range.
fn builder(o: &mut Out, g: &mut Rng, t: usize) {
    let (a, b) = PRUNE_OF[t - 6];
    o.ask(format!("build {t}"));
    poke(o, a, LENGTHS[a] - 1, KINDS[a].count());
    o.ask(format!("build {t}"));
    mend(o);
    for table in [a, b] {
        (0..columns(table).len() as u64).for_each(|j| poke(o, table, j, 0));
    }
    o.ask(format!("build {t}"));
    mend(o);
    for _ in 0..30 {
        let table = g.pick(&[a, b]);
        poke(o, table, g.below(LENGTHS[table]), g.below(KINDS[table].count()));
    }
    o.ask(format!("build {t}"));
    mend(o);
}
