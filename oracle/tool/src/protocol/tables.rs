//! Requests about tables and the search.
use super::State;
use crate::cubes::{numbers, solvable_cube};
use crate::plain::plain;
use crate::rules::{self, Pair};
use crate::search::{crate_search, search as counted, search_untrue, Answer};
use crate::tables::{self, fnv, zeroed, LENGTHS};
use kewb::oracle::cubie::CubieCube;
use kewb::oracle::utils::ALL_MOVES;
use kewb::pruning_table::get_prune_table;
use wire::{answer, join, summed, Args};

/// A table's number, if it is one of `from`.
fn table(args: &Args, from: std::ops::Range<usize>) -> Option<usize> {
    args.number(0).filter(|t| from.contains(t))
}

/// solve, crate, nocut and plain: a limit above 31 is 9, before the cube's own refusal.
pub fn search(state: &mut State, name: &str, args: &Args) -> Option<String> {
    let (cube, limit) = (args.cube(0)?, args.number::<u64>(1)?);
    let optional = name == "crate" || name == "plain";
    let budget = if optional { args.number(2).unwrap_or(u64::MAX) } else { args.number(2)? };
    if limit > 31 {
        return Some(answer(Err(9)));
    }
    let cube = match solvable_cube(&cube) {
        Ok(c) => c,
        Err(n) => return Some(answer(Err(n))),
    };
    let found = match name {
        "crate" => return Some(answer(Ok(own(state, cube, limit as u8)))),
        "plain" => plain(cube, limit as u8, budget),
        "nocut" => counted(&zeroed(state.tables()), cube, limit as u8, budget),
        _ if state.is_true() => counted(state.tables(), cube, limit as u8, budget),
        _ => match search_untrue(state.tables(), cube, limit as u8, budget) {
            Ok(found) => found,
            Err((n, count)) => return Some(format!("refused {n} {count}")),
        },
    };
    Some(answer(Ok(found.0.text(found.1))))
}

fn own(state: &mut State, cube: CubieCube, limit: u8) -> String {
    match crate_search(state.tables(), cube, limit) {
        Answer::Solved(p, q) => format!("solved {} {}", numbers(&p), numbers(&q)),
        _ => "none".to_string(),
    }
}

pub fn entry(state: &mut State, args: &Args) -> Option<String> {
    let (t, i) = (table(args, 0..10)?, args.number(1)?);
    Some(answer(Ok(tables::entry(state.tables(), t, i)?.to_string())))
}

pub fn sum(state: &mut State, args: &Args) -> Option<String> {
    let t = table(args, 0..10)?;
    Some(answer(Ok(summed(LENGTHS[t] as usize, tables::sum(state.tables(), t)))))
}

pub fn check(state: &mut State) -> String {
    match rules::table_check(state.tables()) {
        None => "ok".to_string(),
        Some((t, i)) => format!("refused 13 {t} {i}"),
    }
}

pub fn poke(state: &mut State, args: &Args) -> Option<String> {
    let (t, i, v) = (table(args, 0..10)?, args.number(1)?, args.number(2)?);
    if v > if t < 6 { 65535 } else { 255 } {
        return None;
    }
    state.poke(t, i, v)?;
    Some("ok".to_string())
}

pub fn mend(state: &mut State) -> String {
    state.mend();
    "ok".to_string()
}

/// A built table, told by `say`: 14 where a pair is out of reach.
fn built(table: Result<Vec<u8>, u8>, say: impl Fn(&[u8]) -> String) -> String {
    match table {
        Err(n) => answer(Err(n)),
        Ok(p) if p.contains(&255) => format!("refused 14 {}", say(&p)),
        Ok(p) => answer(Ok(say(&p))),
    }
}

pub fn build(state: &mut State, args: &Args) -> Option<String> {
    let t = table(args, 6..10)?;
    Some(built(rules::build(state.tables(), t), |p| summed(p.len(), fnv(p.iter().copied()))))
}

/// The builder over two move tables of any counts. Where every pair is reached kewb's own builder ends, and must agree.
pub fn pairs(args: &Args) -> Option<String> {
    let [n1, n2, moves, room] = [0, 1, 2, 3].map(|i| args.number::<usize>(i));
    let (first, second) = (args.list(4)?, args.list(5)?);
    let pair = Pair { first: &first, second: &second, rows: [n1?, n2?], moves: moves? };
    let table = match pair.refusal(room?) {
        Some(n) => Err(n),
        None => Ok(pair.flood()),
    };
    match &table {
        Ok(p) if !p.contains(&255) && own_table(&pair).is_some_and(|own| own != *p) => Some("kewb differs".to_string()),
        _ => Some(built(table, join)),
    }
}

/// What kewb's own builder makes of two move tables, if it can be given so many moves.
fn own_table(pair: &Pair) -> Option<Vec<u8>> {
    let moves = ALL_MOVES.get(..pair.moves)?;
    let nested = |t: &[u16], rows: usize| -> Vec<Vec<u16>> {
        (0..rows).map(|i| t[i * pair.moves..(i + 1) * pair.moves].to_vec()).collect()
    };
    Some(get_prune_table(nested(pair.first, pair.rows[0]), nested(pair.second, pair.rows[1]), moves).concat())
}
