//! Requests about cubes and their coordinates.
use crate::coords::{self, Kind, KINDS};
use crate::cubes::{cube_text, in_range, move_list, pieces_in_range, solved as solved_cube};
use kewb::oracle::cubie::CubieCube;
use std::panic;
use wire::{answer, join, yes, Args};

/// An answer about one cube in range.
fn of_cube(args: &Args, say: impl Fn(CubieCube) -> String) -> Option<String> {
    Some(answer(in_range(&args.cube(0)?).map(say)))
}

pub fn solvable(args: &Args) -> Option<String> {
    of_cube(args, |c| yes(c.is_solvable()))
}

/// kewb's is_solvable with any twists and flips.
pub fn rawsolvable(args: &Args) -> Option<String> {
    let c = pieces_in_range(&args.cube(0)?).ok()?;
    match panic::catch_unwind(|| c.is_solvable()) {
        Ok(holds) => Some(answer(Ok(yes(holds)))),
        Err(_) => Some("panic".to_string()),
    }
}

pub fn solved(args: &Args) -> Option<String> {
    of_cube(args, |c| yes(c == solved_cube()))
}

pub fn counts(args: &Args) -> Option<String> {
    of_cube(args, |c| {
        let (t, f) = (c.count_corner_twist(), c.count_edge_twist());
        format!("{} {} {} {}", t, f, c.count_corner_perm(), c.count_edge_perm())
    })
}

/// The product; the lower refusal where both are refused.
pub fn mul(args: &Args) -> Option<String> {
    let product = match (in_range(&args.cube(0)?), in_range(&args.cube(1)?)) {
        (Ok(a), Ok(b)) => Ok(cube_text(&(a * b))),
        (Err(n), Ok(_)) | (Ok(_), Err(n)) => Err(n),
        (Err(n), Err(k)) => Err(n.min(k)),
    };
    Some(answer(product))
}

pub fn one_move(args: &Args) -> Option<String> {
    args.number::<u8>(1)?;
    moves(args)
}

/// The cube's refusal comes before the moves'.
pub fn moves(args: &Args) -> Option<String> {
    let (cube, list) = (in_range(&args.cube(0)?), move_list(&args.list(1)?));
    let turned = cube.and_then(|c| Ok(cube_text(&c.apply_moves(&list?))));
    Some(answer(turned))
}

/// Each coordinate on its own: one outside its domain is `r` and the refusal.
pub fn coords(args: &Args) -> Option<String> {
    let r = args.cube(0)?;
    let one = |k: Kind| match coords::index(k, k.part(&r)) {
        Ok(n) => n.to_string(),
        Err(n) => format!("r{n}"),
    };
    Some(answer(Ok(KINDS.map(one).join(" "))))
}

pub fn index(args: &Args) -> Option<String> {
    let (kind, list) = (Kind::named(args.word(0)?)?, args.list(1)?);
    if list.len() != kind.places().len() {
        return None;
    }
    Some(answer(coords::index(kind, &list).map(|n| n.to_string())))
}

pub fn arrange(args: &Args) -> Option<String> {
    let kind = Kind::named(args.word(0)?)?;
    Some(answer(coords::arrange(kind, args.number(1)?).map(|v| join(&v))))
}
