//! Step "cubie": cubes, products, moves, solvability, counts, and moves by themselves.
use crate::ffi;
use crate::lines::{cube_line, line, number_line, yes_line};
use wire::{Args, Cube};

pub fn solvable(args: &Args) -> Option<String> {
    yes_line(ffi::is_solvable(&args.cube(0)?))
}

pub fn solved(args: &Args) -> Option<String> {
    yes_line(ffi::is_solved(&args.cube(0)?))
}

pub fn counts(args: &Args) -> Option<String> {
    line(ffi::counts(&args.cube(0)?), |[t, f, c, e]| format!("{t} {f} {c} {e}"))
}

pub fn mul(args: &Args) -> Option<String> {
    let (a, b): (Cube, Cube) = (args.cube(0)?, args.cube(1)?);
    cube_line(ffi::mul(&a, &b))
}

pub fn one_move(args: &Args) -> Option<String> {
    cube_line(ffi::apply_move(&args.cube(0)?, args.number(1)?))
}

pub fn moves(args: &Args) -> Option<String> {
    cube_line(ffi::apply_moves(&args.cube(0)?, &args.list(1)?))
}

pub fn inverse(args: &Args) -> Option<String> {
    number_line(ffi::get_inverse(args.number(0)?))
}

pub fn isinverse(args: &Args) -> Option<String> {
    yes_line(ffi::is_inverse(args.number(0)?, args.number(1)?))
}

pub fn samelayer(args: &Args) -> Option<String> {
    yes_line(ffi::is_same_layer(args.number(0)?, args.number(1)?))
}

pub fn available(args: &Args) -> Option<String> {
    yes_line(ffi::is_move_available(args.number(0)?, args.number(1)?))
}
