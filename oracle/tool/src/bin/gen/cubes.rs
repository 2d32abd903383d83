//! Cubes of every sort: pictures, solvability, products and moves.
use crate::Out;
use tool::cubes::{cube_text, raw, solved, DECLARED};
use tool::make::*;
use tool::rng::Rng;
use wire::join;

pub fn pictures(o: &mut Out, g: &mut Rng) {
    for m in DECLARED {
        o.ask(format!("picture {}", cube_text(&solved().apply_move(m))));
    }
    for _ in 0..1500 {
        o.ask(format!("picture {}", cube_text(&some_cube(g))));
    }
    for _ in 0..600 {
        o.ask(format!("picture {}", join(&any_cube(g))));
    }
}

pub fn solvable(o: &mut Out, g: &mut Rng) {
    for _ in 0..600 {
        o.ask(format!("solvable {}", cube_text(&some_cube(g))));
        o.ask(format!("solvable {}", join(&loose_cube(g))));
    }
    for _ in 0..2500 {
        o.ask(format!("solvable {}", join(&spoilt_cube(g))));
    }
    for _ in 0..1000 {
        o.ask(format!("solvable {}", join(&bad_cube(g))));
    }
}

pub fn moves(o: &mut Out, g: &mut Rng) {
    for m in (0..=20).chain([255]) {
        o.ask(format!("move {} {}", cube_text(&solved()), m));
    }
    for _ in 0..1500 {
        let cube = any_cube(g);
        o.ask(format!("move {} {}", join(&cube), any_list(g, 1, 12)[0]));
    }
    for _ in 0..1200 {
        o.ask(format!("mul {} {}", join(&any_cube(g)), join(&any_cube(g))));
    }
    for _ in 0..600 {
        o.ask(format!("mul {} {}", cube_text(&some_cube(g)), cube_text(&some_cube(g))));
    }
    for _ in 0..300 {
        let cube = if g.once_in(5) { any_cube(g) } else { raw(&some_cube(g)) };
        let n = g.place(41);
        o.ask(format!("moves {} {}", join(&cube), join(&any_list(g, n, 150))));
    }
}
