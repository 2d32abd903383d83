//! Coordinates both ways, inside and outside their domains.
use crate::Out;
use tool::coords::{Kind, KINDS};
use tool::cubes::{cube_text, solved, top, DECLARED};
use tool::make::{any_cube, shuffle, some_cube};
use tool::rng::Rng;
use wire::join;

pub fn coords(o: &mut Out, g: &mut Rng) {
    for m in DECLARED {
        o.ask(format!("coords {}", cube_text(&solved().apply_move(m))));
    }
    for _ in 0..1500 {
        o.ask(format!("coords {}", cube_text(&some_cube(g))));
    }
    for _ in 0..900 {
        o.ask(format!("coords {}", join(&any_cube(g))));
    }
    for _ in 0..2500 {
        let kind = g.pick(&KINDS);
        o.ask(format!("index {} {}", kind.name(), join(&array(g, kind))));
    }
    for kind in KINDS {
        numbers(o, g, kind);
    }
}

/// An array for a coordinate: mostly in the domain, sometimes with a repeat or a number out of range.
fn array(g: &mut Rng, kind: Kind) -> Vec<u64> {
    let n = kind.places().len();
    let top = top(kind.places().start) as u64;
    let mut v: Vec<u64> = if g.once_in(3) {
        (0..n).map(|_| g.below(top)).collect()
    } else {
        shuffle(g, n).iter().map(|&x| x as u64 % top).collect()
    };
    if g.once_in(4) {
        v[g.place(n)] = g.below(top);
    }
    if g.once_in(12) {
        v[g.place(n)] = top + g.below(256 - top);
    }
    v
}

/// Numbers to arrays: round the edges, and all of a small coordinate or 700 of a large one.
fn numbers(o: &mut Out, g: &mut Rng, kind: Kind) {
    let c = kind.count();
    for n in [0, 1, 2, c / 2, c - 2, c - 1, c, c + 1, 65535, 4294967295] {
        o.ask(format!("arrange {} {}", kind.name(), n));
    }
    let small = c <= 495;
    for i in 0..if small { c } else { 700 } {
        let n = if small { i } else { g.below(c) };
        o.ask(format!("arrange {} {}", kind.name(), n));
    }
}
