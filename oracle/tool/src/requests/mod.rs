//! The requests of each step's comparison, and the samples of them that are recorded.
pub mod coords;
pub mod cubie;
pub mod solve;
pub mod stickers;
pub mod tables;
pub mod text;

use crate::rng::Rng;
use std::collections::HashSet;
use std::hash::Hash;

/// Where requests go, one at a time.
pub type Ask<'a> = &'a mut dyn FnMut(String);

/// What a step's comparison asks.
pub struct Step {
    pub name: &'static str,
    /// All its requests, by seed and factor; gives how many different random things they are about.
    pub compare: fn(u64, u64, Ask) -> usize,
    pub things: &'static str,
}

pub const STEPS: [Step; 6] = [
    Step { name: "cubie", compare: cubie::compare, things: "cubes" },
    Step { name: "stickers", compare: stickers::compare, things: "sticker strings and cubes" },
    Step { name: "text", compare: text::compare, things: "texts, lists and inputs" },
    Step { name: "coords", compare: coords::compare, things: "arrangements, numbers and cubes" },
    Step { name: "solve", compare: solve::compare, things: "cubes and damages" },
    Step { name: "tables", compare: tables::compare, things: "damages and small move tables" },
];

/// A way to make something, and its share.
pub type Class<T> = (u64, fn(&mut Rng) -> T);

/// n times each class's share, none twice; gives how many in all.
fn different<T: Clone + Eq + Hash>(
    g: &mut Rng,
    classes: &[Class<T>],
    n: u64,
    each: &mut dyn FnMut(&mut Rng, &T),
) -> usize {
    let mut met = HashSet::new();
    for (share, make) in classes {
        more(&mut met, g, share * n, make, each);
    }
    met.len()
}

/// n more, none of them met before.
fn more<T: Clone + Eq + Hash>(
    met: &mut HashSet<T>,
    g: &mut Rng,
    n: u64,
    make: impl Fn(&mut Rng) -> T,
    each: &mut dyn FnMut(&mut Rng, &T),
) {
    let until = met.len() + n as usize;
    while met.len() < until {
        let one = make(g);
        if met.insert(one.clone()) {
            each(g, &one);
        }
    }
}
