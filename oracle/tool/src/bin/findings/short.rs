//! Every cube within a few moves: kewb's search against the same search with no cut and against the plain search.
use crate::show;
use kewb::oracle::cubie::CubieCube;
use kewb::oracle::moves::Move;
use kewb::DataTable;
use std::collections::HashSet;
use tool::cubes::{raw, solved, DECLARED};
use tool::plain::plain;
use tool::search::{search, Answer};
use tool::tables::zeroed;
use tool::text::list_text;
use tool::VARIANT;

type Scrambled = (Vec<Move>, CubieCube);

/// How many differing cubes are shown for each distance and limit.
const SHOWN: usize = 4;

pub fn short(depth: u64, limit: u8) {
    println!("{VARIANT}");
    let with_cut = DataTable::default();
    let no_cut = zeroed(&with_cut);
    for (distance, cubes) in levels(depth).iter().enumerate() {
        for limit in 0..=limit {
            compare(&with_cut, &no_cut, distance, limit, cubes);
        }
    }
}

/// All cubes by their distance from solved, each with its first scramble.
fn levels(depth: u64) -> Vec<Vec<Scrambled>> {
    let mut met = HashSet::from([raw(&solved())]);
    let mut levels = vec![vec![(vec![], solved())]];
    for _ in 0..depth {
        let mut next = vec![];
        for (scramble, c) in levels.last().unwrap() {
            for m in DECLARED {
                let d = c.apply_move(m);
                if met.insert(raw(&d)) {
                    next.push(([&scramble[..], &[m]].concat(), d));
                }
            }
        }
        levels.push(next);
    }
    levels
}

fn compare(with_cut: &DataTable, no_cut: &DataTable, distance: usize, limit: u8, cubes: &[Scrambled]) {
    let (mut none, mut missed, mut plain_differs) = (0, 0, 0);
    let mut differ = vec![];
    for (scramble, c) in cubes {
        let (answer, count) = search(with_cut, *c, limit, u64::MAX);
        let (whole, _) = search(no_cut, *c, limit, u64::MAX);
        none += (answer == Answer::Nothing) as usize;
        // the scramble turned round solves the cube, so below the limit a list exists
        missed += (answer == Answer::Nothing && distance < limit as usize) as usize;
        plain_differs += (plain(*c, limit, u64::MAX).0 != whole) as usize;
        if answer != whole {
            differ.push(format!(
                "after {}: {} ({count} entries), no cut {}",
                list_text(scramble),
                show(&answer),
                show(&whole)
            ));
        }
    }
    println!(
        "distance {distance}, limit {limit}: {} cubes, {none} none, {missed} of them though a list exists; \
         {} differ from no cut; no cut differs from the plain search at {plain_differs}",
        cubes.len(),
        differ.len()
    );
    differ.iter().take(SHOWN).for_each(|line| println!("    {line}"));
}
