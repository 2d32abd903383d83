//! The search over the same cubes at the same limits. kewb's own solver is timed; its copy that counts gives the entries, and both lists
//! and counts must be the same.
use crate::clock::{spread, timed};
use crate::cubes::{bytes, cubes};
use crate::product::Tables;
use crate::Row;
use kewb::oracle::counted;
use kewb::oracle::cubie::CubieCube;
use kewb::{DataTable, Solver};
use std::hint::black_box;

/// What is searched: how many cubes, and the limit.
const RUNS: [(&str, usize, u8); 2] =
    [("search, 500 cubes, limit 23, ns an entry", 500, 23), ("search, 200 cubes, limit 22, ns an entry", 200, 22)];

/// How many cubes one side searches before it is the other's turn: a machine that grows slow or quick meanwhile does so for both.
const BATCH: usize = 10;

pub fn measure(rounds: usize) -> Vec<Row> {
    let mut tables = Tables::room();
    tables.build();
    let data = DataTable::default();
    RUNS.into_iter().map(|(what, n, limit)| row(what, &cubes(n as u64, n), limit, &data, &tables, rounds)).collect()
}

fn row(what: &'static str, cubes: &[CubieCube], limit: u8, data: &DataTable, tables: &Tables, rounds: usize) -> Row {
    let raw: Vec<[u8; 40]> = cubes.iter().map(bytes).collect();
    let entries: u64 = cubes.iter().zip(&raw).map(|(c, b)| same(*c, b, limit, data, tables)).sum();
    let (mut kewb, mut product) = (vec![], vec![]);
    let each = 1e9 / entries as f64;
    for _ in 0..rounds {
        let (mut theirs, mut ours) = (0.0, 0.0);
        for (cubes, raw) in cubes.chunks(BATCH).zip(raw.chunks(BATCH)) {
            theirs += timed(|| cubes.iter().for_each(|c| drop(black_box(Solver::new(data, limit, None).solve(*c)))));
            ours += timed(|| raw.iter().for_each(|b| drop(black_box(tables.solve(b, limit)))));
        }
        kewb.push(each * theirs);
        product.push(each * ours);
    }
    Row { what, kewb: spread(kewb), product: spread(product), bar: 0.33 }
}

/// Both searches of a cube: the lists and the count must be the same. Gives the count.
fn same(c: CubieCube, b: &[u8; 40], limit: u8, data: &DataTable, tables: &Tables) -> u64 {
    let mut solver = counted::Solver::new(data, limit, None);
    let found = solver.solve(c).expect("a list");
    let lists = [found.phase1, found.phase2].map(|list| list.iter().map(|&m| m as u8).collect::<Vec<u8>>());
    let (count, given) = tables.solve(b, limit).expect("a list");
    assert_eq!((solver.entries, lists), (count, given), "the two searches differ");
    count
}
