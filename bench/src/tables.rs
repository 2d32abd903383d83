//! Building and checking all ten tables. kewb has no check: the product's is held against kewb's build.
use crate::clock::{spread, timed};
use crate::product::Tables;
use crate::Row;
use kewb::DataTable;
use std::hint::black_box;

pub fn measure(rounds: usize) -> Vec<Row> {
    let mut tables = Tables::room();
    let (mut kewb, mut build, mut check) = (vec![], vec![], vec![]);
    for _ in 0..rounds {
        kewb.push(1e3 * timed(|| drop(black_box(DataTable::default()))));
        build.push(1e3 * timed(|| tables.build()));
        check.push(1e3 * timed(|| tables.check()));
    }
    vec![
        Row { what: "build of all ten tables, ms", kewb: spread(kewb.clone()), product: spread(build), bar: 0.55 },
        Row { what: "check of all ten, beside kewb's build, ms", kewb: spread(kewb), product: spread(check), bar: 0.37 },
    ]
}
