//! The variant's tables against the paper's check and against the distances to 0,0.
use kewb::oracle::utils::ALL_MOVES;
use kewb::DataTable;
use tool::rules::{bad_prune_entries, table_check, to_zero};
use tool::tables::{entry, sum, LENGTHS};
use tool::VARIANT;

pub fn tables() {
    println!("{VARIANT}: ALL_MOVES {ALL_MOVES:?}");
    let d = DataTable::default();
    for (t, length) in LENGTHS.iter().enumerate() {
        println!("table {t}: {length} entries, sum {:016x}", sum(&d, t));
    }
    match table_check(&d) {
        None => println!("table check: passes"),
        Some((t, i)) => println!("table check: refused 13, table {t}, entry {i}"),
    }
    let to = to_zero(&d);
    for t in 6..10 {
        rule(&d, t);
        cut(&d, &to, t);
    }
}

/// How many entries break the paper's rule of neighbours.
fn rule(d: &DataTable, t: usize) {
    let mut bad = bad_prune_entries(d, t).peekable();
    let first = bad.peek().map(|&i| format!(", first entry {i} holding {}", entry(d, t, i).unwrap()));
    println!("table {t}: {} entries break the rule{}", bad.count(), first.unwrap_or_default());
}

/// Where the table differs from the distance to 0,0: above it the search cuts what it should keep.
fn cut(d: &DataTable, to: &DataTable, t: usize) {
    let at = |d: &DataTable, i: u64| entry(d, t, i as usize).unwrap() as i32;
    let differences = || (0..LENGTHS[t]).map(|i| (i, at(d, i) - at(to, i)));
    let above: Vec<_> = differences().filter(|x| x.1 > 0).collect();
    let below = differences().filter(|x| x.1 < 0).count();
    let most = above.iter().map(|x| x.1).max().unwrap_or(0);
    let first = above.first().map(|&(i, _)| format!(", first entry {i} holding {} for {}", at(d, i), at(to, i)));
    println!(
        "    against the distance to 0,0: {} above by at most {most}{}; {below} below",
        above.len(),
        first.unwrap_or_default()
    );
}
