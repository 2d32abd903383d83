//! Step "tables": the ten tables, entry by entry, their check, and the builder of a pruning table.
use super::Ask;
use crate::coords::KINDS;
use crate::rng::Rng;
use crate::tables::{columns, entry, LENGTHS, PRUNE_OF};
use kewb::DataTable;
use wire::join;

pub fn compare(seed: u64, factor: u64, ask: Ask) -> usize {
    let g = &mut Rng::stream(seed, 8);
    for (t, length) in (0..).zip(LENGTHS) {
        ask(format!("sum {t}"));
        (0..length).for_each(|i| ask(format!("entry {t} {i}")));
    }
    ask("check".into());
    let (damages, tables) = (1000 * factor, DataTable::default());
    (0..damages).for_each(|round| damage(g, &tables, round, ask));
    (6..10).for_each(|t| builder(g, t, ask));
    let pairs = 20_000 * factor;
    sizes(ask);
    chains(ask);
    (0..pairs).for_each(|_| small(g, ask));
    (damages + pairs) as usize
}

/// One entry changed, the check, and the entry as it was: in each table in turn, at any place, or near its start or end.
fn damage(g: &mut Rng, tables: &DataTable, round: u64, ask: Ask) {
    let t = (round % 10) as usize;
    let length = LENGTHS[t];
    let i = match g.below(8) {
        0 => g.below(length.min(50)),
        1 => length - 1 - g.below(length.min(50)),
        _ => g.below(length),
    };
    let mut any = || match g.below(3) {
        0 if t < 6 => g.below(65536),
        1 if t < 6 => g.below(KINDS[t].count()),
        0 => g.below(256),
        _ => g.below(14),
    };
    let old = u64::from(entry(tables, t, i as usize).expect("an entry"));
    let v = std::iter::repeat_with(&mut any).find(|&v| v != old).expect("another value");
    poke(t, i, v, ask);
    ask("check".into());
    ask("mend".into());
}

fn poke(t: usize, i: u64, v: u64, ask: Ask) {
    ask(format!("poke {t} {i} {v}"));
}

fn end(t: usize, ask: Ask) {
    ask(format!("build {t}"));
    ask("mend".into());
}

/// The builder of table t over the true move tables, with an entry too large in each of them (11), with row 0 leading
/// nowhere (14), with entries changed in range, and over rows that all lead to few rows.
fn builder(g: &mut Rng, t: usize, ask: Ask) {
    let (a, b) = PRUNE_OF[t - 6];
    end(t, ask);
    for table in [a, b] {
        for place in [0, LENGTHS[table] / 2, LENGTHS[table] - 1] {
            poke(table, place, KINDS[table].count(), ask);
            end(t, ask);
        }
    }
    for table in [a, b] {
        (0..columns(table).len() as u64).for_each(|j| poke(table, j, 0, ask));
    }
    end(t, ask);
    for changes in [1, 5, 30, 1000] {
        for _ in 0..changes {
            let table = g.pick(&[a, b]);
            poke(table, g.below(LENGTHS[table]), g.below(KINDS[table].count()), ask);
        }
        end(t, ask);
    }
}

/// `pairs`: counts, moves, the room lent, and the two move tables, flat.
fn pairs(rows: [usize; 2], moves: usize, room: usize, first: &[u64], second: &[u64], ask: Ask) {
    ask(format!("pairs {} {} {moves} {room} {} {}", rows[0], rows[1], join(first), join(second)));
}

/// Counts of 0 and above 65,536, more than 256 moves, and each length one too small or too large.
fn sizes(ask: Ask) {
    for (rows, moves) in [([0, 1], 1), ([1, 0], 1), ([0, 0], 0), ([65537, 1], 0), ([1, 65537], 0), ([1, 1], 257)] {
        let zeros = |rows: usize| vec![0; (rows * moves).min(300)];
        pairs(rows, moves, rows[0] * rows[1], &zeros(rows[0]), &zeros(rows[1]), ask);
    }
    pairs([1, 1], 0, 1, &[], &[], ask);
    pairs([1, 1], 256, 1, &[0; 256], &[0; 256], ask);
    for [a, b, room] in [[3, 4, 6], [5, 4, 6], [4, 3, 6], [4, 5, 6], [4, 6, 5], [4, 6, 7], [0, 6, 6], [4, 0, 6], [4, 6, 0]] {
        pairs([2, 3], 2, room, &vec![1; a], &vec![1; b], ask);
    }
}

/// Rows in a line, so that the last is 253, 254, 255 or more moves away.
fn chains(ask: Ask) {
    for rows in [254_u64, 255, 256, 257, 300] {
        let line: Vec<u64> = (0..rows).map(|i| (i + 1).min(rows - 1)).collect();
        pairs([rows as usize, 1], 1, rows as usize, &line, &[0], ask);
        pairs([1, rows as usize], 1, rows as usize, &[0], &line, ask);
    }
}

/// Arbitrary small move tables: any entries; moves that all lead back; now and then an entry too large.
fn small(g: &mut Rng, ask: Ask) {
    let rows = [1 + g.place(6), 1 + g.place(6)];
    let moves = g.place(8);
    let mut tables = rows.map(|n| table(g, n, moves));
    if g.once_in(10) && moves > 0 {
        let (which, move_of) = (g.place(2), g.place(moves));
        tables[which][move_of] = rows[which] as u64 + g.below(3);
    }
    pairs(rows, moves, rows[0] * rows[1], &tables[0], &tables[1], ask);
}

fn table(g: &mut Rng, rows: usize, moves: usize) -> Vec<u64> {
    let shift = g.once_in(2);
    let one = |i: usize, g: &mut Rng| if shift { (i as u64 + g.below(2)) % rows as u64 } else { g.below(rows as u64) };
    (0..rows * moves).map(|at| one(at / moves, g)).collect()
}
