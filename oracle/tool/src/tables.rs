//! kewb's ten tables in the paper's order: 0 to 5 move tables, 6 to 9 pruning tables.
use kewb::move_table::MoveTable;
use kewb::oracle::moves::Move;
use kewb::oracle::utils::{Table, ALL_MOVES, PHASE2_MOVES};
use kewb::pruning_table::PruningTable;
use kewb::DataTable;
pub use wire::{fnv, LENGTHS, PRUNE_OF};

pub fn move_tables(d: &DataTable) -> [&Table<u16>; 6] {
    let m = &d.move_table;
    [&m.co, &m.eo, &m.e_combo, &m.cp, &m.ep, &m.e_ep]
}

pub fn prune_tables(d: &DataTable) -> [&Table<u8>; 4] {
    let p = &d.pruning_table;
    [&p.co_e, &p.eo_e, &p.cp_e, &p.ep_e]
}

/// A pruning table 6 to 9 with its two move tables.
pub fn trio(d: &DataTable, t: usize) -> (&Table<u8>, &Table<u16>, &Table<u16>) {
    let m = move_tables(d);
    let (a, b) = PRUNE_OF[t - 6];
    (prune_tables(d)[t - 6], m[a], m[b])
}

/// The moves of a move table's columns.
pub fn columns(t: usize) -> &'static [Move] {
    if t < 3 {
        &ALL_MOVES
    } else {
        &PHASE2_MOVES
    }
}

/// The sum of a table's entries, 16-bit ones little-endian.
pub fn sum(d: &DataTable, t: usize) -> u64 {
    if t < 6 {
        fnv(move_tables(d)[t].iter().flatten().flat_map(|x| x.to_le_bytes()))
    } else {
        fnv(prune_tables(d)[t - 6].iter().flatten().copied())
    }
}

fn flat<T: Copy + Into<u32>>(t: &Table<T>, i: usize) -> Option<u32> {
    let width = t[0].len();
    t.get(i / width).map(|row| row[i % width].into())
}

/// Flat entry i of table t, if there is one.
pub fn entry(d: &DataTable, t: usize, i: usize) -> Option<u32> {
    if t < 6 {
        flat(move_tables(d)[t], i)
    } else {
        flat(prune_tables(d)[t - 6], i)
    }
}

fn put_flat<T>(t: &mut Table<T>, i: usize, v: T) {
    let width = t[0].len();
    t[i / width][i % width] = v;
}

/// Changes flat entry i of table t, which must be there.
pub fn put(d: &mut DataTable, t: usize, i: usize, v: u32) {
    let (m, p) = (&mut d.move_table, &mut d.pruning_table);
    match t {
        0 => put_flat(&mut m.co, i, v as u16),
        1 => put_flat(&mut m.eo, i, v as u16),
        2 => put_flat(&mut m.e_combo, i, v as u16),
        3 => put_flat(&mut m.cp, i, v as u16),
        4 => put_flat(&mut m.ep, i, v as u16),
        5 => put_flat(&mut m.e_ep, i, v as u16),
        6 => put_flat(&mut p.co_e, i, v as u8),
        7 => put_flat(&mut p.eo_e, i, v as u8),
        8 => put_flat(&mut p.cp_e, i, v as u8),
        _ => put_flat(&mut p.ep_e, i, v as u8),
    }
}

/// The same move tables with other pruning tables.
pub fn with_pruning(d: &DataTable, p: [Table<u8>; 4]) -> DataTable {
    let [co, eo, e_combo, cp, ep, e_ep] = move_tables(d).map(Table::clone);
    let [co_e, eo_e, cp_e, ep_e] = p;
    DataTable {
        move_table: MoveTable { co, eo, e_combo, cp, ep, e_ep },
        pruning_table: PruningTable { co_e, eo_e, cp_e, ep_e },
    }
}

/// The same tables with every pruning entry 0: a search over them cuts nothing.
pub fn zeroed(d: &DataTable) -> DataTable {
    with_pruning(d, prune_tables(d).map(|t| vec![vec![0; t[0].len()]; t.len()]))
}
