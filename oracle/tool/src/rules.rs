//! The paper's table check and builder, and the distance to 0,0. Written from the paper: kewb has no check.
use crate::coords::{cube_of, number_of, KINDS};
use crate::tables::{columns, move_tables, trio, with_pruning};
use kewb::oracle::moves::Move;
use kewb::oracle::utils::Table;
use kewb::DataTable;

/// The coordinate after a move.
fn true_entry(t: usize, row: usize, m: Move) -> u16 {
    number_of(KINDS[t], &cube_of(KINDS[t], row as u64).apply_move(m)) as u16
}

fn bad_move_entry(d: &DataTable, t: usize) -> Option<usize> {
    let table = move_tables(d)[t];
    let width = columns(t).len();
    let bad = |i: &usize| table[i / width][i % width] != true_entry(t, i / width, columns(t)[i % width]);
    (0..table.len() * width).find(bad)
}

/// The pruning entries that break the paper's rule, where a neighbour is the pair after one of the moves.
pub fn bad_prune_entries(d: &DataTable, t: usize) -> impl Iterator<Item = usize> + '_ {
    let (p, a, b) = trio(d, t);
    let width = b.len();
    let bad = move |q: &usize| {
        let (i, j) = (q / width, q % width);
        let v = p[i][j];
        if *q == 0 || v == 0 {
            return *q != 0 || v != 0;
        }
        let neighbours = || a[i].iter().zip(&b[j]).map(|(&x, &y)| p[x as usize][y as usize]);
        neighbours().any(|n| n < v - 1) || !neighbours().any(|n| n == v - 1)
    };
    (0..a.len() * width).filter(bad)
}

/// The lowest bad table and entry, if any.
pub fn table_check(d: &DataTable) -> Option<(usize, usize)> {
    let moves = (0..6).find_map(|t| Some((t, bad_move_entry(d, t)?)));
    moves.or_else(|| (6..10).find_map(|t| Some((t, bad_prune_entries(d, t).next()?))))
}

/// The least number of moves from each pair to 0,0; kewb's tables hold those from 0,0 to each pair.
fn distance_to_zero(a: &Table<u16>, b: &Table<u16>) -> Table<u8> {
    let mut d = vec![vec![u8::MAX; b.len()]; a.len()];
    d[0][0] = 0;
    for distance in 0.. {
        let steps_to =
            |i: usize, j: usize| a[i].iter().zip(&b[j]).any(|(&x, &y)| d[x as usize][y as usize] == distance);
        let pairs = (0..a.len()).flat_map(|i| (0..b.len()).map(move |j| (i, j)));
        let new: Vec<(usize, usize)> = pairs.filter(|&(i, j)| d[i][j] == u8::MAX && steps_to(i, j)).collect();
        if new.is_empty() {
            break;
        }
        for (i, j) in new {
            d[i][j] = distance + 1;
        }
    }
    d
}

/// The same tables with the distances to 0,0 as pruning entries: a cut that is right whatever the moves are.
pub fn to_zero(d: &DataTable) -> DataTable {
    let one = |t| {
        let (_, a, b) = trio(d, t);
        distance_to_zero(a, b)
    };
    with_pruning(d, [6, 7, 8, 9].map(one))
}

/// Two flat move tables with their counts of rows and their moves.
pub struct Pair<'a> {
    pub first: &'a [u16],
    pub second: &'a [u16],
    pub rows: [usize; 2],
    pub moves: usize,
}

impl Pair<'_> {
    /// Lengths first (10), for a lent table of `room` entries; then both move tables are scanned (11).
    pub fn refusal(&self, room: usize) -> Option<u8> {
        let [n1, n2] = self.rows;
        let counted = self.rows.iter().all(|n| (1..=65536).contains(n)) && self.moves <= 256;
        let sized = || [(self.first.len(), n1 * self.moves), (self.second.len(), n2 * self.moves), (room, n1 * n2)];
        if !counted || sized().iter().any(|(has, wants)| has != wants) {
            return Some(10);
        }
        let too_large = |t: &[u16], rows: usize| t.iter().any(|&e| e as usize >= rows);
        (too_large(self.first, n1) || too_large(self.second, n2)).then_some(11)
    }

    /// A plain breadth-first search: each pair's least distance from 0,0, 255 where there is no way of at most 254 moves.
    pub fn flood(&self) -> Vec<u8> {
        let width = self.rows[1];
        let row = |t: &'_ [u16], i: usize| t[i * self.moves..(i + 1) * self.moves].to_vec();
        let mut p = vec![255u8; self.rows[0] * width];
        p[0] = 0;
        let mut now = vec![0];
        for distance in 1..255 {
            let mut next = vec![];
            for q in now {
                for (x, y) in row(self.first, q / width).into_iter().zip(row(self.second, q % width)) {
                    let r = x as usize * width + y as usize;
                    if p[r] == 255 {
                        p[r] = distance;
                        next.push(r);
                    }
                }
            }
            now = next;
        }
        p
    }
}

/// The paper's builder over the present move tables of a pruning table 6 to 9: kewb's own doesn't end where a pair can't
/// be reached.
pub fn build(d: &DataTable, t: usize) -> Result<Vec<u8>, u8> {
    let (_, a, b) = trio(d, t);
    let (first, second) = (a.concat(), b.concat());
    let pair = Pair { first: &first, second: &second, rows: [a.len(), b.len()], moves: a[0].len() };
    pair.refusal(a.len() * b.len()).map_or_else(|| Ok(pair.flood()), Err)
}
