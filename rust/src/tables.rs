//! The ten tables.
use crate::{raw, Refusal};

/// The entries of move tables 0 to 5 in one block, and of pruning tables 6 to 9.
pub const MOVES: usize = 891_780;
pub const PRUNES: usize = 4_031_685;

/// Both blocks. Those of [`Tables::build`] are true; others are as true as [`Tables::check`] says.
#[derive(Clone, PartialEq, Eq, Debug)]
pub struct Tables {
    moves: Vec<u16>,
    prunes: Vec<u8>,
}

impl Tables {
    /// Builds all ten.
    pub fn build() -> Result<Tables, Refusal> {
        let (mut moves, mut prunes) = (vec![0; MOVES], vec![0; PRUNES]);
        // SAFETY: the pointer comes with the length of live memory.
        let six = unsafe { raw::tsunghawi_get_move_tables(moves.as_mut_ptr(), MOVES) };
        Refusal::of(six.into())?;
        // SAFETY: both pointers come with the lengths of live memory.
        let four = unsafe { raw::tsunghawi_get_prune_tables(moves.as_ptr(), MOVES, prunes.as_mut_ptr(), PRUNES) };
        Refusal::of(four.into())?;
        Ok(Tables { moves, prunes })
    }

    /// Blocks from elsewhere, whatever they hold.
    pub fn from_blocks(moves: Vec<u16>, prunes: Vec<u8>) -> Tables {
        Tables { moves, prunes }
    }

    pub fn moves(&self) -> &[u16] {
        &self.moves
    }

    pub fn prunes(&self) -> &[u8] {
        &self.prunes
    }

    /// Whether all ten are true; else 10, or 13 with the lowest bad table and entry.
    pub fn check(&self) -> Result<(), Refusal> {
        let (moves, prunes) = (&self.moves, &self.prunes);
        // SAFETY: both pointers come with the lengths of live memory.
        let word = unsafe { raw::tsunghawi_check_tables(moves.as_ptr(), moves.len(), prunes.as_ptr(), prunes.len()) };
        Refusal::of(word)
    }
}

/// Move table t, 0 to 5, into a slice of its length.
pub fn move_table(t: u8, table: &mut [u16]) -> Result<(), Refusal> {
    // SAFETY: the pointer comes with the length of live memory.
    let number = unsafe { raw::tsunghawi_get_move_table(t, table.as_mut_ptr(), table.len()) };
    Refusal::of(number.into())
}

/// Pruning table t, 6 to 9, by its two move tables, into a slice of its length. After 14 pairs out of reach hold 255.
pub fn prune_table(t: u8, first: &[u16], second: &[u16], table: &mut [u8]) -> Result<(), Refusal> {
    let (a, b) = (first.as_ptr(), second.as_ptr());
    let (n, out) = (table.len(), table.as_mut_ptr());
    // SAFETY: the pointers come with the lengths of live memory, and the table is lent to this call alone.
    let number = unsafe { raw::tsunghawi_get_prune_table(t, a, first.len(), b, second.len(), out, n) };
    Refusal::of(number.into())
}

/// The same by two move tables of so many rows each and of so many moves.
pub fn pairs_table(
    first: &[u16],
    second: &[u16],
    table: &mut [u8],
    rows: [usize; 2],
    moves: usize,
) -> Result<(), Refusal> {
    let ((a, b), [rows1, rows2]) = ((first.as_ptr(), second.as_ptr()), rows);
    let (n, out) = (table.len(), table.as_mut_ptr());
    // SAFETY: the pointers come with the lengths of live memory, and the table is lent to this call alone.
    let number =
        unsafe { raw::tsunghawi_get_pairs_table(a, first.len(), b, second.len(), out, n, rows1, rows2, moves) };
    Refusal::of(number.into())
}
