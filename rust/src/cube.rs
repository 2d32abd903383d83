//! Cubes and their pictures.
use crate::lent::{lend, lend_answer};
use crate::{raw, Refusal};

/// The bytes of a cube, and the letters of its picture.
pub const CUBE: usize = 40;
pub const STICKERS: usize = 54;

/// 8 corners, their twists, 12 edges and their flips, by place. Any bytes may stand here: what is out of range is refused by each call.
#[derive(Clone, Copy, PartialEq, Eq, Hash, Debug)]
pub struct Cube([u8; CUBE]);

/// The turns and swaps that a cube is away from solved, piece by piece.
#[derive(Clone, Copy, PartialEq, Eq, Hash, Debug)]
pub struct Counts {
    pub corner_twists: u8,
    pub edge_flips: u8,
    pub corner_swaps: u8,
    pub edge_swaps: u8,
}

impl Cube {
    pub const SOLVED: Cube = Cube([
        0, 1, 2, 3, 4, 5, 6, 7, 0, 0, 0, 0, 0, 0, 0, 0, 0, 1, 2, 3, 4, 5, 6, 7, 8, 9, 10, 11, 0, 0, 0, 0, 0, 0, 0, 0,
        0, 0, 0, 0,
    ]);

    pub fn from_bytes(bytes: [u8; CUBE]) -> Cube {
        Cube(bytes)
    }

    pub fn as_bytes(&self) -> &[u8; CUBE] {
        &self.0
    }

    /// The cube that stickers are read as; what matches no piece is taken for the solved one.
    pub fn read_plain(stickers: &[u8]) -> Result<Cube, Refusal> {
        // SAFETY: both pointers come with the lengths of live memory.
        lend(|out, n| unsafe { raw::tsunghawi_read_plain(stickers.as_ptr(), stickers.len(), out, n) }).map(Cube)
    }

    /// The solvable cube whose picture the stickers are, and no other.
    pub fn read_strict(stickers: &[u8]) -> Result<Cube, Refusal> {
        // SAFETY: both pointers come with the lengths of live memory.
        lend(|out, n| unsafe { raw::tsunghawi_read_strict(stickers.as_ptr(), stickers.len(), out, n) }).map(Cube)
    }

    /// The 54 letters of a solvable cube.
    pub fn picture(&self) -> Result<[u8; STICKERS], Refusal> {
        // SAFETY: both pointers come with the lengths of live memory.
        lend(|out, n| unsafe { raw::tsunghawi_picture(self.0.as_ptr(), CUBE, out, n) })
    }

    /// The product of two cubes.
    pub fn mul(&self, other: &Cube) -> Result<Cube, Refusal> {
        let (a, b) = (self.0.as_ptr(), other.0.as_ptr());
        // SAFETY: the pointers come with the lengths of live memory, and what is written is none of what is read.
        lend(|out, n| unsafe { raw::tsunghawi_mul(a, CUBE, b, CUBE, out, n) }).map(Cube)
    }

    /// The cube after one move.
    pub fn apply_move(&self, m: u8) -> Result<Cube, Refusal> {
        // SAFETY: both pointers come with the lengths of live memory.
        lend(|out, n| unsafe { raw::tsunghawi_apply_move(self.0.as_ptr(), CUBE, m, out, n) }).map(Cube)
    }

    /// The cube after a list of moves.
    pub fn apply_moves(&self, moves: &[u8]) -> Result<Cube, Refusal> {
        let (cube, list) = (self.0.as_ptr(), moves.as_ptr());
        // SAFETY: the pointers come with the lengths of live memory.
        lend(|out, n| unsafe { raw::tsunghawi_apply_moves(cube, CUBE, list, moves.len(), out, n) }).map(Cube)
    }

    pub fn is_solved(&self) -> Result<bool, Refusal> {
        // SAFETY: both pointers come with the lengths of live memory.
        lend_answer(|out, n| unsafe { raw::tsunghawi_is_solved(self.0.as_ptr(), CUBE, out, n) })
    }

    pub fn is_solvable(&self) -> Result<bool, Refusal> {
        // SAFETY: both pointers come with the lengths of live memory.
        lend_answer(|out, n| unsafe { raw::tsunghawi_is_solvable(self.0.as_ptr(), CUBE, out, n) })
    }

    pub fn counts(&self) -> Result<Counts, Refusal> {
        // SAFETY: both pointers come with the lengths of live memory.
        let four = lend(|out, n| unsafe { raw::tsunghawi_counts(self.0.as_ptr(), CUBE, out, n) });
        four.map(|[corner_twists, edge_flips, corner_swaps, edge_swaps]| Counts {
            corner_twists,
            edge_flips,
            corner_swaps,
            edge_swaps,
        })
    }
}
