//! The search.
use crate::{raw, Cube, Refusal, Tables, CUBE};

/// Bytes for each list that a search finds.
pub const LIST: usize = 31;

/// How a search came out, with the entries that it made.
#[derive(Clone, PartialEq, Eq, Debug)]
pub enum Answer {
    /// Turns that solve the cube: those of phase 1, then those of phase 2.
    Solved { phase1: Vec<u8>, phase2: Vec<u8>, entries: u32 },
    /// There are none shorter than the limit.
    None { entries: u32 },
    /// The search would make one entry more than the budget.
    Spent { entries: u32 },
}

impl Tables {
    /// Turns that solve a cube, fewer than `limit` (31 at most), with no more than `budget` entries made.
    pub fn solve(&self, cube: &Cube, limit: u8, budget: u32) -> Result<Answer, Refusal> {
        let (mut one, mut two) = ([0; LIST], [0; LIST]);
        let (c, m, p) = (cube.as_bytes().as_ptr(), self.moves(), self.prunes());
        let (a, b) = (one.as_mut_ptr(), two.as_mut_ptr());
        // SAFETY: the pointers come with the lengths of live memory, and each list is lent once.
        let word = unsafe {
            let (moves, prunes) = (m.as_ptr(), p.as_ptr());
            raw::tsunghawi_solve(c, CUBE, limit, budget, moves, m.len(), prunes, p.len(), a, LIST, b, LIST)
        };
        Refusal::of(word)?;
        let byte = |at: u32| usize::from((word >> at) as u8);
        let entries = (word >> 32) as u32;
        Ok(match byte(8) {
            0 => Answer::Solved { phase1: one[..byte(16)].to_vec(), phase2: two[..byte(24)].to_vec(), entries },
            1 => Answer::None { entries },
            _ => Answer::Spent { entries },
        })
    }
}
