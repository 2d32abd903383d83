//! Why a call was refused.
use std::fmt;

/// A refusal: its number, 1 to 15, and after 13 the lowest bad table and its lowest bad entry. Shown, it says what it means.
#[derive(Clone, Copy, PartialEq, Eq, Hash)]
pub struct Refusal(u64);

impl Refusal {
    /// The word of a call as a result: its low byte is the refusal's number, 0 for none.
    pub(crate) fn of(word: u64) -> Result<(), Refusal> {
        match word & 0xFF {
            0 => Ok(()),
            13 => Err(Refusal(word)),
            number => Err(Refusal(number)),
        }
    }

    pub fn number(self) -> u8 {
        (self.0 & 0xFF) as u8
    }

    /// After 13, where the tables aren't true: the lowest bad table, and its lowest bad entry.
    pub fn bad_entry(self) -> Option<(u8, u32)> {
        (self.number() == 13).then_some(((self.0 >> 8 & 0xFF) as u8, (self.0 >> 16) as u32))
    }

    fn meaning(self) -> &'static str {
        match self.number() {
            1 => "not 54 stickers",
            2 => "a sticker that is none of U R F D L B",
            3 => "the cube read isn't solvable",
            4 => "a corner number above 7",
            5 => "an edge number above 11",
            6 => "a twist or a flip out of range, an arrangement outside its domain, or a cube that isn't solvable",
            7 => "text that isn't a move list, or a move number above 17",
            8 => "a number that isn't below its coordinate's count",
            9 => "a limit above 31",
            10 => "a length that isn't the one asked for, or too short",
            11 => "an entry of a move table that isn't below its coordinate's count",
            12 => "the list found doesn't solve the cube",
            13 => "a table isn't true",
            14 => "a pruning table can't be built: some pair is out of reach",
            15 => "the stickers differ from the picture of the cube read",
            _ => "no refusal of this library",
        }
    }
}

impl fmt::Display for Refusal {
    fn fmt(&self, f: &mut fmt::Formatter<'_>) -> fmt::Result {
        write!(f, "refused {}: {}", self.number(), self.meaning())?;
        match self.bad_entry() {
            Some((table, entry)) => write!(f, ", table {table} entry {entry}"),
            None => Ok(()),
        }
    }
}

impl fmt::Debug for Refusal {
    fn fmt(&self, f: &mut fmt::Formatter<'_>) -> fmt::Result {
        fmt::Display::fmt(self, f)
    }
}

impl std::error::Error for Refusal {}
