//! Step "solve": the search, over the tables as they are, poked or not.
use crate::ffi;
use crate::lent::Rooms;
use crate::tables;
use wire::{answer, join, Args};

/// The parts of the word that the search returns.
struct Word {
    number: u8,
    kind: u8,
    lengths: [usize; 2],
    count: u64,
}

impl Word {
    fn of(word: u64) -> Self {
        let byte = |at: u32| (word >> at) as u8;
        Word { number: byte(0), kind: byte(8), lengths: [byte(16).into(), byte(24).into()], count: word >> 32 }
    }

    /// The answer; `changed` where rooms were written that must not be, or a list isn't followed by zeros alone.
    fn answer(&self, rooms: Rooms) -> String {
        let Word { number, kind, lengths, count } = self;
        match (number, kind, rooms) {
            (0, 0, [Some(one), Some(two)]) if zeros(&one, lengths[0]) && zeros(&two, lengths[1]) => {
                let lists = [join(&one[..lengths[0]]), join(&two[..lengths[1]])];
                answer(Ok(format!("solved {count} {}", lists.join(" "))))
            }
            (0, 1, [None, None]) if *lengths == [0, 0] => answer(Ok(format!("none {count}"))),
            (0, 2, [None, None]) if *lengths == [0, 0] => answer(Ok(format!("spent {count}"))),
            (11 | 12, 0, [None, None]) if *lengths == [0, 0] => format!("refused {number} {count}"),
            (1.., 0, [None, None]) if *lengths == [0, 0] && *count == 0 => answer(Err(*number)),
            _ => "changed".to_string(),
        }
    }
}

/// Whether all that stands after a list is 0.
fn zeros(room: &[u8], length: usize) -> bool {
    length <= room.len() && room[length..].iter().all(|&b| b == 0)
}

/// The search by the present tables.
pub fn solve(args: &Args) -> Option<String> {
    let budget = args.number(2)?;
    tables::with(|d| search(args, budget, &d.moves, &d.prunes))
}

/// The search that cuts nothing: by pruning tables that are 0 everywhere.
pub fn plain(args: &Args) -> Option<String> {
    let budget = args.number_or(2, u64::MAX)?;
    tables::with(|d| search(args, budget, &d.moves, &vec![0; d.prunes.len()]))
}

/// A limit that doesn't fit into the C function's argument is refused here, and only such a one.
fn search(args: &Args, budget: u64, moves: &[u16], prunes: &[u8]) -> Option<String> {
    let (cube, limit) = (args.cube(0)?, args.number::<u64>(1)?);
    let budget = budget.min(u32::MAX.into()) as u32;
    let Ok(limit) = u8::try_from(limit) else { return Some(answer(Err(9))) };
    let said = ffi::solve(&cube, limit, budget, moves, prunes);
    Some(said.map_or("changed".to_string(), |(word, rooms)| Word::of(word).answer(rooms)))
}
