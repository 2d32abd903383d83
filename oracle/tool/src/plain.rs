//! The paper's plain search, written from the paper and not from kewb: turns the cube, no tables, no cut.
use crate::cubes::solved;
use crate::search::Answer;
use kewb::oracle::cubie::CubieCube;
use kewb::oracle::moves::{is_move_available, Move};
use kewb::oracle::utils::{ALL_MOVES, PHASE2_MOVES};

struct Plain {
    limit: usize,
    first: Vec<Move>,
    second: Vec<Move>,
    entries: u64,
    most: u64,
}

/// Why the search stopped. Going on is `None`.
enum Stop {
    Solved,
    Ended,
    Spent,
}

/// The answer, and the positions entered; spent if they would be more than `most`.
pub fn plain(c: CubieCube, limit: u8, most: u64) -> (Answer, u64) {
    let limit = limit as usize;
    let mut p = Plain { limit, first: vec![], second: vec![], entries: 0, most };
    let answer = match (0..=limit).find_map(|length| p.enter_first(c, length)) {
        Some(Stop::Solved) => Answer::Solved(p.first, p.second),
        Some(Stop::Spent) => Answer::Spent,
        Some(Stop::Ended) | None => Answer::Nothing,
    };
    (answer, p.entries)
}

fn is_first_end(c: &CubieCube) -> bool {
    c.co == [0; 8] && c.eo == [0; 12] && c.ep[..4].iter().all(|&e| (e as u8) < 4)
}

fn available(before: Option<&Move>, m: Move) -> bool {
    before.is_none_or(|p| is_move_available(*p, m))
}

impl Plain {
    fn pay(&mut self) -> Option<Stop> {
        if self.entries == self.most {
            return Some(Stop::Spent);
        }
        self.entries += 1;
        None
    }

    fn enter_first(&mut self, c: CubieCube, depth: usize) -> Option<Stop> {
        if let Some(stop) = self.pay() {
            return Some(stop);
        }
        if depth == 0 {
            return if is_first_end(&c) { self.at_first_end(c) } else { None };
        }
        for m in ALL_MOVES {
            if available(self.first.last(), m) {
                self.first.push(m);
                if let Some(stop) = self.enter_first(c.apply_move(m), depth - 1) {
                    return Some(stop);
                }
                self.first.pop();
            }
        }
        None
    }

    fn at_first_end(&mut self, c: CubieCube) -> Option<Stop> {
        let n = self.first.len();
        if n > 0 && n == self.limit {
            return Some(Stop::Ended);
        }
        (0..self.limit - n).find_map(|length| self.enter_second(c, length))
    }

    fn enter_second(&mut self, c: CubieCube, depth: usize) -> Option<Stop> {
        if let Some(stop) = self.pay() {
            return Some(stop);
        }
        if depth == 0 {
            return if c == solved() { Some(Stop::Solved) } else { None };
        }
        for m in PHASE2_MOVES {
            if available(self.second.last().or(self.first.last()), m) {
                self.second.push(m);
                if let Some(stop) = self.enter_second(c.apply_move(m), depth - 1) {
                    return Some(stop);
                }
                self.second.pop();
            }
        }
        None
    }
}
