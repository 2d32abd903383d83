//! kewb's search: its own, and the copy that counts entries and has a budget.
use crate::cubes::{numbers, solved};
use kewb::oracle::counted;
use kewb::oracle::cubie::CubieCube;
use kewb::oracle::moves::Move;
use kewb::DataTable;
use std::panic;

#[derive(Clone, PartialEq, Debug)]
pub enum Answer {
    Solved(Vec<Move>, Vec<Move>),
    Nothing,
    Spent,
}

impl Answer {
    /// The answer with the count of entries, as the protocol has it.
    pub fn text(&self, count: u64) -> String {
        match self {
            Answer::Solved(p, q) => format!("solved {} {} {}", count, numbers(p), numbers(q)),
            Answer::Nothing => format!("none {count}"),
            Answer::Spent => format!("spent {count}"),
        }
    }
}

/// The counted copy, a fresh solver for each call: the answer and the entries made.
pub fn search(d: &DataTable, c: CubieCube, limit: u8, budget: u64) -> (Answer, u64) {
    let mut s = counted::Solver::new(d, limit, None);
    s.budget = budget;
    let answer = match s.solve(c) {
        _ if s.spent => Answer::Spent,
        Some(x) => Answer::Solved(x.phase1, x.phase2),
        None => Answer::Nothing,
    };
    (answer, s.entries)
}

/// kewb's own solver, untouched.
pub fn crate_search(d: &DataTable, c: CubieCube, limit: u8) -> Answer {
    match kewb::Solver::new(d, limit, None).solve(c) {
        Some(x) => Answer::Solved(x.phase1, x.phase2),
        None => Answer::Nothing,
    }
}

/// Whether the search meets a move entry that isn't below its count, and with how many entries made before. kewb
/// panics there (an index out of bounds in `prune`) just after that position was paid for; by the paper the refusal comes
/// before it is paid for, so one entry more than the budget is allowed here.
fn meets_too_large(d: &DataTable, c: CubieCube, limit: u8, budget: u64) -> Option<u64> {
    let mut s = counted::Solver::new(d, limit, None);
    s.budget = budget + 1;
    let hook = panic::take_hook();
    panic::set_hook(Box::new(|_| {}));
    let run = panic::catch_unwind(panic::AssertUnwindSafe(|| s.solve(c)));
    panic::set_hook(hook);
    run.is_err().then(|| s.entries - 1)
}

/// The paper's search over tables that may be untrue: 11 or 12 with the count, else as `search`.
pub fn search_untrue(d: &DataTable, c: CubieCube, limit: u8, budget: u64) -> Result<(Answer, u64), (u8, u64)> {
    if let Some(count) = meets_too_large(d, c, limit, budget) {
        return Err((11, count));
    }
    let (answer, count) = search(d, c, limit, budget);
    match &answer {
        Answer::Solved(p, q) if c.apply_moves(p).apply_moves(q) != solved() => Err((12, count)),
        _ => Ok((answer, count)),
    }
}
