//! What kewb does outside the paper's domain. Run it in the release build and in the checked one.
use crate::show;
use kewb::constants::EP_COUNT;
use kewb::index::*;
use kewb::oracle::cubie::{Corner, CubieCube};
use kewb::oracle::moves::Move;
use kewb::oracle::utils::PHASE2_MOVES;
use kewb::pruning_table::get_prune_table;
use kewb::{DataTable, FaceCube};
use std::fmt::Debug;
use std::panic::{self, AssertUnwindSafe};
use std::sync::mpsc::{self, RecvTimeoutError};
use std::thread;
use std::time::Duration;
use tool::coords::{cube_of, Kind, KINDS};
use tool::cubes::{in_range, raw, solved};
use tool::search::{crate_search, search, Answer};
use tool::VARIANT;

/// Runs what may panic; None if it does.
fn tried<R>(run: impl FnOnce() -> R) -> Option<R> {
    panic::catch_unwind(AssertUnwindSafe(run)).ok()
}

fn tell<R: Debug>(what: &str, run: impl FnOnce() -> R) {
    match tried(run) {
        Some(r) => println!("{what}: {r:?}"),
        None => println!("{what}: panic"),
    }
}

pub fn outside() {
    panic::set_hook(Box::new(|_| {}));
    println!("{VARIANT}, overflow checks {}", if cfg!(debug_assertions) { "on" } else { "off" });
    numbers();
    arrays();
    twists();
    unsolvable();
    solver();
    pruning();
}

/// Numbers at or above the count of their coordinate.
fn numbers() {
    println!("EP_COUNT: {EP_COUNT}");
    tell("index_to_ep(479001599)", || index_to_ep(479001599));
    for kind in KINDS {
        let last = if kind == Kind::Ep { kind.count() + 999 } else { 65535 };
        let (mut wrapped, mut panicked, mut other) = (0, 0, 0);
        for n in kind.count()..=last {
            match tried(|| cube_of(kind, n)) {
                None => panicked += 1,
                Some(c) if c == cube_of(kind, n % kind.count()) => wrapped += 1,
                Some(_) => other += 1,
            }
        }
        let (name, count) = (kind.name(), kind.count());
        println!("{name}, numbers {count} to {last}: {wrapped} give the array of the remainder, {panicked} panic, {other} other");
    }
}

fn with_edges(ep: [u8; 12]) -> CubieCube {
    let mut r = raw(&solved());
    r[16..28].copy_from_slice(&ep);
    in_range(&r).unwrap()
}

/// Five edges below 4.
fn five() -> CubieCube {
    with_edges([0, 1, 2, 3, 0, 5, 6, 7, 8, 9, 10, 11])
}

/// Arrays outside the domain of their coordinate.
fn arrays() {
    tell("e_combo_to_index, five edges below 4 (0,1,2,3,0,5,6,7,8,9,10,11)", || e_combo_to_index(&five().ep));
    tell("e_combo_to_index, twelve edges below 4", || e_combo_to_index(&with_edges([0; 12]).ep));
    tell("e_combo_to_index, no edge below 4", || e_combo_to_index(&with_edges([4; 12]).ep));
    tell("co_to_index, all 255", || co_to_index(&[255; 8]));
    tell("eo_to_index, all 255", || eo_to_index(&[255; 12]));
    repeats();
}

/// A piece twice in a coordinate's own places: its number is that of another array too.
fn repeats() {
    let corner = with_corners([0, 0, 2, 3, 4, 5, 6, 7]);
    tell("cp_to_index, corner 0 twice (0,0,2,3,4,5,6,7), and the array of that number", || {
        let n = cp_to_index(&corner.cp);
        (n, index_to_cp(n).map(|c| c as u8))
    });
    let edge = with_edges([0, 0, 2, 3, 4, 4, 6, 7, 8, 9, 10, 11]);
    tell("ep_to_index, ud_ep_to_index, e_ep_to_index, edges 0 and 4 twice (0,0,2,3,4,4,6,7,8,9,10,11)", || {
        (ep_to_index(&edge.ep), ud_ep_to_index(&edge.ep), e_ep_to_index(&edge.ep))
    });
    tell("the arrays of those three numbers", || {
        let arrays = (
            index_to_ep(ep_to_index(&edge.ep)),
            index_to_ud_ep(ud_ep_to_index(&edge.ep)),
            index_to_e_ep(e_ep_to_index(&edge.ep)),
        );
        [arrays.0, arrays.1, arrays.2].map(|array| array.map(|e| e as u8))
    });
}

fn with_corners(cp: [u8; 8]) -> CubieCube {
    let mut r = raw(&solved());
    r[..8].copy_from_slice(&cp);
    in_range(&r).unwrap()
}

fn twisted(place: usize, twist: u8) -> CubieCube {
    let mut c = solved();
    c.co[place] = twist;
    c
}

fn flipped(flips: &[(usize, u8)]) -> CubieCube {
    let mut c = solved();
    flips.iter().for_each(|&(place, flip)| c.eo[place] = flip);
    c
}

/// Twists above 2 and flips above 1 on the solved cube.
fn twists() {
    let picture = |c: CubieCube| FaceCube::try_from(&c).map(|f| f.to_string());
    tell("is_solvable, twist 3 at corner 0", || twisted(0, 3).is_solvable());
    tell("is_solvable, twist 4 at corner 0", || twisted(0, 4).is_solvable());
    tell("is_solvable, flip 2 at edge 0", || flipped(&[(0, 2)]).is_solvable());
    tell("is_solvable, flips 255 and 1 at edges 0 and 1", || flipped(&[(0, 255), (1, 1)]).is_solvable());
    tell("picture, twist 3 at corner 0", || picture(twisted(0, 3)));
    tell("picture, twist 4 at corner 0", || picture(twisted(0, 4)));
}

fn corners(cp: [Corner; 8]) -> CubieCube {
    CubieCube { cp, ..solved() }
}

/// The search of cubes that aren't solvable.
fn unsolvable() {
    let d = DataTable::default();
    let solve = |what: &str, c: CubieCube, limit: u8| {
        tell(&format!("solve, {what}, limit {limit}"), || {
            let (answer, count) = search(&d, c, limit, 300_000_000);
            format!("{}, {count} entries, solves it: {}", show(&answer), solves(&answer, c))
        })
    };
    solve("corner 7 twisted", twisted(7, 1), 1);
    solve("edge 11 flipped", flipped(&[(11, 1)]), 1);
    solve("all corners UBL", corners([solved().cp[0]; 8]), 1);
    solve("all edges UB", with_edges([4; 12]), 1);
    solve("five edges below 4", five(), 1);
    solve("corner 0 twisted", twisted(0, 1), 25);
    solve("last two corners swapped", corners(index_to_cp(1)), 31);
}

fn solves(answer: &Answer, c: CubieCube) -> bool {
    match answer {
        Answer::Solved(p, q) => c.apply_moves(p).apply_moves(q) == solved(),
        _ => false,
    }
}

/// The solver's own interface: limits above 31, a second use, a timeout that isn't reached.
fn solver() {
    let d = DataTable::default();
    let after = |m: Move| solved().apply_move(m);
    tell("kewb's own solve, cube after R, limit 255", || show(&crate_search(&d, after(Move::R), 255)));
    tell("one solver for the cube after R, then after U, with no clear, limit 23", || {
        let mut s = kewb::Solver::new(&d, 23, None);
        [Move::R, Move::U].map(|m| s.solve(after(m)).map(|x| x.to_string()))
    });
    tell("cube after R, limit 2, with no timeout and with one of an hour", || {
        [None, Some(3600.0)].map(|t| kewb::Solver::new(&d, 2, t).solve(after(Move::R)).map(|x| x.to_string()))
    });
}

/// Builders over move tables of which the paper says 11 and 14.
fn pruning() {
    let table = |rows: usize, entry: u16| vec![vec![entry; PHASE2_MOVES.len()]; rows];
    tell("get_prune_table, an entry not below its count (2 rows, entry 2)", || {
        get_prune_table(table(2, 2), table(1, 0), &PHASE2_MOVES)
    });
    let unreached = "get_prune_table, a pair out of reach (2 rows, entry 0)";
    match within(Duration::from_secs(10), move || get_prune_table(table(2, 0), table(1, 0), &PHASE2_MOVES)) {
        Ok(table) => println!("{unreached}: {table:?}"),
        Err(RecvTimeoutError::Timeout) => println!("{unreached}: no end after 10 seconds"),
        Err(RecvTimeoutError::Disconnected) => println!("{unreached}: panic"),
    }
}

/// What a run gives in so much time; a run that goes on is left alone, and ends with the program.
fn within<R: Send + 'static>(time: Duration, run: impl FnOnce() -> R + Send + 'static) -> Result<R, RecvTimeoutError> {
    let (send, receive) = mpsc::channel();
    thread::spawn(move || send.send(run()));
    receive.recv_timeout(time)
}
