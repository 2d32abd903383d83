//! The program `solve` as a person waits for it: the time on the wall from its start to its last line, for a cube that needs no search; and
//! the search alone, cube by cube, at the limit that it takes where none is given.
use crate::clock::timed;
use crate::cubes::{bytes, cubes};
use crate::product::Tables;
use crate::Wait;
use std::hint::black_box;
use std::io::Write;
use std::process::{Command, Stdio};
use std::time::Instant;

const SOLVED: &[u8] = b"UUUUUUUUURRRRRRRRRFFFFFFFFFDDDDDDDDDLLLLLLLLLBBBBBBBBB\n";

pub fn measure(rounds: usize) -> Vec<Wait> {
    let start: Vec<f64> = (0..rounds).map(|_| start_up()).collect();
    let mut tables = Tables::room();
    tables.build();
    let raw: Vec<[u8; 40]> = cubes(500, 500).iter().map(bytes).collect();
    let each = raw.iter().map(|b| 1e3 * timed(|| drop(black_box(tables.solve(b, 23))))).collect();
    vec![
        Wait::new("solve: start, build and check, ms", start, 600.0),
        Wait::new("one search at limit 23, 500 cubes, ms", each, 100.0),
    ]
}

/// The milliseconds of a whole run of the program, whose path is in SOLVE_BIN.
fn start_up() -> f64 {
    let path = std::env::var("SOLVE_BIN").expect("SOLVE_BIN is the path of the program solve");
    let begun = Instant::now();
    let mut run =
        Command::new(path).stdin(Stdio::piped()).stdout(Stdio::piped()).spawn().expect("solve doesn't start");
    run.stdin.take().expect("its input").write_all(SOLVED).expect("solve doesn't read");
    let said = run.wait_with_output().expect("solve doesn't end").stdout;
    let time = begun.elapsed().as_secs_f64() * 1e3;
    assert_eq!(said, b"solution\nphase1 0\nphase2 0\nmoves 0\nstrokes 0\nentries 2\n", "solve says something else");
    time
}
