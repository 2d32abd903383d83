//! Solves a cube: `solve STICKERS` reads the 54 stickers strictly, builds the tables, searches, and prints the turns.
use tsunghawi::{format_moves, Answer, Cube, Refusal, Tables};

fn solve(stickers: &str) -> Result<(), Refusal> {
    let cube = Cube::read_strict(stickers.as_bytes())?;
    match Tables::build()?.solve(&cube, 23, u32::MAX)? {
        Answer::Solved { phase1, phase2, entries } => {
            println!("solution {}", format_moves(&[phase1, phase2].concat())?);
            println!("entries {entries}");
        }
        Answer::None { .. } => println!("none"),
        Answer::Spent { .. } => println!("spent"),
    }
    Ok(())
}

fn main() -> Result<(), Refusal> {
    match std::env::args().nth(1) {
        Some(stickers) => solve(&stickers),
        None => {
            eprintln!("usage: solve STICKERS");
            Ok(())
        }
    }
}
