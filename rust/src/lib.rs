//! Tsunghawi from Rust: reads the 54 stickers of a puzzle cube and finds turns that solve it, by the proved library.
//!
//! What can't be taken is a [`Refusal`], which says why.
//!
//! ```
//! use tsunghawi::{format_moves, Answer, Cube, Refusal, Tables};
//!
//! fn main() -> Result<(), Refusal> {
//!     let cube = Cube::read_strict(b"UDDDUUFRFUFLURRFLLLBRLFRRLDBBRDDFBBDBRUFLULLDBBRFBDFUU")?;
//!     let tables = Tables::build()?;
//!     let Answer::Solved { phase1, phase2, entries } = tables.solve(&cube, 23, u32::MAX)? else {
//!         panic!("no turns were found");
//!     };
//!     let turns = [phase1, phase2].concat();
//!     println!("{} in {entries} entries", format_moves(&turns)?);
//!     assert!(cube.apply_moves(&turns)?.is_solved()?);
//!     Ok(())
//! }
//! ```
mod coordinate;
mod cube;
mod judge;
mod lent;
mod moves;
mod raw;
mod refusal;
mod search;
mod tables;

pub use coordinate::{arrangement, index, Kind};
pub use cube::{Counts, Cube, CUBE, STICKERS};
pub use judge::{judge, JUDGED};
pub use moves::{format_moves, get_inverse, is_inverse, is_move_available, is_same_layer, parse_moves};
pub use refusal::Refusal;
pub use search::{Answer, LIST};
pub use tables::{move_table, pairs_table, prune_table, Tables, MOVES, PRUNES};
