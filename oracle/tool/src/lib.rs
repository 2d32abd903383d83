//! What the programs of the oracle share: kewb under the paper's rules, and the making of cubes and requests.
pub mod coords;
pub mod cubes;
pub mod make;
pub mod plain;
pub mod protocol;
pub mod readers;
pub mod record;
pub mod requests;
pub mod rng;
pub mod rules;
pub mod search;
pub mod tables;
pub mod text;

/// Which ALL_MOVES this build of kewb has: the text's own, or the one with F3 in its place.
pub const VARIANT: &str = if cfg!(feature = "mended") { "mended" } else { "published" };

/// The one of a name; says which there are where there is none.
pub fn named<'a, T>(all: &'a [T], name_of: fn(&T) -> &'static str, name: &str) -> &'a T {
    all.iter().find(|one| name_of(one) == name).unwrap_or_else(|| {
        let names: Vec<&str> = all.iter().map(name_of).collect();
        eprintln!("no step {name}; there are: {}", names.join(" "));
        std::process::exit(2)
    })
}
