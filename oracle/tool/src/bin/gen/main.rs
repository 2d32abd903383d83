//! gen SEED DIR: test vectors, files of `REQUEST<TAB>ANSWER` lines. The same seed gives the same files.
mod coords;
mod cubes;
mod readers;
mod solves;
mod tables;
mod texts;
mod untrue;

use std::fmt::Write;
use tool::protocol::{handle, State};
use tool::rng::Rng;

/// One file in the making.
pub struct Out<'a> {
    state: &'a mut State,
    text: String,
}

impl Out<'_> {
    /// Asks kewb and keeps both; gives the answer.
    pub fn ask(&mut self, request: String) -> String {
        let answer = handle(self.state, &request).unwrap_or_else(|| panic!("not a request: {request}"));
        writeln!(self.text, "{request}\t{answer}").unwrap();
        answer
    }
}

type File = (&'static str, fn(&mut Out, &mut Rng));

const FILES: [File; 14] = [
    ("readers", readers::readers),
    ("pictures", cubes::pictures),
    ("solvable", cubes::solvable),
    ("moves", cubes::moves),
    ("coords", coords::coords),
    ("texts", texts::texts),
    ("programs", texts::programs),
    ("tables", tables::tables),
    ("solves-short", solves::short),
    ("solves-phase2", solves::phase2),
    ("solves-random", solves::random),
    ("solves-long", solves::long),
    ("plain", solves::plain),
    ("untrue", untrue::untrue),
];

fn main() -> std::io::Result<()> {
    let args: Vec<String> = std::env::args().skip(1).collect();
    let (Some(Ok(seed)), Some(dir)) = (args.first().map(|x| x.parse()), args.get(1)) else {
        eprintln!("gen SEED DIR");
        std::process::exit(2);
    };
    std::fs::create_dir_all(dir)?;
    let mut state = State::default();
    for (part, (name, fill)) in FILES.iter().enumerate() {
        let mut out = Out { state: &mut state, text: String::new() };
        fill(&mut out, &mut Rng::stream(seed, part as u64));
        std::fs::write(format!("{dir}/{name}.txt"), &out.text)?;
        eprintln!("{name:16} {:6} requests", out.text.lines().count());
    }
    Ok(())
}
