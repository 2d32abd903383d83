//! requests STEP SEED FACTOR: the requests of a step's comparison, on standard output.
use std::io::{self, BufWriter, Write};
use tool::named;
use tool::requests::STEPS;

fn main() -> io::Result<()> {
    let args: Vec<String> = std::env::args().skip(1).collect();
    let [name, seed, factor] = args.as_slice() else { usage() };
    let (Ok(seed), Ok(factor)) = (seed.parse(), factor.parse()) else { usage() };
    let step = named(&STEPS, |s| s.name, name);
    let mut out = BufWriter::with_capacity(1 << 16, io::stdout().lock());
    let mut asked = 0;
    let different = (step.compare)(seed, factor, &mut |request| {
        asked += 1;
        writeln!(out, "{request}").expect("standard output");
    });
    eprintln!("{name}: {asked} requests, seed {seed}, {different} different random {}", step.things);
    out.flush()
}

fn usage() -> ! {
    eprintln!("requests STEP SEED FACTOR");
    std::process::exit(2)
}
