//! bench [ROUNDS]: the product beside kewb, from one program in one run, round after round in turn.
//! Exit status 1 where a bar is missed.
mod clock;
mod cubes;
mod product;
mod program;
mod search;
mod tables;

use clock::{spread, Spread};
use std::process::ExitCode;

/// A row of the table: what was measured and in what, kewb's times and the product's, and the greatest share that is allowed.
pub struct Row {
    pub what: &'static str,
    pub kewb: Spread,
    pub product: Spread,
    pub bar: f64,
}

impl Row {
    fn share(&self) -> f64 {
        self.product.median / self.kewb.median
    }

    fn print(&self) {
        let text = |s: &Spread| format!("{:.1} ({:.1} .. {:.1})", s.median, s.least, s.most);
        let (kewb, product) = (text(&self.kewb), text(&self.product));
        println!("{:42} {kewb:>24} {product:>24} {:>7.2} {:>6.2}", self.what, self.share(), self.bar);
    }
}

/// How long something takes that a person waits for, the longest that is allowed for the median, and how many times were longer.
pub struct Wait {
    what: &'static str,
    times: Spread,
    bar: f64,
    above: usize,
}

impl Wait {
    pub fn new(what: &'static str, times: Vec<f64>, bar: f64) -> Wait {
        let above = times.iter().filter(|&&time| time > bar).count();
        Wait { what, times: spread(times), bar, above }
    }

    fn print(&self) {
        let Spread { least, median, most } = self.times;
        let times = format!("{median:.1} ({least:.1} .. {most:.1})");
        println!("{:42} {:>24} {times:>24} {:>7} {:>6.0}, above it {}", self.what, "", "", self.bar, self.above);
    }
}

fn main() -> ExitCode {
    let rounds = match std::env::args().nth(1).map(|n| n.parse()) {
        None => 5,
        Some(Ok(n)) if n > 0 => n,
        Some(_) => {
            eprintln!("bench [ROUNDS]");
            return ExitCode::from(2);
        }
    };
    println!("processor time, median (least .. most) of {rounds} rounds, kewb and the product in turn");
    println!("{:42} {:>24} {:>24} {:>7} {:>6}", "", "kewb", "product", "share", "bar");
    let rows: Vec<Row> = [tables::measure, search::measure].into_iter().flat_map(|measure| measure(rounds)).collect();
    let waits = program::measure(rounds);
    rows.iter().for_each(Row::print);
    waits.iter().for_each(Wait::print);
    let missed = rows.iter().any(|row| row.share() > row.bar) || waits.iter().any(|wait| wait.times.median > wait.bar);
    ExitCode::from(u8::from(missed))
}
