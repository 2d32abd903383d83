//! findings: what kewb does where it differs from the paper, measured on this variant.
mod inside;
mod outside;
mod short;
mod tables;

use tool::search::Answer;
use tool::text::list_text;

const USAGE: &str = "\
findings tables              sums, table check, and the cut against the distance to 0,0
findings short DEPTH LIMIT   every cube within DEPTH moves, limits 0 to LIMIT: the search against one that cuts nothing
findings outside             what kewb does outside the paper's domain
findings inside SEED         that nothing in the paper's domain panics, and that kewb agrees with itself";

fn main() {
    let args: Vec<String> = std::env::args().skip(1).collect();
    let words: Vec<&str> = args.iter().map(String::as_str).collect();
    let number = |x: &str| x.parse::<u64>().unwrap_or_else(|_| usage());
    match words.as_slice() {
        ["tables"] => tables::tables(),
        ["short", depth, limit] => short::short(number(depth), number(limit) as u8),
        ["outside"] => outside::outside(),
        ["inside", seed] => inside::inside(number(seed)),
        _ => usage(),
    }
}

fn usage() -> ! {
    eprintln!("{USAGE}");
    std::process::exit(2)
}

/// A search's answer for a reader.
pub fn show(answer: &Answer) -> String {
    match answer {
        Answer::Solved(p, q) => format!("[{}] + [{}]", list_text(p), list_text(q)),
        Answer::Nothing => "none".to_string(),
        Answer::Spent => "spent".to_string(),
    }
}
