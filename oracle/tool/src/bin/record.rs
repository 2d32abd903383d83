//! record NAME SEED: a sample of kewb's answers as records, on standard output.
use tool::protocol::{handle, State};
use tool::record::RECORDS;
use tool::{named, VARIANT};

const LINES: &str = "\
# A line is one record in hex, two digits a byte: KIND, A_LEN, A.., B_LEN, B.., NUMBER, OUT_LEN, OUT..; a length is two bytes.";
const RESULT: &str = "\
# NUMBER is the refusal, 0 for none; OUT is what the lent bytes hold after the call, each ee before it.";
const COUNT: &str = "\
# The last two bytes of OUT are the count, the higher first; ee ee where refused.";
const COORDINATES: &str = "\
# A is the coordinate: 0 co, 1 eo, 2 e_combo, 3 cp, 4 ud_ep, 5 e_ep, 6 ep; 7 is none, so that no number of places fits it.
# B and OUT are its places and its number, or the other way round; a number is four bytes, the highest first.";
const SEARCHES: &str = "\
# A is the cube, B the limit and the budget, a byte and four, the highest first. OUT is two rooms of 31 bytes and the word that came back,
# eight bytes, the highest first: the count in four, the lengths of the second and the first list, 0 solved, 1 none or 2 spent, and NUMBER.";
const MISFITS: &str = "\
# Lent slices of another length than is asked for: 10, by the paper.";

fn main() {
    let args: Vec<String> = std::env::args().skip(1).collect();
    let [name, seed] = args.as_slice() else { usage() };
    let Ok(seed) = seed.parse() else { usage() };
    let record = named(&RECORDS, |r| r.name, name);
    println!("# Answers of kewb 0.4.3 ({VARIANT}) to the sample of step {name}, seed {seed}.");
    println!("# Made by: SEED={seed} oracle/record {name}");
    println!("{LINES}\n{}\n{RESULT}", record.legend());
    if record.counts() {
        println!("{COUNT}");
    }
    if record.coordinates() {
        println!("{COORDINATES}");
    }
    if record.searches() {
        println!("{SEARCHES}");
    }
    let mut state = State::default();
    (record.sample)(seed, &mut |request| {
        if request.starts_with('#') {
            return println!("{request}");
        }
        let answer = handle(&mut state, &request).expect("a request");
        println!("{}", record.line(&request, &answer).expect("a record"));
    });
    let misfits = record.misfits();
    if !misfits.is_empty() {
        println!("{MISFITS}");
        misfits.iter().for_each(|line| println!("{line}"));
    }
}

fn usage() -> ! {
    eprintln!("record NAME SEED");
    std::process::exit(2)
}
