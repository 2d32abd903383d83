//! compare REQUESTS WANTED GIVEN: three files, line by line. Prints a table by kind of request, then the first request of
//! each kind whose answers differ. Exit status 1 if any differ.
use std::fs::File;
use std::io::{self, BufRead, BufReader, Lines};
use std::process::ExitCode;

/// What stands for an answer where a file has ended.
const MISSING: &str = "(no answer)";

#[derive(Default)]
struct Tally {
    name: String,
    requests: usize,
    agree: usize,
    later: usize,
    differ: usize,
    /// request, wanted, given
    first: Option<[String; 3]>,
}

impl Tally {
    fn add(&mut self, request: &str, wanted: String, given: String) {
        self.requests += 1;
        if given == wanted {
            self.agree += 1;
        } else if given == "later" {
            self.later += 1;
        } else {
            self.differ += 1;
            self.first.get_or_insert_with(|| [request.to_string(), wanted, given]);
        }
    }

    fn row(&self) -> String {
        let Tally { name, requests, agree, differ, later, .. } = self;
        format!("{name:12} {requests:>9} {agree:>9} {differ:>9} {later:>9}")
    }
}

fn open(path: &str) -> io::Result<Lines<BufReader<File>>> {
    Ok(BufReader::with_capacity(1 << 16, File::open(path)?).lines())
}

fn tallies(paths: &[String; 3]) -> io::Result<Vec<Tally>> {
    let [requests, mut wanted, mut given] = [open(&paths[0])?, open(&paths[1])?, open(&paths[2])?];
    let mut found: Vec<Tally> = vec![];
    for request in requests {
        let request = request?;
        let next = |lines: &mut Lines<_>| lines.next().unwrap_or_else(|| Ok(MISSING.to_string()));
        let (wanted, given) = (next(&mut wanted)?, next(&mut given)?);
        let name = request.split(' ').next().unwrap_or_default();
        let at = found.iter().position(|t| t.name == name).unwrap_or_else(|| {
            found.push(Tally { name: name.to_string(), ..Tally::default() });
            found.len() - 1
        });
        found[at].add(&request, wanted, given);
    }
    match (wanted.next(), given.next()) {
        (None, None) => Ok(found),
        _ => Err(io::Error::other("more answers than requests")),
    }
}

fn report(found: &[Tally]) -> usize {
    let sum = |of: fn(&Tally) -> usize| found.iter().map(of).sum::<usize>();
    let all = Tally {
        name: "all".to_string(),
        requests: sum(|t| t.requests),
        agree: sum(|t| t.agree),
        later: sum(|t| t.later),
        differ: sum(|t| t.differ),
        first: None,
    };
    println!("{:12} {:>9} {:>9} {:>9} {:>9}", "request", "requests", "agree", "differ", "later");
    found.iter().chain([&all]).for_each(|t| println!("{}", t.row()));
    for [request, wanted, given] in found.iter().filter_map(|t| t.first.as_ref()) {
        println!("differs: {request}\n    wanted {wanted}\n    given  {given}");
    }
    all.differ
}

fn main() -> ExitCode {
    let args: Vec<String> = std::env::args().skip(1).collect();
    let Ok(paths) = <[String; 3]>::try_from(args) else {
        eprintln!("compare REQUESTS WANTED GIVEN");
        return ExitCode::from(2);
    };
    match tallies(&paths) {
        Ok(found) if report(&found) == 0 => ExitCode::SUCCESS,
        Ok(_) => ExitCode::from(1),
        Err(e) => {
            eprintln!("compare: {e}");
            ExitCode::from(2)
        }
    }
}
