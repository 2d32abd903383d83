//! The line protocol over kewb: one request line, one answer line.
mod cubie;
mod state;
mod strings;
mod tables;
mod turns;

pub use state::State;
use wire::Args;

/// The answer, or None where the line is no request.
pub fn handle(state: &mut State, line: &str) -> Option<String> {
    let (name, rest) = line.split_once(' ').unwrap_or((line, ""));
    let args = &Args::of(rest);
    match name {
        "variant" => Some(turns::variant()),
        "read" => strings::read(args),
        "strict" => strings::strict(args),
        "picture" => strings::picture(args),
        "text" => strings::text(args),
        "parse" => strings::parse(args),
        "rawparse" => strings::rawparse(args),
        "program" => strings::program(args),
        "solvable" => cubie::solvable(args),
        "rawsolvable" => cubie::rawsolvable(args),
        "solved" => cubie::solved(args),
        "counts" => cubie::counts(args),
        "mul" => cubie::mul(args),
        "move" => cubie::one_move(args),
        "moves" => cubie::moves(args),
        "coords" => cubie::coords(args),
        "index" => cubie::index(args),
        "arrange" => cubie::arrange(args),
        "inverse" => turns::inverse(args),
        "isinverse" => turns::of_two(args, |a, b| a.is_inverse(b)),
        "samelayer" => turns::of_two(args, |a, b| a.is_same_layer(b)),
        "available" => turns::of_two(args, kewb::oracle::moves::is_move_available),
        "solve" | "crate" | "nocut" | "plain" => tables::search(state, name, args),
        "entry" => tables::entry(state, args),
        "sum" => tables::sum(state, args),
        "check" => Some(tables::check(state)),
        "poke" => tables::poke(state, args),
        "mend" => Some(tables::mend(state)),
        "build" => tables::build(state, args),
        "pairs" => tables::pairs(args),
        _ => None,
    }
}
