//! Which requests the product answers today.
use crate::{coords, cubie, solve, stickers, tables, text};
use wire::{Args, NAMES};

/// A request's name, the C function that it needs, and the answer to its fields, None where they don't fit.
type Request = (&'static str, &'static str, fn(&Args) -> Option<String>);

/// A request that the product offers is one line here and one function.
const OFFERED: [Request; 29] = [
    ("solvable", "tsunghawi_is_solvable", cubie::solvable),
    ("solved", "tsunghawi_is_solved", cubie::solved),
    ("counts", "tsunghawi_counts", cubie::counts),
    ("mul", "tsunghawi_mul", cubie::mul),
    ("move", "tsunghawi_apply_move", cubie::one_move),
    ("moves", "tsunghawi_apply_moves", cubie::moves),
    ("inverse", "tsunghawi_get_inverse", cubie::inverse),
    ("isinverse", "tsunghawi_is_inverse", cubie::isinverse),
    ("samelayer", "tsunghawi_is_same_layer", cubie::samelayer),
    ("available", "tsunghawi_is_move_available", cubie::available),
    ("read", "tsunghawi_read_plain", stickers::read),
    ("strict", "tsunghawi_read_strict", stickers::strict),
    ("picture", "tsunghawi_picture", stickers::picture),
    ("parse", "tsunghawi_scramble_from_str", text::parse),
    ("text", "tsunghawi_scramble_to_str", text::text),
    ("program", "tsunghawi_judge", text::program),
    ("coords", "tsunghawi_arrangement_to_index", coords::coords),
    ("index", "tsunghawi_arrangement_to_index", coords::index),
    ("arrange", "tsunghawi_index_to_arrangement", coords::arrange),
    ("entry", "tsunghawi_get_prune_tables", tables::entry),
    ("sum", "tsunghawi_get_prune_tables", tables::sum),
    ("check", "tsunghawi_check_tables", tables::check),
    ("poke", "tsunghawi_get_prune_tables", tables::poke),
    ("mend", "tsunghawi_get_prune_tables", tables::mend),
    ("build", "tsunghawi_get_prune_table", tables::build),
    ("pairs", "tsunghawi_get_pairs_table", tables::pairs),
    ("solve", "tsunghawi_solve", solve::solve),
    ("nocut", "tsunghawi_solve", solve::plain),
    ("plain", "tsunghawi_solve", solve::plain),
];

/// Whether the library that was linked has a function.
fn linked(function: &str) -> bool {
    !env!("LACKING").split(' ').any(|lacking| lacking == function)
}

/// The answer, `later` where the product doesn't offer the request yet, None where the line is no request.
pub fn handle(line: &str) -> Option<String> {
    let (name, rest) = line.split_once(' ').unwrap_or((line, ""));
    match OFFERED.iter().find(|(offered, function, _)| *offered == name && linked(function)) {
        Some((_, _, answer)) => answer(&Args::of(rest)),
        None => NAMES.contains(&name).then(|| "later".to_string()),
    }
}
