//! The product's C interface and safe calls of it. Every function gives the paper's refusal number, 0 for none.
use crate::lent::{lend, lend_bytes, lend_list, lend_moves, lend_number, lend_rooms, lend_table, lend_text, Outcome, Rooms};
use wire::Cube;

extern "C" {
    fn tsunghawi_mul(a: *const u8, a_len: usize, b: *const u8, b_len: usize, out: *mut u8, out_len: usize) -> u8;
    fn tsunghawi_apply_move(cube: *const u8, cube_len: usize, m: u8, out: *mut u8, out_len: usize) -> u8;
    fn tsunghawi_apply_moves(
        cube: *const u8,
        cube_len: usize,
        moves: *const u8,
        moves_len: usize,
        out: *mut u8,
        out_len: usize,
    ) -> u8;
    fn tsunghawi_is_solved(cube: *const u8, cube_len: usize, out: *mut u8, out_len: usize) -> u8;
    fn tsunghawi_is_solvable(cube: *const u8, cube_len: usize, out: *mut u8, out_len: usize) -> u8;
    fn tsunghawi_counts(cube: *const u8, cube_len: usize, out: *mut u8, out_len: usize) -> u8;
    fn tsunghawi_get_inverse(m: u8, out: *mut u8, out_len: usize) -> u8;
    fn tsunghawi_is_inverse(a: u8, b: u8, out: *mut u8, out_len: usize) -> u8;
    fn tsunghawi_is_same_layer(a: u8, b: u8, out: *mut u8, out_len: usize) -> u8;
    fn tsunghawi_is_move_available(prev: u8, current: u8, out: *mut u8, out_len: usize) -> u8;
    fn tsunghawi_read_plain(stickers: *const u8, stickers_len: usize, out: *mut u8, out_len: usize) -> u8;
    fn tsunghawi_read_strict(stickers: *const u8, stickers_len: usize, out: *mut u8, out_len: usize) -> u8;
    fn tsunghawi_picture(cube: *const u8, cube_len: usize, out: *mut u8, out_len: usize) -> u8;
    fn tsunghawi_scramble_from_str(t: *const u8, t_len: usize, out: *mut u8, room: usize, count: *mut usize) -> u8;
    fn tsunghawi_scramble_to_str(list: *const u8, list_len: usize, out: *mut u8, room: usize, count: *mut usize) -> u8;
    fn tsunghawi_judge(input: *const u8, input_len: usize, out: *mut u8, out_len: usize, count: *mut usize) -> u8;
    fn tsunghawi_arrangement_to_index(kind: u8, places: *const u8, places_len: usize, index: *mut u32) -> u8;
    fn tsunghawi_index_to_arrangement(kind: u8, index: u32, places: *mut u8, places_len: usize) -> u8;
    fn tsunghawi_get_move_tables(moves: *mut u16, moves_len: usize) -> u8;
    fn tsunghawi_get_prune_tables(moves: *const u16, moves_len: usize, prunes: *mut u8, prunes_len: usize) -> u8;
    fn tsunghawi_get_prune_table(
        table: u8,
        first: *const u16,
        first_len: usize,
        second: *const u16,
        second_len: usize,
        out: *mut u8,
        out_len: usize,
    ) -> u8;
    fn tsunghawi_get_pairs_table(
        first: *const u16,
        first_len: usize,
        second: *const u16,
        second_len: usize,
        out: *mut u8,
        out_len: usize,
        rows1: usize,
        rows2: usize,
        moves: usize,
    ) -> u8;
    fn tsunghawi_check_tables(moves: *const u16, moves_len: usize, prunes: *const u8, prunes_len: usize) -> u64;
    fn tsunghawi_solve(
        cube: *const u8,
        cube_len: usize,
        limit: u8,
        budget: u32,
        moves: *const u16,
        moves_len: usize,
        prunes: *const u8,
        prunes_len: usize,
        one: *mut u8,
        one_len: usize,
        two: *mut u8,
        two_len: usize,
    ) -> u64;
}

// SAFETY of every call below: pointers and lengths are those of live slices, and the lenders give memory of that length.

pub fn mul(a: &Cube, b: &Cube) -> Outcome<Cube> {
    lend(|out, n| unsafe { tsunghawi_mul(a.as_ptr(), a.len(), b.as_ptr(), b.len(), out, n) })
}

pub fn apply_move(cube: &Cube, m: u8) -> Outcome<Cube> {
    lend(|out, n| unsafe { tsunghawi_apply_move(cube.as_ptr(), cube.len(), m, out, n) })
}

pub fn apply_moves(cube: &Cube, moves: &[u8]) -> Outcome<Cube> {
    lend(|out, n| unsafe { tsunghawi_apply_moves(cube.as_ptr(), cube.len(), moves.as_ptr(), moves.len(), out, n) })
}

pub fn is_solved(cube: &Cube) -> Outcome<[u8; 1]> {
    lend(|out, n| unsafe { tsunghawi_is_solved(cube.as_ptr(), cube.len(), out, n) })
}

pub fn is_solvable(cube: &Cube) -> Outcome<[u8; 1]> {
    lend(|out, n| unsafe { tsunghawi_is_solvable(cube.as_ptr(), cube.len(), out, n) })
}

/// Corner twists, edge twists, corner swaps, edge swaps.
pub fn counts(cube: &Cube) -> Outcome<[u8; 4]> {
    lend(|out, n| unsafe { tsunghawi_counts(cube.as_ptr(), cube.len(), out, n) })
}

pub fn get_inverse(m: u8) -> Outcome<[u8; 1]> {
    lend(|out, n| unsafe { tsunghawi_get_inverse(m, out, n) })
}

pub fn is_inverse(a: u8, b: u8) -> Outcome<[u8; 1]> {
    lend(|out, n| unsafe { tsunghawi_is_inverse(a, b, out, n) })
}

pub fn is_same_layer(a: u8, b: u8) -> Outcome<[u8; 1]> {
    lend(|out, n| unsafe { tsunghawi_is_same_layer(a, b, out, n) })
}

pub fn is_move_available(prev: u8, current: u8) -> Outcome<[u8; 1]> {
    lend(|out, n| unsafe { tsunghawi_is_move_available(prev, current, out, n) })
}

pub fn read_plain(stickers: &[u8]) -> Outcome<Cube> {
    lend(|out, n| unsafe { tsunghawi_read_plain(stickers.as_ptr(), stickers.len(), out, n) })
}

pub fn read_strict(stickers: &[u8]) -> Outcome<Cube> {
    lend(|out, n| unsafe { tsunghawi_read_strict(stickers.as_ptr(), stickers.len(), out, n) })
}

pub fn picture(cube: &Cube) -> Outcome<[u8; 54]> {
    lend(|out, n| unsafe { tsunghawi_picture(cube.as_ptr(), cube.len(), out, n) })
}

/// The moves of a text, with room for so many.
pub fn scramble_from_str(text: &[u8], room: usize) -> Outcome<Vec<u8>> {
    lend_list(room, |out, n, count| unsafe { tsunghawi_scramble_from_str(text.as_ptr(), text.len(), out, n, count) })
}

/// The text of a list of moves, with room for so many bytes.
pub fn scramble_to_str(moves: &[u8], room: usize) -> Outcome<Vec<u8>> {
    lend_list(room, |out, n, count| unsafe { tsunghawi_scramble_to_str(moves.as_ptr(), moves.len(), out, n, count) })
}

/// What the program prints, a refusal too.
pub fn judge(input: &[u8]) -> Outcome<Vec<u8>> {
    lend_text(64, |out, n, count| unsafe { tsunghawi_judge(input.as_ptr(), input.len(), out, n, count) })
}

/// The number of a coordinate's array.
pub fn arrangement_to_index(kind: u8, places: &[u8]) -> Outcome<u32> {
    lend_number(|index| unsafe { tsunghawi_arrangement_to_index(kind, places.as_ptr(), places.len(), index) })
}

/// The array of a coordinate's number, of so many places.
pub fn index_to_arrangement(kind: u8, index: u32, places: usize) -> Outcome<Vec<u8>> {
    lend_bytes(places, |out, n| unsafe { tsunghawi_index_to_arrangement(kind, index, out, n) })
}

/// The block of all six move tables.
pub fn get_move_tables(length: usize) -> Outcome<(u8, Vec<u16>)> {
    lend_moves(length, |out, n| unsafe { tsunghawi_get_move_tables(out, n) })
}

/// The block of all four pruning tables.
pub fn get_prune_tables(moves: &[u16], length: usize) -> Outcome<(u8, Vec<u8>)> {
    lend_table(length, |out, n| unsafe { tsunghawi_get_prune_tables(moves.as_ptr(), moves.len(), out, n) })
}

/// Pruning table 6 to 9 over two move tables.
pub fn get_prune_table(table: u8, first: &[u16], second: &[u16], length: usize) -> Outcome<(u8, Vec<u8>)> {
    lend_table(length, |out, n| unsafe {
        tsunghawi_get_prune_table(table, first.as_ptr(), first.len(), second.as_ptr(), second.len(), out, n)
    })
}

/// The builder over two move tables of so many rows and moves.
pub fn get_pairs_table(
    first: &[u16],
    second: &[u16],
    length: usize,
    rows: [usize; 2],
    moves: usize,
) -> Outcome<(u8, Vec<u8>)> {
    let [rows1, rows2] = rows;
    lend_table(length, |out, n| unsafe {
        let (a, b) = (first.as_ptr(), second.as_ptr());
        tsunghawi_get_pairs_table(a, first.len(), b, second.len(), out, n, rows1, rows2, moves)
    })
}

/// The check of all ten tables: the number in the low byte, then the table, then the entry.
pub fn check_tables(moves: &[u16], prunes: &[u8]) -> u64 {
    unsafe { tsunghawi_check_tables(moves.as_ptr(), moves.len(), prunes.as_ptr(), prunes.len()) }
}

/// The search: the word that it returns, and the two rooms for lists after it.
pub fn solve(cube: &Cube, limit: u8, budget: u32, moves: &[u16], prunes: &[u8]) -> Option<(u64, Rooms)> {
    lend_rooms(|[one, two], n| unsafe {
        let (m, p) = (moves.as_ptr(), prunes.as_ptr());
        tsunghawi_solve(cube.as_ptr(), 40, limit, budget, m, moves.len(), p, prunes.len(), one, n, two, n)
    })
}
