//! The C interface, as in include/tsunghawi.h.

extern "C" {
    pub fn tsunghawi_mul(a: *const u8, a_len: usize, b: *const u8, b_len: usize, out: *mut u8, out_len: usize) -> u8;
    pub fn tsunghawi_apply_move(cube: *const u8, cube_len: usize, m: u8, out: *mut u8, out_len: usize) -> u8;
    pub fn tsunghawi_apply_moves(
        cube: *const u8,
        cube_len: usize,
        moves: *const u8,
        moves_len: usize,
        out: *mut u8,
        out_len: usize,
    ) -> u8;
    pub fn tsunghawi_is_solved(cube: *const u8, cube_len: usize, out: *mut u8, out_len: usize) -> u8;
    pub fn tsunghawi_is_solvable(cube: *const u8, cube_len: usize, out: *mut u8, out_len: usize) -> u8;
    pub fn tsunghawi_counts(cube: *const u8, cube_len: usize, out: *mut u8, out_len: usize) -> u8;
    pub fn tsunghawi_get_inverse(m: u8, out: *mut u8, out_len: usize) -> u8;
    pub fn tsunghawi_is_inverse(m: u8, other: u8, out: *mut u8, out_len: usize) -> u8;
    pub fn tsunghawi_is_same_layer(m: u8, other: u8, out: *mut u8, out_len: usize) -> u8;
    pub fn tsunghawi_is_move_available(prev: u8, current: u8, out: *mut u8, out_len: usize) -> u8;
    pub fn tsunghawi_read_plain(stickers: *const u8, stickers_len: usize, out: *mut u8, out_len: usize) -> u8;
    pub fn tsunghawi_read_strict(stickers: *const u8, stickers_len: usize, out: *mut u8, out_len: usize) -> u8;
    pub fn tsunghawi_picture(cube: *const u8, cube_len: usize, out: *mut u8, out_len: usize) -> u8;
    pub fn tsunghawi_scramble_from_str(
        text: *const u8,
        text_len: usize,
        list: *mut u8,
        list_len: usize,
        count: *mut usize,
    ) -> u8;
    pub fn tsunghawi_scramble_to_str(
        list: *const u8,
        list_len: usize,
        text: *mut u8,
        text_len: usize,
        count: *mut usize,
    ) -> u8;
    pub fn tsunghawi_judge(input: *const u8, input_len: usize, out: *mut u8, out_len: usize, count: *mut usize) -> u8;
    pub fn tsunghawi_arrangement_to_index(kind: u8, places: *const u8, places_len: usize, number: *mut u32) -> u8;
    pub fn tsunghawi_index_to_arrangement(kind: u8, number: u32, places: *mut u8, places_len: usize) -> u8;
    pub fn tsunghawi_get_move_table(t: u8, table: *mut u16, table_len: usize) -> u8;
    pub fn tsunghawi_get_move_tables(moves: *mut u16, moves_len: usize) -> u8;
    pub fn tsunghawi_get_prune_table(
        t: u8,
        first: *const u16,
        first_len: usize,
        second: *const u16,
        second_len: usize,
        table: *mut u8,
        table_len: usize,
    ) -> u8;
    pub fn tsunghawi_get_pairs_table(
        first: *const u16,
        first_len: usize,
        second: *const u16,
        second_len: usize,
        table: *mut u8,
        table_len: usize,
        rows1: usize,
        rows2: usize,
        moves: usize,
    ) -> u8;
    pub fn tsunghawi_get_prune_tables(moves: *const u16, moves_len: usize, prunes: *mut u8, prunes_len: usize) -> u8;
    pub fn tsunghawi_check_tables(moves: *const u16, moves_len: usize, prunes: *const u8, prunes_len: usize) -> u64;
    pub fn tsunghawi_solve(
        cube: *const u8,
        cube_len: usize,
        limit: u8,
        budget: u32,
        moves: *const u16,
        moves_len: usize,
        prunes: *const u8,
        prunes_len: usize,
        one: *mut u8,
        one_len: usize,
        two: *mut u8,
        two_len: usize,
    ) -> u64;
}
