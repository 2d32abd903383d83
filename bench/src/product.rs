//! The product's tables and search through its C interface.
extern "C" {
    fn tsunghawi_get_move_tables(moves: *mut u16, moves_len: usize) -> u8;
    fn tsunghawi_get_prune_tables(moves: *const u16, moves_len: usize, prunes: *mut u8, prunes_len: usize) -> u8;
    fn tsunghawi_check_tables(moves: *const u16, moves_len: usize, prunes: *const u8, prunes_len: usize) -> u64;
    fn tsunghawi_solve(
        cube: *const u8,
        cube_len: usize,
        limit: u8,
        budget: u32,
        moves: *const u16,
        moves_len: usize,
        prunes: *const u8,
        prunes_len: usize,
        one: *mut u8,
        one_len: usize,
        two: *mut u8,
        two_len: usize,
    ) -> u64;
}

/// The two blocks of the ten tables.
pub struct Tables {
    pub moves: Vec<u16>,
    pub prunes: Vec<u8>,
}

impl Tables {
    /// Memory for them, so that no build has to ask for it.
    pub fn room() -> Self {
        Tables { moves: vec![0; 891_780], prunes: vec![0; 4_031_685] }
    }

    // SAFETY of the calls: pointers and lengths are those of live vectors.

    /// Builds all ten; a refusal ends the run.
    pub fn build(&mut self) {
        let (moves, prunes) = (&mut self.moves, &mut self.prunes);
        let first = unsafe { tsunghawi_get_move_tables(moves.as_mut_ptr(), moves.len()) };
        assert_eq!(first, 0, "the move tables are refused");
        let second = unsafe {
            tsunghawi_get_prune_tables(moves.as_ptr(), moves.len(), prunes.as_mut_ptr(), prunes.len())
        };
        assert_eq!(second, 0, "the pruning tables are refused");
    }

    /// Checks all ten; a refusal ends the run.
    pub fn check(&self) {
        let (moves, prunes) = (&self.moves, &self.prunes);
        let said =
            unsafe { tsunghawi_check_tables(moves.as_ptr(), moves.len(), prunes.as_ptr(), prunes.len()) };
        assert_eq!(said, 0, "the check refuses the tables");
    }

    /// The entries made and the two lists, if a cube is solved within the largest budget.
    pub fn solve(&self, cube: &[u8; 40], limit: u8) -> Option<(u64, [Vec<u8>; 2])> {
        let ((moves, prunes), mut rooms) = ((&self.moves, &self.prunes), [[0u8; 31]; 2]);
        let [one, two] = &mut rooms;
        let word = unsafe {
            let (m, p) = (moves.as_ptr(), prunes.as_ptr());
            let (a, b) = (one.as_mut_ptr(), two.as_mut_ptr());
            tsunghawi_solve(cube.as_ptr(), 40, limit, u32::MAX, m, moves.len(), p, prunes.len(), a, 31, b, 31)
        };
        let length = |at: u32| (word >> at & 0xFF) as usize;
        let lists = [one[..length(16)].to_vec(), two[..length(24)].to_vec()];
        (word & 0xFFFF == 0).then_some((word >> 32, lists))
    }
}
