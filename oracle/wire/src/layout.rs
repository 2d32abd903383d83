//! The ten tables in the paper's order, 0 to 5 move tables, 6 to 9 pruning tables, and the sum of their entries.

/// Entries of each table, flat.
pub const LENGTHS: [u64; 10] = [39366, 36864, 8910, 403200, 403200, 240, 1082565, 1013760, 967680, 967680];

/// The two move tables that a pruning table 6 to 9 goes with.
pub const PRUNE_OF: [(usize, usize); 4] = [(0, 2), (1, 2), (3, 5), (4, 5)];

/// FNV-1a, 64 bits.
pub fn fnv(bytes: impl IntoIterator<Item = u8>) -> u64 {
    let step = |h: u64, b: u8| (h ^ b as u64).wrapping_mul(0x0000_0100_0000_01b3);
    bytes.into_iter().fold(0xcbf2_9ce4_8422_2325, step)
}

/// The answer to `sum` and `build`: how many entries, and their sum.
pub fn summed(length: usize, sum: u64) -> String {
    format!("{length} {sum:016x}")
}
