//! Random solvable cubes, the same for each run.
use kewb::oracle::cubie::CubieCube;
use kewb::oracle::moves::Move;
use kewb::oracle::utils::ALL_MOVES;

/// Random numbers by splitmix64.
struct Rng(u64);

impl Rng {
    fn below(&mut self, n: u64) -> u64 {
        self.0 = self.0.wrapping_add(0x9E37_79B9_7F4A_7C15);
        let mut z = self.0;
        z = (z ^ (z >> 30)).wrapping_mul(0xBF58_476D_1CE4_E5B9);
        z = (z ^ (z >> 27)).wrapping_mul(0x94D0_49BB_1331_11EB);
        (z ^ (z >> 31)) % n
    }
}

/// n cubes after 50 moves each.
pub fn cubes(seed: u64, n: usize) -> Vec<CubieCube> {
    let mut g = Rng(seed);
    let mut list = || -> Vec<Move> { (0..50).map(|_| ALL_MOVES[g.below(18) as usize]).collect() };
    (0..n).map(|_| CubieCube::default().apply_moves(&list())).collect()
}

/// The 40 bytes of a cube.
pub fn bytes(c: &CubieCube) -> [u8; 40] {
    let mut b = [0; 40];
    for (i, &x) in c.cp.iter().enumerate() {
        b[i] = x as u8;
    }
    b[8..16].copy_from_slice(&c.co);
    for (i, &x) in c.ep.iter().enumerate() {
        b[16 + i] = x as u8;
    }
    b[28..].copy_from_slice(&c.eo);
    b
}
