//! Cubes as 40 numbers and moves as numbers, under the paper's range rules (added: kewb has no range test for twists).
use kewb::oracle::cubie::CubieCube;
use kewb::oracle::moves::{Move, Move::*};
use wire::{join, Cube};

/// Moves in the order in which kewb declares them, numbers 0 to 17. ALL_MOVES stands in another order.
pub const DECLARED: [Move; 18] = [U, U2, U3, D, D2, D3, R, R2, R3, L, L2, L3, F, F2, F3, B, B2, B3];

/// The first number out of range at a place of the 40.
pub fn top(place: usize) -> u8 {
    match place {
        0..8 => 8,
        8..16 => 3,
        16..28 => 12,
        _ => 2,
    }
}

pub fn solved() -> CubieCube {
    CubieCube::default()
}

pub fn raw(c: &CubieCube) -> Cube {
    let mut r = [0; 40];
    for i in 0..8 {
        r[i] = c.cp[i] as u8;
        r[8 + i] = c.co[i];
    }
    for i in 0..12 {
        r[16 + i] = c.ep[i] as u8;
        r[28 + i] = c.eo[i];
    }
    r
}

/// A cube whose twists and flips may be anything: refused 4 or 5 by its pieces alone.
pub fn pieces_in_range(r: &Cube) -> Result<CubieCube, u8> {
    let mut c = solved();
    for i in 0..8 {
        c.cp[i] = r[i].try_into().map_err(|_| 4)?;
        c.co[i] = r[8 + i];
    }
    for i in 0..12 {
        c.ep[i] = r[16 + i].try_into().map_err(|_| 5)?;
        c.eo[i] = r[28 + i];
    }
    Ok(c)
}

/// A cube in range, else 4, 5 or 6.
pub fn in_range(r: &Cube) -> Result<CubieCube, u8> {
    let c = pieces_in_range(r)?;
    if c.co.iter().any(|&x| x > 2) || c.eo.iter().any(|&x| x > 1) {
        return Err(6);
    }
    Ok(c)
}

/// A solvable cube, else 4, 5 or 6.
pub fn solvable_cube(r: &Cube) -> Result<CubieCube, u8> {
    let c = in_range(r)?;
    if c.is_solvable() {
        Ok(c)
    } else {
        Err(6)
    }
}

pub fn cube_text(c: &CubieCube) -> String {
    join(&raw(c))
}

/// The move of a number, else 7.
pub fn move_of(number: u8) -> Result<Move, u8> {
    DECLARED.get(number as usize).copied().ok_or(7)
}

pub fn move_list(numbers: &[u8]) -> Result<Vec<Move>, u8> {
    numbers.iter().map(|&m| move_of(m)).collect()
}

/// Moves as a LIST of their numbers.
pub fn numbers(moves: &[Move]) -> String {
    join(&moves.iter().map(|m| *m as u8).collect::<Vec<_>>())
}
