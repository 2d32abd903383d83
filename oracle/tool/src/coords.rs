//! The seven coordinates: kewb's numbers, with the paper's domains (added).
use crate::cubes::{in_range, raw, solved};
use kewb::index::*;
use kewb::oracle::cubie::CubieCube;
use std::ops::Range;
use wire::Cube;
use Kind::*;

#[derive(Clone, Copy, PartialEq, Eq, Hash)]
pub enum Kind {
    Co,
    Eo,
    ECombo,
    Cp,
    UdEp,
    EEp,
    Ep,
}

/// In the order of the answers; the first six are also the move tables 0 to 5.
pub const KINDS: [Kind; 7] = [Co, Eo, ECombo, Cp, UdEp, EEp, Ep];
const NAMES: [&str; 7] = ["co", "eo", "e_combo", "cp", "ud_ep", "e_ep", "ep"];
const COUNTS: [u64; 7] = [2187, 2048, 495, 40320, 40320, 24, 479001600];

impl Kind {
    pub fn named(name: &str) -> Option<Kind> {
        KINDS.into_iter().find(|k| k.name() == name)
    }

    pub fn name(self) -> &'static str {
        NAMES[self as usize]
    }

    pub fn count(self) -> u64 {
        COUNTS[self as usize]
    }

    /// Where the coordinate's array stands among the 40 numbers of a cube.
    pub fn places(self) -> Range<usize> {
        match self {
            Cp => 0..8,
            Co => 8..16,
            Eo => 28..40,
            _ => 16..28,
        }
    }

    pub fn part(self, r: &Cube) -> &[u8] {
        &r[self.places()]
    }
}

fn repeats(a: &[u8]) -> bool {
    (0..a.len()).any(|i| a[i + 1..].contains(&a[i]))
}

/// kewb's number of the cube's own array.
pub fn number_of(kind: Kind, c: &CubieCube) -> u64 {
    match kind {
        Co => co_to_index(&c.co).into(),
        Eo => eo_to_index(&c.eo).into(),
        ECombo => e_combo_to_index(&c.ep).into(),
        Cp => cp_to_index(&c.cp).into(),
        UdEp => ud_ep_to_index(&c.ep).into(),
        EEp => e_ep_to_index(&c.ep).into(),
        Ep => ep_to_index(&c.ep).into(),
    }
}

/// The solved cube with kewb's array of a number put in.
pub fn cube_of(kind: Kind, n: u64) -> CubieCube {
    let mut c = solved();
    match kind {
        Co => c.co = index_to_co(n as u16),
        Eo => c.eo = index_to_eo(n as u16),
        ECombo => c.ep = index_to_e_combo(n as u16),
        Cp => c.cp = index_to_cp(n as u16),
        UdEp => c.ep = index_to_ud_ep(n as u16),
        EEp => c.ep = index_to_e_ep(n as u16),
        Ep => c.ep = index_to_ep(n as u32),
    }
    c
}

/// Array to number; 4, 5 or 6 outside the domain.
pub fn index(kind: Kind, a: &[u8]) -> Result<u64, u8> {
    let mut r = raw(&solved());
    r[kind.places()].copy_from_slice(a);
    let c = in_range(&r)?;
    let outside = match kind {
        Co | Eo => false,
        Cp | Ep => repeats(a),
        UdEp => repeats(&a[4..]),
        EEp => repeats(&a[..4]),
        ECombo => a.iter().filter(|&&x| x < 4).count() != 4,
    };
    if outside {
        return Err(6);
    }
    Ok(number_of(kind, &c))
}

/// Number to array; 8 where it is not below the count.
pub fn arrange(kind: Kind, n: u64) -> Result<Vec<u8>, u8> {
    if n >= kind.count() {
        return Err(8);
    }
    Ok(kind.part(&raw(&cube_of(kind, n))).to_vec())
}
