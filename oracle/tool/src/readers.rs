//! Sticker strings: kewb's plain reader and picture; the strict reader's last comparison is the paper's.
use crate::cubes::solved;
use kewb::error::Error;
use kewb::oracle::cubie::CubieCube;
use kewb::FaceCube;

/// The paper's number of a kewb error.
pub fn number(e: Error) -> u8 {
    match e {
        Error::InvalidFaceletString => 1,
        Error::InvalidColor => 2,
        Error::InvalidFaceletValue => 3,
        Error::InvalidCorner => 4,
        Error::InvalidEdge => 5,
        Error::InvalidCubieValue => 6,
        Error::InvalidScramble => 7,
    }
}

/// The 54 letters of a solvable cube.
pub fn picture(c: &CubieCube) -> String {
    FaceCube::try_from(c).unwrap().to_string()
}

pub fn solved_picture() -> Vec<u8> {
    picture(&solved()).into_bytes()
}

pub fn read_plain(b: &[u8]) -> Result<CubieCube, u8> {
    if b.len() != 54 {
        return Err(1);
    }
    // bytes that are no UTF-8 can't be given to kewb: one of them is outside U R F D L B
    let s = std::str::from_utf8(b).map_err(|_| 2u8)?;
    let f = FaceCube::try_from(s).map_err(number)?;
    CubieCube::try_from(&f).map_err(number)
}

pub fn read_strict(b: &[u8]) -> Result<CubieCube, u8> {
    let c = read_plain(b)?;
    if picture(&c).as_bytes() == b {
        Ok(c)
    } else {
        Err(15)
    }
}
