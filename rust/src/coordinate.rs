//! The seven coordinates, both ways.
use crate::{raw, Cube, Refusal};

#[derive(Clone, Copy, PartialEq, Eq, Hash, Debug)]
pub enum Kind {
    Co,
    Eo,
    ECombo,
    Cp,
    UdEp,
    EEp,
    Ep,
}

impl Kind {
    fn number(self) -> u8 {
        self as u8
    }

    /// How many places an arrangement has.
    pub fn places(self) -> usize {
        match self {
            Kind::Co | Kind::Cp => 8,
            _ => 12,
        }
    }

    /// Where in a cube its arrangement stands.
    fn start(self) -> usize {
        match self {
            Kind::Cp => 0,
            Kind::Co => 8,
            Kind::Eo => 28,
            _ => 16,
        }
    }
}

/// The number of an arrangement.
pub fn index(kind: Kind, places: &[u8]) -> Result<u32, Refusal> {
    let mut number = 0;
    // SAFETY: the pointer comes with the length of live memory, and the number is a live one.
    let refusal =
        unsafe { raw::tsunghawi_arrangement_to_index(kind.number(), places.as_ptr(), places.len(), &mut number) };
    Refusal::of(refusal.into()).map(|()| number)
}

/// The arrangement of a number.
pub fn arrangement(kind: Kind, number: u32) -> Result<Vec<u8>, Refusal> {
    let mut places = vec![0; kind.places()];
    // SAFETY: the pointer comes with the length of live memory.
    let refusal =
        unsafe { raw::tsunghawi_index_to_arrangement(kind.number(), number, places.as_mut_ptr(), places.len()) };
    Refusal::of(refusal.into()).map(|()| places)
}

impl Cube {
    /// A coordinate of this cube.
    pub fn coordinate(&self, kind: Kind) -> Result<u32, Refusal> {
        index(kind, &self.as_bytes()[kind.start()..][..kind.places()])
    }
}
