//! Arrays of the coordinates: inside their domains, and outside in every way that the paper tells apart.
use super::{bad_number, shuffle, two_places};
use crate::coords::Kind::{self, *};
use crate::cubes::top;
use crate::rng::Rng;
use std::ops::Range;

/// The places of the array that the coordinate is about; any piece may stand at the others.
fn own(kind: Kind) -> Range<usize> {
    match kind {
        UdEp => 4..12,
        EEp => 0..4,
        _ => 0..kind.places().len(),
    }
}

/// Any number in range at each place.
pub fn loose(g: &mut Rng, kind: Kind) -> Vec<u8> {
    kind.places().map(|place| g.below(top(place) as u64) as u8).collect()
}

/// Any edges, below 4 at the places of the bits set in a choice and only there.
pub fn chosen(g: &mut Rng, choice: u64) -> Vec<u8> {
    let edge = |place: u64| if choice >> place & 1 == 1 { g.below(4) } else { 4 + g.below(8) };
    (0..12).map(edge).map(|n| n as u8).collect()
}

/// In the domain.
pub fn inside(g: &mut Rng, kind: Kind) -> Vec<u8> {
    let mut a = loose(g, kind);
    match kind {
        Co | Eo => {}
        ECombo => {
            let choice = shuffle(g, 12)[..4].iter().map(|place| 1 << place).sum();
            a = chosen(g, choice);
        }
        _ => own(kind).zip(shuffle(g, a.len())).for_each(|(place, piece)| a[place] = piece),
    }
    a
}

/// In range, and outside the domain by one place: a piece repeated in the coordinate's own places, or three or five
/// edges below 4. co and eo have none such.
pub fn outside(g: &mut Rng, kind: Kind) -> Vec<u8> {
    let mut a = inside(g, kind);
    let part = &mut a[own(kind)];
    let (i, j) = two_places(g, part.len());
    part[i] = match kind {
        ECombo if part[i] < 4 => 4 + g.below(8) as u8,
        ECombo => g.below(4) as u8,
        _ => part[j],
    };
    a
}

/// Each edge once but for one that is repeated at a place that isn't the coordinate's own: in the domain.
pub fn repeated_elsewhere(g: &mut Rng, kind: Kind) -> Vec<u8> {
    let mut a = shuffle(g, 12);
    let others: Vec<usize> = (0..12).filter(|place| !own(kind).contains(place)).collect();
    let i = g.pick(&others);
    a[i] = a[(i + 1 + g.place(11)) % 12];
    a
}

/// Out of range at one place, at some or at all.
pub fn out_of_range(g: &mut Rng, kind: Kind) -> Vec<u8> {
    let mut a = if g.once_in(2) { inside(g, kind) } else { loose(g, kind) };
    let n = 1 + g.place(a.len());
    for &place in &shuffle(g, a.len())[..n] {
        a[place as usize] = bad_number(g, kind.places().start + place as usize);
    }
    a
}
