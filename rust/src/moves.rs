//! Moves, numbered U U2 U' D D2 D' R R2 R' L L2 L' F F2 F' B B2 B', 0 to 17, and their text.
use crate::lent::{lend, lend_answer, lend_list};
use crate::{raw, Refusal};

/// The moves of a text: words with one space between.
pub fn parse_moves(text: &str) -> Result<Vec<u8>, Refusal> {
    let room = text.len();
    // SAFETY: the pointers come with the lengths of live memory.
    lend_list(room, |out, n, k| unsafe { raw::tsunghawi_scramble_from_str(text.as_ptr(), text.len(), out, n, k) })
}

/// The text of a list of moves.
pub fn format_moves(list: &[u8]) -> Result<String, Refusal> {
    let room = 3 * list.len();
    // SAFETY: the pointers come with the lengths of live memory.
    let text =
        lend_list(room, |out, n, k| unsafe { raw::tsunghawi_scramble_to_str(list.as_ptr(), list.len(), out, n, k) });
    text.map(|bytes| bytes.into_iter().map(char::from).collect())
}

/// The move that takes m back.
pub fn get_inverse(m: u8) -> Result<u8, Refusal> {
    // SAFETY: the pointer comes with the length of live memory.
    lend(|out, n| unsafe { raw::tsunghawi_get_inverse(m, out, n) }).map(|[inverse]: [u8; 1]| inverse)
}

/// Whether the two turn opposite layers, the first of them U, R or F. The name is kewb's.
pub fn is_inverse(m: u8, other: u8) -> Result<bool, Refusal> {
    // SAFETY: the pointer comes with the length of live memory.
    lend_answer(|out, n| unsafe { raw::tsunghawi_is_inverse(m, other, out, n) })
}

/// Whether the two turn one layer.
pub fn is_same_layer(m: u8, other: u8) -> Result<bool, Refusal> {
    // SAFETY: the pointer comes with the length of live memory.
    lend_answer(|out, n| unsafe { raw::tsunghawi_is_same_layer(m, other, out, n) })
}

/// Whether `current` may follow `prev` in a search: not on the same layer, nor U after D, R after L, F after B.
pub fn is_move_available(prev: u8, current: u8) -> Result<bool, Refusal> {
    // SAFETY: the pointer comes with the length of live memory.
    lend_answer(|out, n| unsafe { raw::tsunghawi_is_move_available(prev, current, out, n) })
}
