//! The judge.
use crate::lent::lend_list;
use crate::{raw, Refusal};

/// Bytes for what the judge says.
pub const JUDGED: usize = 64;

/// Whether moves solve a cube: what the program `judge` prints for an input of a line of stickers and a line of moves, a refusal too.
pub fn judge(input: &[u8]) -> Result<String, Refusal> {
    // SAFETY: the pointers come with the lengths of live memory.
    let text = lend_list(JUDGED, |out, n, k| unsafe { raw::tsunghawi_judge(input.as_ptr(), input.len(), out, n, k) });
    text.map(|bytes| bytes.into_iter().map(char::from).collect())
}
