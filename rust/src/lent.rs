//! Memory lent to a call, which gives a refusal's number.
use crate::Refusal;

/// Lends N bytes, all of which are the answer.
pub fn lend<const N: usize>(call: impl FnOnce(*mut u8, usize) -> u8) -> Result<[u8; N], Refusal> {
    let mut room = [0; N];
    let number = call(room.as_mut_ptr(), N);
    Refusal::of(number.into()).map(|()| room)
}

/// Lends a byte, 1 for yes.
pub fn lend_answer(call: impl FnOnce(*mut u8, usize) -> u8) -> Result<bool, Refusal> {
    lend(call).map(|[yes]: [u8; 1]| yes == 1)
}

/// Lends n bytes and a count, which says how many of them are the answer.
pub fn lend_list(n: usize, call: impl FnOnce(*mut u8, usize, *mut usize) -> u8) -> Result<Vec<u8>, Refusal> {
    let mut room = vec![0; n];
    let mut count = 0;
    let number = call(room.as_mut_ptr(), n, &mut count);
    Refusal::of(number.into())?;
    room.truncate(count);
    Ok(room)
}
