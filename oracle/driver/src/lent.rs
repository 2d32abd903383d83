//! Memory lent to a call, filled before it and looked at after it.

/// What a call gave.
pub enum Outcome<T> {
    Done(T),
    Refused(u8),
    /// It wrote beside what was lent or after its list, or wrote and refused.
    Changed,
}

/// What lent memory holds before a call.
const UNTOUCHED: u8 = 0xEE;
const UNCOUNTED: usize = 0xEEEE;
const UNNUMBERED: u32 = 0xEEEE_EEEE;

/// How many more bytes, before and after what is lent, no call may touch.
const SIDE: usize = 16;

/// The refusal of a builder that can't reach every pair: the one that writes.
pub const UNREACHED: u8 = 14;

/// Lends n entries to a call, which gives its number, and looks at all of them afterwards; 14 comes with what was written.
fn lend_entries<T: Copy + PartialEq>(
    n: usize,
    blank: T,
    call: impl FnOnce(*mut T, usize) -> u8,
) -> Outcome<(u8, Vec<T>)> {
    let mut room = vec![blank; SIDE + n + SIDE];
    let number = call(room.as_mut_ptr().wrapping_add(SIDE), n);
    let untouched = |part: &[T]| part.iter().all(|&b| b == blank);
    let (before, rest) = room.split_at(SIDE);
    let (lent, after) = rest.split_at(n);
    match number {
        _ if !untouched(before) || !untouched(after) => Outcome::Changed,
        0 | UNREACHED => Outcome::Done((number, lent.to_vec())),
        _ if !untouched(lent) => Outcome::Changed,
        refusal => Outcome::Refused(refusal),
    }
}

/// Lends a pruning table of n entries to a builder: 0 or 14, and the table.
pub fn lend_table(n: usize, call: impl FnOnce(*mut u8, usize) -> u8) -> Outcome<(u8, Vec<u8>)> {
    lend_entries(n, UNTOUCHED, call)
}

/// Lends the move tables of n entries to a builder.
pub fn lend_moves(n: usize, call: impl FnOnce(*mut u16, usize) -> u8) -> Outcome<(u8, Vec<u16>)> {
    lend_entries(n, u16::from_le_bytes([UNTOUCHED; 2]), call)
}

/// Lends n bytes to a call and looks at all of them afterwards.
pub fn lend_bytes(n: usize, call: impl FnOnce(*mut u8, usize) -> u8) -> Outcome<Vec<u8>> {
    match lend_entries(n, UNTOUCHED, call) {
        Outcome::Done((0, lent)) => Outcome::Done(lent),
        Outcome::Done(_) | Outcome::Changed => Outcome::Changed,
        Outcome::Refused(number) => Outcome::Refused(number),
    }
}

/// Lends N bytes, all of which are the answer.
pub fn lend<const N: usize>(call: impl FnOnce(*mut u8, usize) -> u8) -> Outcome<[u8; N]> {
    match lend_bytes(N, call) {
        Outcome::Done(lent) => Outcome::Done(lent.try_into().expect("as many as were lent")),
        Outcome::Refused(number) => Outcome::Refused(number),
        Outcome::Changed => Outcome::Changed,
    }
}

/// Lends a number, which is the answer, between two more.
pub fn lend_number(call: impl FnOnce(*mut u32) -> u8) -> Outcome<u32> {
    let mut numbers = [UNNUMBERED; 3];
    let number = call(numbers.as_mut_ptr().wrapping_add(1));
    let [before, lent, after] = numbers;
    match number {
        _ if before != UNNUMBERED || after != UNNUMBERED => Outcome::Changed,
        0 => Outcome::Done(lent),
        _ if lent != UNNUMBERED => Outcome::Changed,
        refusal => Outcome::Refused(refusal),
    }
}

/// Lends n bytes and a count, which says how many of them are the answer; those after must be as they were.
pub fn lend_list(n: usize, call: impl FnOnce(*mut u8, usize, *mut usize) -> u8) -> Outcome<Vec<u8>> {
    lend_part(n, UNTOUCHED, call)
}

/// The same for a text in a room of fixed size; those after must be 0.
pub fn lend_text(n: usize, call: impl FnOnce(*mut u8, usize, *mut usize) -> u8) -> Outcome<Vec<u8>> {
    lend_part(n, 0, call)
}

fn lend_part(n: usize, rest: u8, call: impl FnOnce(*mut u8, usize, *mut usize) -> u8) -> Outcome<Vec<u8>> {
    let mut counts = [UNCOUNTED; 3];
    let count = counts.as_mut_ptr().wrapping_add(1);
    let outcome = lend_bytes(n, |out, n| call(out, n, count));
    let [before, count, after] = counts;
    match outcome {
        _ if before != UNCOUNTED || after != UNCOUNTED => Outcome::Changed,
        Outcome::Done(lent) if count > n || lent[count..].iter().any(|&b| b != rest) => Outcome::Changed,
        Outcome::Done(lent) => Outcome::Done(lent[..count].to_vec()),
        Outcome::Refused(_) if count != UNCOUNTED => Outcome::Changed,
        other => other,
    }
}

/// Two rooms for lists of moves; None where nothing was written.
pub type Rooms = [Option<Vec<u8>>; 2];

/// Lends two rooms of 31 bytes; None where the call wrote beside them.
pub fn lend_rooms(call: impl FnOnce([*mut u8; 2], usize) -> u64) -> Option<(u64, Rooms)> {
    const N: usize = 31;
    let mut rooms = [[UNTOUCHED; SIDE + N + SIDE]; 2];
    let [one, two] = &mut rooms;
    let word = call([one.as_mut_ptr().wrapping_add(SIDE), two.as_mut_ptr().wrapping_add(SIDE)], N);
    let untouched = |part: &[u8]| part.iter().all(|&b| b == UNTOUCHED);
    let beside = |room: &[u8]| untouched(&room[..SIDE]) && untouched(&room[SIDE + N..]);
    let written = |room: [u8; SIDE + N + SIDE]| Some(room[SIDE..SIDE + N].to_vec()).filter(|lent| !untouched(lent));
    rooms.iter().all(|room| beside(room)).then(|| (word, rooms.map(written)))
}
