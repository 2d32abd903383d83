//! Step "tables": the ten tables as the product builds them, their check, and the builder of a pruning table.
use crate::ffi;
use crate::lent::{Outcome, UNREACHED};
use std::cell::RefCell;
use std::ops::Range;
use wire::{answer, fnv, join, summed, Args, LENGTHS, PRUNE_OF};

/// The two blocks, and what was changed in them.
pub struct Tables {
    pub moves: Vec<u16>,
    pub prunes: Vec<u8>,
    /// what stood at a place before each change, undone from the last to the first
    changed: Vec<(usize, usize, u32)>,
}

/// Where a table stands in its block.
fn part(t: usize) -> Range<usize> {
    let from = if t < 6 { 0 } else { 6 };
    let start = LENGTHS[from..t].iter().sum::<u64>() as usize;
    start..start + LENGTHS[t] as usize
}

impl Tables {
    fn built() -> Self {
        let (moves, prunes) = (part(5).end, part(9).end);
        let Outcome::Done((0, moves)) = ffi::get_move_tables(moves) else { panic!("the move tables aren't built") };
        let Outcome::Done((0, prunes)) = ffi::get_prune_tables(&moves, prunes) else {
            panic!("the pruning tables aren't built")
        };
        Tables { moves, prunes, changed: vec![] }
    }

    fn entry(&self, t: usize, i: usize) -> u32 {
        let at = part(t).start + i;
        if t < 6 {
            self.moves[at].into()
        } else {
            self.prunes[at].into()
        }
    }

    fn put(&mut self, t: usize, i: usize, v: u32) {
        let at = part(t).start + i;
        if t < 6 {
            self.moves[at] = v as u16;
        } else {
            self.prunes[at] = v as u8;
        }
    }
}

thread_local! {
    static TABLES: RefCell<Option<Tables>> = const { RefCell::new(None) };
}

/// The tables, built when first asked for.
pub fn with<R>(run: impl FnOnce(&mut Tables) -> R) -> R {
    TABLES.with_borrow_mut(|tables| run(tables.get_or_insert_with(Tables::built)))
}

/// A table's number, if it is one of `from`.
fn table(args: &Args, from: Range<usize>) -> Option<usize> {
    args.number(0).filter(|t| from.contains(t))
}

/// A table and one of its entries.
fn place(args: &Args) -> Option<(usize, usize)> {
    let (t, i) = (table(args, 0..10)?, args.number(1)?);
    part(t).len().gt(&i).then_some((t, i))
}

pub fn entry(args: &Args) -> Option<String> {
    let (t, i) = place(args)?;
    Some(answer(Ok(with(|d| d.entry(t, i)).to_string())))
}

pub fn sum(args: &Args) -> Option<String> {
    let t = table(args, 0..10)?;
    let sum = with(|d| match t {
        0..=5 => fnv(d.moves[part(t)].iter().flat_map(|x| x.to_le_bytes())),
        _ => fnv(d.prunes[part(t)].iter().copied()),
    });
    Some(answer(Ok(summed(part(t).len(), sum))))
}

pub fn check(_: &Args) -> Option<String> {
    let said = with(|d| ffi::check_tables(&d.moves, &d.prunes));
    Some(match said & 0xFF {
        0 if said == 0 => "ok".to_string(),
        13 => format!("refused 13 {} {}", said >> 8 & 0xFF, said >> 16),
        _ => format!("refused {said}"),
    })
}

pub fn poke(args: &Args) -> Option<String> {
    let ((t, i), v) = (place(args)?, args.number(2)?);
    if v > if t < 6 { 65535 } else { 255 } {
        return None;
    }
    with(|d| {
        d.changed.push((t, i, d.entry(t, i)));
        d.put(t, i, v);
    });
    Some("ok".to_string())
}

pub fn mend(_: &Args) -> Option<String> {
    with(|d| {
        while let Some((t, i, v)) = d.changed.pop() {
            d.put(t, i, v);
        }
    });
    Some("ok".to_string())
}

/// What a builder gave, its table told by `say`.
fn built(outcome: Outcome<(u8, Vec<u8>)>, say: impl Fn(&[u8]) -> String) -> String {
    match outcome {
        Outcome::Done((UNREACHED, p)) => format!("refused 14 {}", say(&p)),
        Outcome::Done((_, p)) => answer(Ok(say(&p))),
        Outcome::Refused(n) => answer(Err(n)),
        Outcome::Changed => "changed".to_string(),
    }
}

pub fn build(args: &Args) -> Option<String> {
    let t = table(args, 6..10)?;
    let (a, b) = PRUNE_OF[t - 6];
    let outcome = with(|d| ffi::get_prune_table(t as u8, &d.moves[part(a)], &d.moves[part(b)], part(t).len()));
    Some(built(outcome, |p| summed(p.len(), fnv(p.iter().copied()))))
}

pub fn pairs(args: &Args) -> Option<String> {
    let [rows1, rows2, moves, room] = [0, 1, 2, 3].map(|i| args.number::<usize>(i));
    let (first, second) = (args.list::<u16>(4)?, args.list::<u16>(5)?);
    Some(built(ffi::get_pairs_table(&first, &second, room?, [rows1?, rows2?], moves?), join))
}
