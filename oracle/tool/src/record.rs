//! A request with its answer as one line of hex, for the programs that replay answers with no kewb at hand.
use crate::coords::{Kind, KINDS};
use crate::cubes::{raw, solved};
use crate::readers::solved_picture;
use crate::requests::{coords, cubie, solve, stickers, text, Ask};
use wire::Args;

/// What is recorded together.
pub struct Record {
    pub name: &'static str,
    /// The requests to record, by seed; a line that starts with # is a comment.
    pub sample: fn(u64, Ask),
    /// The number of its first kind.
    first: u8,
    kinds: &'static [(&'static str, Lent)],
}

/// What a call lends to be written.
#[derive(Clone, Copy)]
enum Lent {
    /// So many bytes.
    Bytes(usize),
    /// As many as the request says, and a count.
    Room,
    /// A coordinate's number, four bytes.
    Number,
    /// A coordinate's places.
    Places,
    /// Two rooms of 31 moves each; the word that comes back is recorded behind them.
    Rooms,
}

pub const RECORDS: [Record; 5] = [
    Record { name: "cubie", sample: cubie::sample, first: 1, kinds: &CUBIE },
    Record { name: "facelet", sample: stickers::sample, first: 11, kinds: &FACELET },
    Record { name: "scramble", sample: text::sample, first: 14, kinds: &SCRAMBLE },
    Record { name: "index", sample: coords::sample, first: 16, kinds: &INDEX },
    Record { name: "solver", sample: solve::sample, first: 18, kinds: &SOLVER },
];

const CUBIE: [(&str, Lent); 10] = [
    ("mul", Lent::Bytes(40)),
    ("move", Lent::Bytes(40)),
    ("moves", Lent::Bytes(40)),
    ("solved", Lent::Bytes(1)),
    ("solvable", Lent::Bytes(1)),
    ("counts", Lent::Bytes(4)),
    ("inverse", Lent::Bytes(1)),
    ("isinverse", Lent::Bytes(1)),
    ("samelayer", Lent::Bytes(1)),
    ("available", Lent::Bytes(1)),
];
const FACELET: [(&str, Lent); 3] =
    [("read", Lent::Bytes(40)), ("strict", Lent::Bytes(40)), ("picture", Lent::Bytes(54))];
const SCRAMBLE: [(&str, Lent); 2] = [("parse", Lent::Room), ("text", Lent::Room)];
const INDEX: [(&str, Lent); 2] = [("index", Lent::Number), ("arrange", Lent::Places)];
const SOLVER: [(&str, Lent); 1] = [("solve", Lent::Rooms)];

/// Room for one list of moves.
const LIST: usize = 31;

/// What lent bytes hold before a call, and after a refusal.
const UNTOUCHED: u8 = 0xEE;

impl Record {
    /// Each kind's number, name and what it lends.
    fn kinds(&self) -> impl Iterator<Item = (u8, &'static str, Lent)> {
        (self.first..).zip(self.kinds).map(|(number, &(name, lent))| (number, name, lent))
    }

    /// The comment that says which kinds there are.
    pub fn legend(&self) -> String {
        let kinds: Vec<String> = self.kinds().map(|(number, name, _)| format!("{number} {name}")).collect();
        format!("# KIND: {}.", kinds.join(", "))
    }

    /// Whether its calls also give a count.
    pub fn counts(&self) -> bool {
        self.kinds().any(|(_, _, lent)| matches!(lent, Lent::Room))
    }

    /// Whether its calls are about coordinates.
    pub fn coordinates(&self) -> bool {
        self.kinds().any(|(_, _, lent)| matches!(lent, Lent::Number | Lent::Places))
    }

    /// Whether its calls are searches.
    pub fn searches(&self) -> bool {
        self.kinds().any(|(_, _, lent)| matches!(lent, Lent::Rooms))
    }

    /// The line of a request and its answer; None where there is no such record.
    pub fn line(&self, request: &str, answer: &str) -> Option<String> {
        let (word, rest) = request.split_once(' ')?;
        let (kind, name, lent) = self.kinds().find(|(_, name, _)| *name == word)?;
        let args = Args::of(rest);
        let (a, b) = given(name, &args)?;
        let exactly = |n| result(name, answer, n).filter(|(_, out)| out.len() == n);
        let (number, out) = match lent {
            Lent::Bytes(n) => exactly(n)?,
            Lent::Room => in_room(name, answer, room(name, &args)?)?,
            Lent::Number => exactly(4)?,
            Lent::Places => exactly(coordinate(&args)?.places().len())?,
            Lent::Rooms => searched(answer)?,
        };
        Some(hex(kind, &a, &b, number, &out))
    }

    /// Lent slices of another length than is asked for, one byte short and one too long: the paper's 10, which no request
    /// can ask for.
    pub fn misfits(&self) -> Vec<String> {
        self.kinds().flat_map(|(kind, name, lent)| misfits(kind, name, lent)).collect()
    }
}

fn misfits(kind: u8, name: &str, lent: Lent) -> Vec<String> {
    let refused = |a: &[u8], b: &[u8], n: usize| hex(kind, a, b, 10, &vec![UNTOUCHED; n]);
    match lent {
        Lent::Bytes(length) => {
            let (a, b) = fitting(name);
            let short_a = (a.len() == 40).then(|| refused(&a[1..], &b, length));
            let short_b = (b.len() == 40).then(|| refused(&a, &b[1..], length));
            let out = [length - 1, length + 1].map(|n| refused(&a, &b, n));
            short_a.into_iter().chain(short_b).chain(out).collect()
        }
        Lent::Room => vec![],
        Lent::Number => misfit_places().iter().map(|(a, places)| refused(a, places, 4)).collect(),
        Lent::Places => misfit_places().iter().map(|(a, places)| refused(a, &[0; 4], places.len())).collect(),
        Lent::Rooms => {
            let mut out = vec![UNTOUCHED; 2 * LIST];
            out.extend(10u64.to_be_bytes());
            vec![hex(kind, &[0; 39], &[0; 5], 10, &out)]
        }
    }
}

/// Each coordinate with one place too few, with one too many and with as many as others have; then 7, which is no
/// coordinate, so that no number of places fits.
fn misfit_places() -> Vec<([u8; 1], Vec<u8>)> {
    let cube = raw(&solved());
    let places = |kind: Kind, n: usize| kind.part(&cube).iter().copied().cycle().take(n).collect();
    let mut all = vec![];
    for kind in KINDS {
        let own = kind.places().len();
        all.extend([own - 1, own + 1, 20 - own].map(|n| ([kind as u8], places(kind, n))));
    }
    all.extend([8, 12].map(|n| ([7], places(Kind::Ep, n))));
    all
}

/// What a kind can be given.
fn fitting(name: &str) -> (Vec<u8>, Vec<u8>) {
    match name {
        "read" | "strict" => (solved_picture(), vec![]),
        "picture" => (raw(&solved()).to_vec(), vec![]),
        "mul" => (vec![0; 40], vec![0; 40]),
        "move" => (vec![0; 40], vec![0]),
        "inverse" => (vec![0], vec![]),
        "isinverse" | "samelayer" | "available" => (vec![0], vec![0]),
        _ => (vec![0; 40], vec![]),
    }
}

/// What a request gives: A and B.
fn given(name: &str, args: &Args) -> Option<(Vec<u8>, Vec<u8>)> {
    Some(match name {
        "read" | "strict" => (args.bytes()?, vec![]),
        "parse" => (args.number_and_bytes()?.1, vec![]),
        "text" => (args.list(0)?, vec![]),
        "index" => (vec![coordinate(args)? as u8], args.list(1)?),
        "arrange" => (vec![coordinate(args)? as u8], args.number::<u32>(1)?.to_be_bytes().to_vec()),
        "solve" => {
            let budget = args.number::<u32>(2)?.to_be_bytes();
            (args.list(0)?, [&[args.number::<u8>(1)?], &budget[..]].concat())
        }
        _ => (args.list(0)?, args.list(1).unwrap_or_default()),
    })
}

/// The coordinate that a request names.
fn coordinate(args: &Args) -> Option<Kind> {
    Kind::named(args.word(0)?)
}

/// The room that a request says.
fn room(name: &str, args: &Args) -> Option<usize> {
    match name {
        "parse" => Some(args.number_and_bytes()?.0),
        _ => args.number(1),
    }
}

/// KIND, A_LEN, A.., B_LEN, B.., NUMBER, OUT_LEN, OUT.. in hex; a length is two bytes, the higher first.
fn hex(kind: u8, a: &[u8], b: &[u8], number: u8, out: &[u8]) -> String {
    let mut bytes = vec![kind];
    for part in [a, b] {
        bytes.extend((part.len() as u16).to_be_bytes());
        bytes.extend(part);
    }
    bytes.push(number);
    bytes.extend((out.len() as u16).to_be_bytes());
    bytes.extend(out);
    bytes.iter().map(|b| format!("{b:02x}")).collect()
}

/// The refusal's number, 0 for none, and what was written, or so many untouched bytes.
fn result(name: &str, answer: &str, lent: usize) -> Option<(u8, Vec<u8>)> {
    if let Some(number) = answer.strip_prefix("refused ") {
        return Some((number.parse().ok()?, vec![UNTOUCHED; lent]));
    }
    let said = answer.strip_prefix("ok ")?;
    let written = match name {
        "picture" => Some(said.as_bytes().to_vec()),
        "text" => Args::of(said).bytes(),
        "parse" => Args::of(said).list(0),
        "index" => Some(said.parse::<u32>().ok()?.to_be_bytes().to_vec()),
        _ => said.split([' ', ',']).map(value).collect(),
    };
    Some((0, written?))
}

/// What a search says: its number, the two lists in their rooms, untouched but where it is solved, and the word that comes back: the
/// number, the kind (0 solved, 1 none, 2 spent) and the lengths, a byte each from the lowest on, and the count in 32 bits.
fn searched(answer: &str) -> Option<(u8, Vec<u8>)> {
    let words: Vec<&str> = answer.split(' ').collect();
    let number = |i: usize| words.get(i)?.parse::<u64>().ok();
    let untouched = || vec![UNTOUCHED; 2 * LIST];
    let (refusal, upper, rooms) = match words[..2] {
        ["refused", n] => (n.parse().ok()?, 0, untouched()),
        ["ok", "solved"] => {
            let lists = [Args::of(words[3]).list(0)?, Args::of(words[4]).list(0)?];
            let lengths = (lists[0].len() as u64) << 16 | (lists[1].len() as u64) << 24;
            let padded = lists.map(|mut list: Vec<u8>| {
                list.resize(LIST, 0);
                list
            });
            (0, lengths | number(2)? << 32, padded.concat())
        }
        ["ok", "none"] => (0, 1 << 8 | number(2)? << 32, untouched()),
        ["ok", "spent"] => (0, 2 << 8 | number(2)? << 32, untouched()),
        _ => return None,
    };
    let word = u64::from(refusal) | upper;
    Some((refusal, [rooms, word.to_be_bytes().to_vec()].concat()))
}

/// The same in a lent room, then the count in two bytes, untouched where refused.
fn in_room(name: &str, answer: &str, room: usize) -> Option<(u8, Vec<u8>)> {
    let (number, mut out) = result(name, answer, room)?;
    let count = if number == 0 { out.len() as u16 } else { u16::from_be_bytes([UNTOUCHED; 2]) };
    out.resize(room, UNTOUCHED);
    out.extend(count.to_be_bytes());
    Some((number, out))
}

fn value(word: &str) -> Option<u8> {
    match word {
        "yes" => Some(1),
        "no" => Some(0),
        number => number.parse().ok(),
    }
}
