//! The fields of a request: numbers, lists, cubes, bytes.
use std::fmt::Display;
use std::str::FromStr;

/// A cube as 40 numbers: cp 8, co 8, ep 12, eo 12.
pub type Cube = [u8; 40];

/// What follows the first word of a request.
pub struct Args<'a> {
    rest: &'a str,
    words: Vec<&'a str>,
}

impl<'a> Args<'a> {
    pub fn of(rest: &'a str) -> Self {
        let words = rest.split(' ').filter(|w| !w.is_empty()).collect();
        Args { rest, words }
    }

    pub fn word(&self, i: usize) -> Option<&'a str> {
        self.words.get(i).copied()
    }

    pub fn number<T: FromStr>(&self, i: usize) -> Option<T> {
        self.word(i)?.parse().ok()
    }

    /// A number that may be left out.
    pub fn number_or<T: FromStr>(&self, i: usize, otherwise: T) -> Option<T> {
        self.word(i).map_or(Some(otherwise), |word| word.parse().ok())
    }

    /// Numbers with commas, `-` for none.
    pub fn list<T: FromStr>(&self, i: usize) -> Option<Vec<T>> {
        match self.word(i)? {
            "-" => Some(vec![]),
            text => text.split(',').map(|x| x.parse().ok()).collect(),
        }
    }

    pub fn cube(&self, i: usize) -> Option<Cube> {
        self.list(i)?.try_into().ok()
    }

    /// The rest of the line as BYTES.
    pub fn bytes(&self) -> Option<Vec<u8>> {
        bytes(self.rest)
    }

    /// A number, then the rest of the line as BYTES.
    pub fn number_and_bytes(&self) -> Option<(usize, Vec<u8>)> {
        let (number, rest) = self.rest.split_once(' ')?;
        Some((number.parse().ok()?, bytes(rest)?))
    }
}

/// `s:` and the bytes as they stand, or `x:` and hex digits.
fn bytes(text: &str) -> Option<Vec<u8>> {
    if let Some(plain) = text.strip_prefix("s:") {
        return Some(plain.as_bytes().to_vec());
    }
    let hex = text.strip_prefix("x:")?;
    if hex.len() % 2 != 0 || !hex.is_ascii() {
        return None;
    }
    (0..hex.len()).step_by(2).map(|i| u8::from_str_radix(&hex[i..i + 2], 16).ok()).collect()
}

/// BYTES in the readable form where that says them exactly, else in hex.
pub fn bytes_text(b: &[u8]) -> String {
    let readable = b.iter().all(|c| (0x20..0x7f).contains(c));
    let edges = [b.first(), b.last()];
    if readable && !edges.contains(&None) && !edges.contains(&Some(&b' ')) {
        format!("s:{}", String::from_utf8_lossy(b))
    } else {
        let hex: String = b.iter().map(|c| format!("{c:02x}")).collect();
        format!("x:{hex}")
    }
}

/// LIST: numbers with commas, `-` for none.
pub fn join<T: Display>(v: &[T]) -> String {
    if v.is_empty() {
        return "-".to_string();
    }
    let words: Vec<String> = v.iter().map(T::to_string).collect();
    words.join(",")
}
