//! What calls and answers look like as text, and the digest of many numbers. The replay programs read and write the same.
use std::fmt;

/// A call: a letter and up to three numbers, or a letter and bytes in hexadecimal.
pub struct Line {
    pub op: u8,
    pub a: u64,
    pub b: u64,
    pub c: u64,
    pub bytes: Vec<u8>,
}

impl Line {
    /// The last number of a line is c, the one before it b, the one before that a.
    pub fn parse(text: &str) -> Line {
        let op = text.as_bytes()[0];
        let rest = &text[1..];
        let mut line = Line { op, a: 0, b: 0, c: 0, bytes: vec![] };
        if op == b'R' || op == b'J' {
            line.bytes = (0..rest.len() / 2).map(|i| u8::from_str_radix(&rest[2 * i..2 * i + 2], 16).unwrap()).collect();
        } else if !rest.is_empty() {
            for word in rest.split(' ') {
                (line.a, line.b, line.c) = (line.b, line.c, word.parse().unwrap());
            }
        }
        line
    }
}

/// A key as a call names it: index and version.
pub fn named(k: u64) -> String {
    format!("{} {}", k & 0xffff_ffff, k >> 32)
}

/// The key that an index and a version name. Its version's lowest bit is set when the crate reads it, not here.
pub fn key_number(idx: u64, version: u64) -> u64 {
    version << 32 | idx
}

pub fn hex(bytes: &[u8]) -> String {
    bytes.iter().map(|b| format!("{b:02x}")).collect()
}

#[derive(Clone, PartialEq, Debug)]
pub enum Answer {
    /// The line only prepares a call.
    Silent,
    Done,
    Refused(u32),
    Number(u64),
    Key(u64),
    Pair(u64, u64),
    /// Slots and live ones.
    Counts(u64, u64),
    /// A key, its value, and the place to go on from.
    Step(u64, u64, u64),
    Places(Vec<u32>),
    /// A secondary insert that stored nothing, at a newer version or at the null key.
    Kept,
    Ignored,
    Digest(u64),
    Bytes(Vec<u8>),
}

fn key_text(k: u64) -> String {
    format!("{}v{}", k & 0xffff_ffff, k >> 32)
}

impl fmt::Display for Answer {
    fn fmt(&self, f: &mut fmt::Formatter) -> fmt::Result {
        match self {
            Answer::Silent => Ok(()),
            Answer::Done => write!(f, "."),
            Answer::Refused(n) => write!(f, "-{n}"),
            Answer::Number(x) => write!(f, "{x}"),
            Answer::Key(k) => write!(f, "{}", key_text(*k)),
            Answer::Pair(k, v) => write!(f, "{} {v}", key_text(*k)),
            Answer::Counts(slots, live) => write!(f, "{slots} {live}"),
            Answer::Step(k, v, next) => write!(f, "{} {v} {next}", key_text(*k)),
            Answer::Places(p) => {
                write!(f, ".")?;
                p.iter().try_for_each(|x| write!(f, " {x}"))
            }
            Answer::Kept => write!(f, "k"),
            Answer::Ignored => write!(f, "i"),
            Answer::Digest(d) => write!(f, "{d:016x}"),
            Answer::Bytes(b) => write!(f, "{}", hex(b)),
        }
    }
}

/// One step of the digest: a wrapping sum, then an xorshift.
pub fn mix(h: u64, x: u64) -> u64 {
    let mut h = h.wrapping_add(x).wrapping_add(0x9e37_79b9_7f4a_7c15);
    h ^= h << 13;
    h ^= h >> 7;
    h ^= h << 17;
    h
}

pub fn mix_all(h: u64, xs: impl Iterator<Item = u64>) -> u64 {
    xs.fold(h, mix)
}
