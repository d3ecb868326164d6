//! The crate's DenseSlotMap, answering calls. What the crate keeps private (slot versions, links, free head) is read from its derived Debug text.
//! What it does not have follows the rules and is marked ADDED: refusals 3 and 6, the bytes of an image, and what lent arrays hold past n and s.
use crate::image;
use crate::lines::{key_number, mix, mix_all, Answer, Line};
use slotmap::{DefaultKey, DenseSlotMap, Key, KeyData};
use std::panic::{catch_unwind, AssertUnwindSafe};

pub type Map = DenseSlotMap<DefaultKey, u64>;

/// The longest arrays, and the lengths that the programs lend.
pub const LIMIT: usize = 4096;
pub const OUTPUT: usize = 8;
pub const BUFFER: usize = 65_600;
/// What the lent arrays hold at the start, so that a stray write shows.
const FILL32: u32 = 0x5a5a_5a5a;
const FILL64: u64 = 0x5a5a_5a5a_5a5a_5a5a;

pub fn key(k: u64) -> DefaultKey {
    KeyData::from_ffi(k).into()
}

pub fn number(k: DefaultKey) -> u64 {
    k.data().as_ffi()
}

pub fn index(k: DefaultKey) -> u64 {
    number(k) & 0xffff_ffff
}

/// Every maximal run of digits.
pub fn numbers(text: &str) -> Vec<u64> {
    let (mut out, mut run) = (vec![], None::<u64>);
    for b in text.bytes() {
        if b.is_ascii_digit() {
            run = Some(run.unwrap_or(0) * 10 + (b - b'0') as u64);
        } else if let Some(x) = run.take() {
            out.push(x);
        }
    }
    out.extend(run);
    out
}

#[derive(PartialEq, Debug)]
pub struct State {
    pub versions: Vec<u32>,
    pub links: Vec<u32>,
    pub keys: Vec<u64>,
    pub values: Vec<u64>,
    pub free: u32,
}

/// The Debug text has two numbers a key, one a value, two a slot, and the free head.
pub fn state(m: &Map) -> State {
    let text = format!("{m:?}");
    assert!(text.starts_with("DenseSlotMap { keys: [") && text.contains("], slots: [Slot { version: ") && text.contains("], free_head: "));
    let a = numbers(&text);
    let n = m.len();
    assert!(a.len() >= 3 * n + 3 && (a.len() - 3 * n - 1) % 2 == 0);
    let s = (a.len() - 3 * n - 1) / 2;
    let seen = State {
        versions: (0..s).map(|i| a[3 * n + 2 * i] as u32).collect(),
        links: (0..s).map(|i| a[3 * n + 2 * i + 1] as u32).collect(),
        keys: (0..n).map(|i| key_number(a[2 * i], a[2 * i + 1])).collect(),
        values: a[2 * n..3 * n].to_vec(),
        free: a[a.len() - 1] as u32,
    };
    assert!(m.keys_as_slice().iter().map(|k| number(*k)).eq(seen.keys.iter().copied()) && m.values_as_slice() == &seen.values[..]);
    seen
}

/// The rules by which retain keeps an element.
pub fn keeps(op: u8, lo: u64, hi: u64, idx: u64, value: u64) -> bool {
    match op {
        b'v' => lo <= value && value <= hi,
        b'm' => value & lo == hi,
        b'x' => lo <= idx && idx <= hi,
        _ => panic!("rule"),
    }
}

/// The crate's map, and the lent arrays as the rules say that they end up.
pub struct Dense {
    pub m: Map,
    pub c: usize,
    /// How many keys are detached: the table is full when these and the live ones are C.
    pub detached: usize,
    versions: Vec<u32>,
    links: Vec<u32>,
    keys: Vec<u64>,
    values: Vec<u64>,
    wanted: Vec<u64>,
    /// The output of disjoint, in the lists that have it.
    places: Vec<u32>,
    buffer: Vec<u8>,
}

impl Dense {
    pub fn new(output: usize) -> Dense {
        let mut t = Dense {
            m: Map::new(),
            c: 0,
            detached: 0,
            versions: vec![FILL32; LIMIT + 1],
            links: vec![FILL32; LIMIT + 1],
            keys: vec![FILL64; LIMIT],
            values: vec![FILL64; LIMIT],
            wanted: vec![],
            places: vec![FILL32; output],
            buffer: vec![0x5a; BUFFER],
        };
        t.begin(0);
        t
    }

    fn begin(&mut self, c: usize) {
        self.settle_slots();
        (self.m, self.c, self.detached) = (Map::new(), c, 0);
        self.settle_slots();
    }

    /// Places below n are the crate's; the others keep what they held. ADDED
    fn settle_places(&mut self) {
        for (p, k) in self.m.keys_as_slice().iter().enumerate() {
            self.keys[p] = number(*k);
        }
        self.values[..self.m.len()].copy_from_slice(self.m.values_as_slice());
    }

    /// Slots below s are the crate's; the others keep what they held. ADDED
    fn settle_slots(&mut self) -> State {
        let seen = state(&self.m);
        self.versions[..seen.versions.len()].copy_from_slice(&seen.versions);
        self.links[..seen.links.len()].copy_from_slice(&seen.links);
        let full = seen.free as usize >= seen.versions.len() && seen.versions.len() == self.c + 1;
        assert_eq!(full, self.is_full());
        seen
    }

    fn is_full(&self) -> bool {
        self.m.len() + self.detached == self.c
    }

    pub fn digest(&mut self) -> u64 {
        let seen = self.settle_slots();
        let c = self.c;
        let header = [1, seen.keys.len() as u64, seen.versions.len() as u64, seen.free as u64];
        let h = mix_all(0, header.into_iter());
        let h = mix_all(h, self.versions[..c + 1].iter().map(|x| *x as u64));
        let h = mix_all(h, self.links[..c + 1].iter().map(|x| *x as u64));
        let h = mix_all(h, self.keys[..c].iter().copied());
        let h = mix_all(h, self.values[..c].iter().copied());
        mix_all(h, self.places.iter().map(|x| *x as u64))
    }

    /// Makes a call and answers it.
    pub fn call(&mut self, line: &Line) -> Answer {
        let answer = self.answer(line);
        self.settle_places();
        answer
    }

    fn answer(&mut self, line: &Line) -> Answer {
        let (a, b, c) = (line.a, line.b, line.c);
        let k = key_number(b, c);
        match line.op {
            b'C' => {
                self.begin(c as usize);
                Answer::Done
            }
            b'i' if self.is_full() => Answer::Refused(3), // ADDED
            b'i' => Answer::Key(number(self.m.insert(c))),
            b'n' if self.is_full() => Answer::Refused(3), // ADDED
            // the closure's error leaves the map untouched
            b'n' => Answer::Key(number(self.m.try_insert_with_key::<_, DefaultKey>(Err).unwrap_err())),
            b'g' => value_or_dead(self.m.get(key(k)).copied()),
            b'c' => Answer::Number(self.m.contains_key(key(k)) as u64),
            b'o' => value_or_dead(self.m.get(key(k)).map(|v| (v as *const u64 as u64 - self.m.values_as_slice().as_ptr() as u64) / 8)),
            b'p' => value_or_dead(self.m.get_mut(key(key_number(a, b))).map(|v| std::mem::replace(v, c))),
            b'r' => value_or_dead(self.m.remove(key(k))),
            b'd' => {
                let value = self.m.detach(key(k));
                self.detached += value.is_some() as usize;
                value_or_dead(value)
            }
            b'a' => self.reattach(key(key_number(a, b)), c),
            b'v' | b'm' | b'x' => {
                self.retain(line.op, b, c);
                Answer::Done
            }
            b'z' | b'y' => match self.drain_step() {
                Some((k, v)) => Answer::Pair(number(k), v),
                None => Answer::Done,
            },
            b'e' => {
                self.clear();
                Answer::Done
            }
            b'k' => {
                self.wanted.push(k);
                Answer::Silent
            }
            b'j' => {
                let wanted = std::mem::take(&mut self.wanted);
                self.disjoint(&wanted)
            }
            b'l' => Answer::Number(self.m.len() as u64),
            b'f' => Answer::Number(self.m.is_empty() as u64),
            b't' => {
                let h = mix_all(0, self.m.keys_as_slice().iter().map(|k| number(*k)));
                Answer::Digest(mix_all(h, self.m.values_as_slice().iter().copied()))
            }
            b's' => Answer::Digest(self.digest()),
            b'N' => Answer::Number(image::bytes(&self.m).len() as u64),
            b'W' | b'D' => self.write(line.op, c as usize),
            b'J' => match image::map(&line.bytes, self.c as u64 + 1) {
                Ok(m) => Answer::Counts(state(&m).versions.len() as u64, m.len() as u64),
                Err(n) => Answer::Refused(n),
            },
            b'R' => match image::map(&line.bytes, self.c as u64 + 1) {
                Ok(m) => {
                    self.settle_slots();
                    (self.m, self.detached) = (m, 0);
                    Answer::Done
                }
                Err(n) => Answer::Refused(n),
            },
            op => panic!("call {}", op as char),
        }
    }

    /// The crate panics before it writes anything.
    fn reattach(&mut self, k: DefaultKey, value: u64) -> Answer {
        match catch_unwind(AssertUnwindSafe(|| self.m.reattach(k, value))) {
            Ok(()) => {
                self.detached -= 1;
                Answer::Done
            }
            Err(_) => Answer::Refused(4),
        }
    }

    /// The crate's retain; and removal by removal on a copy, for what the arrays hold past n. ADDED
    fn retain(&mut self, op: u8, lo: u64, hi: u64) {
        let mut dropped = vec![];
        let before = self.m.clone();
        self.m.retain(|k, v| {
            let keep = keeps(op, lo, hi, index(k), *v);
            if !keep {
                dropped.push(k);
            }
            keep
        });
        let after = std::mem::replace(&mut self.m, before);
        for k in dropped {
            self.m.remove(k).unwrap();
            self.settle_places();
        }
        assert_eq!(state(&after), state(&self.m));
    }

    /// A drain that is forgotten after its first element leaves the rest.
    fn drain_step(&mut self) -> Option<(DefaultKey, u64)> {
        let mut d = self.m.drain();
        let taken = d.next();
        std::mem::forget(d);
        taken
    }

    /// Drain steps until done, which the crate's own clear has to equal.
    fn clear(&mut self) {
        let mut whole = self.m.clone();
        whole.clear();
        while self.drain_step().is_some() {}
        assert_eq!(state(&whole), state(&self.m));
    }

    fn disjoint(&mut self, wanted: &[u64]) -> Answer {
        let ks: Vec<DefaultKey> = wanted.iter().map(|k| key(*k)).collect();
        let base = self.m.values_as_slice().as_ptr() as usize;
        macro_rules! places {
            ($($n:literal)*) => {
                match ks.len() {
                    $($n => self.m.get_disjoint_mut::<$n>(ks.try_into().unwrap()).map(|vs| vs.iter().map(|v| ((&**v as *const u64 as usize - base) / 8) as u32).collect::<Vec<u32>>()),)*
                    n => panic!("{n} keys"),
                }
            };
        }
        match places!(0 1 2 3 4 5 6 7 8) {
            Some(places) => {
                self.places[..places.len()].copy_from_slice(&places);
                Answer::Places(places)
            }
            None => Answer::Refused(2),
        }
    }

    /// The image in a buffer of this length, as bytes or as their count and the buffer's digest. ADDED: the buffer
    fn write(&mut self, op: u8, room: usize) -> Answer {
        let bytes = image::bytes(&self.m);
        if room < bytes.len() {
            return Answer::Refused(6);
        }
        self.buffer[..bytes.len()].copy_from_slice(&bytes);
        if op == b'W' {
            return Answer::Bytes(bytes);
        }
        Answer::Digest(mix_all(mix(0, bytes.len() as u64), self.buffer[..room].iter().map(|b| *b as u64)))
    }
}

fn value_or_dead(value: Option<u64>) -> Answer {
    match value {
        Some(v) => Answer::Number(v),
        None => Answer::Refused(2),
    }
}
