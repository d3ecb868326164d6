//! The crate's SecondaryMap, answering calls. Its slots are read from its derived Debug text.
//! ADDED, by the rules: refusals 8 and 9, what a vacant slot's value and the slots past s hold, and drain steps from a place.
use crate::dense::{index, keeps, key, number, numbers, LIMIT, OUTPUT};
use crate::lines::{key_number, mix_all, Answer, Line};
use slotmap::{DefaultKey, Key, SecondaryMap};

type Map = SecondaryMap<DefaultKey, u64>;

/// Each slot's version and value, or none where it is vacant.
fn slots(m: &Map) -> Vec<Option<(u32, u64)>> {
    let text = format!("{m:?}");
    let body = &text[text.find("slots: [").unwrap() + 8..text.find("], num_elems: ").unwrap()];
    let mut out = vec![];
    let mut rest = body;
    while !rest.is_empty() {
        if let Some(behind) = rest.strip_prefix("Vacant") {
            out.push(None);
            rest = behind;
        } else {
            let end = rest.find('}').unwrap();
            let a = numbers(&rest[..end]);
            assert!(rest.starts_with("Occupied { value: ") && a.len() == 2);
            out.push(Some((a[1] as u32, a[0])));
            rest = &rest[end + 1..];
        }
        rest = rest.strip_prefix(", ").unwrap_or(rest);
    }
    assert_eq!(out.iter().flatten().count(), m.len());
    out
}

pub struct Secondary {
    pub m: Map,
    /// The length of the lent arrays.
    pub l: usize,
    versions: Vec<u32>,
    values: Vec<u64>,
    wanted: Vec<u64>,
    places: Vec<u32>,
}

impl Secondary {
    pub fn new() -> Secondary {
        let mut t = Secondary {
            m: Map::new(),
            l: 1,
            versions: vec![0x5a5a_5a5a; LIMIT + 1],
            values: vec![0x5a5a_5a5a_5a5a_5a5a; LIMIT + 1],
            wanted: vec![],
            places: vec![0x5a5a_5a5a; OUTPUT],
        };
        t.settle();
        t
    }

    /// Slots below s are the crate's, but for a vacant one's value. ADDED
    fn settle(&mut self) -> usize {
        let seen = slots(&self.m);
        for (i, slot) in seen.iter().enumerate() {
            self.versions[i] = slot.map_or(0, |s| s.0);
            assert!(slot.map_or(true, |s| s.1 == self.values[i]));
        }
        seen.len()
    }

    fn digest(&mut self) -> u64 {
        let s = self.settle();
        let h = mix_all(0, [1, s as u64, self.m.len() as u64].into_iter());
        let h = mix_all(h, self.versions[..self.l].iter().map(|x| *x as u64));
        let h = mix_all(h, self.values[..self.l].iter().copied());
        mix_all(h, self.places.iter().map(|x| *x as u64))
    }

    pub fn call(&mut self, line: &Line) -> Answer {
        let (a, b, c) = (line.a, line.b, line.c);
        let k = key(key_number(b, c));
        match line.op {
            b'L' => {
                self.settle();
                (self.m, self.l) = (Map::new(), c as usize);
                self.settle();
                Answer::Done
            }
            b'i' => self.insert(key(key_number(a, b)), c),
            b'p' => {
                let k = key(key_number(a, b));
                let old = self.m.get_mut(k).map(|v| std::mem::replace(v, c));
                if old.is_some() {
                    self.values[index(k) as usize] = c;
                }
                value_or_dead(old)
            }
            b'g' => value_or_dead(self.m.get(k).copied()),
            b'c' => Answer::Number(self.m.contains_key(k) as u64),
            b'o' => value_or_dead(self.m.get(k).map(|_| index(k))),
            b'r' => value_or_dead(self.m.remove(k)),
            b'v' | b'm' | b'x' => {
                self.m.retain(|k, v| keeps(line.op, b, c, index(k), *v));
                Answer::Done
            }
            b'e' => {
                self.m.clear();
                Answer::Done
            }
            b'y' => self.peek(c),
            b'z' => self.drain_step(c),
            b'k' => {
                self.wanted.push(key_number(b, c));
                Answer::Silent
            }
            b'j' => {
                let wanted = std::mem::take(&mut self.wanted);
                self.disjoint(&wanted)
            }
            b'l' => Answer::Number(self.m.len() as u64),
            b'f' => Answer::Number(self.m.is_empty() as u64),
            b's' => Answer::Digest(self.digest()),
            op => panic!("call {}", op as char),
        }
    }

    fn insert(&mut self, k: DefaultKey, value: u64) -> Answer {
        if k.is_null() {
            assert_eq!(self.m.insert(k, value), None);
            return Answer::Ignored;
        }
        let i = index(k) as usize;
        if i == 0 {
            return Answer::Refused(9); // ADDED
        }
        if i >= self.l {
            return Answer::Refused(8); // ADDED
        }
        let old = self.m.insert(k, value);
        if let Some(old) = old {
            self.values[i] = value;
            return Answer::Number(old);
        }
        if self.m.get(k) == Some(&value) {
            self.values[i] = value;
            return Answer::Done;
        }
        Answer::Kept
    }

    fn peek(&self, from: u64) -> Answer {
        match self.m.iter().find(|(k, _)| index(*k) >= from) {
            Some((k, v)) => Answer::Step(number(k), *v, index(k) + 1),
            None => Answer::Done,
        }
    }

    /// The crate's own drain where nothing stands before the place; else the removal of what a look finds. ADDED
    fn drain_step(&mut self, from: u64) -> Answer {
        let step = self.peek(from);
        if let Answer::Step(k, v, _) = step {
            if self.m.keys().all(|k| index(k) >= from) {
                let mut d = self.m.drain();
                assert_eq!(d.next().map(|(k, v)| (number(k), v)), Some((k, v)));
                std::mem::forget(d);
            } else {
                assert_eq!(self.m.remove(key(k)), Some(v));
            }
        }
        step
    }

    fn disjoint(&mut self, wanted: &[u64]) -> Answer {
        let ks: Vec<DefaultKey> = wanted.iter().map(|k| key(*k)).collect();
        let indexes: Vec<u32> = ks.iter().map(|k| index(*k) as u32).collect();
        macro_rules! all_there {
            ($($n:literal)*) => {
                match ks.len() {
                    $($n => self.m.get_disjoint_mut::<$n>(ks.try_into().unwrap()).is_some(),)*
                    n => panic!("{n} keys"),
                }
            };
        }
        if !all_there!(0 1 2 3 4 5 6 7 8) {
            return Answer::Refused(2);
        }
        self.places[..indexes.len()].copy_from_slice(&indexes);
        Answer::Places(indexes)
    }
}

fn value_or_dead(value: Option<u64>) -> Answer {
    match value {
        Some(v) => Answer::Number(v),
        None => Answer::Refused(2),
    }
}
