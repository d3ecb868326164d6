//! The plain reading, answering calls: tables and maps over any part of the lent arrays, with cells and headers set at will.
use crate::dense::{BUFFER, OUTPUT};
use crate::lines::{key_number, mix, mix_all, Answer, Line};
use crate::plain::{Dense, Rule};
use crate::plain_image::read_image;
use crate::plain_secondary::{Entered, Secondary};

/// The arrays are this long; a table or a map has a part of each.
pub const ROOM: usize = 4100;
const FILL32: u32 = 0x5a5a_5a5a;
const FILL64: u64 = 0x5a5a_5a5a_5a5a_5a5a;

/// Something that answers calls by the rules alone.
pub trait Reading {
    fn call(&mut self, line: &Line) -> Answer;
    /// Whether the table is sound, or the map whole.
    fn is_sound(&self) -> bool;
}

fn answered<T>(result: Result<T, u32>, answer: impl FnOnce(T) -> Answer) -> Answer {
    match result {
        Ok(x) => answer(x),
        Err(number) => Answer::Refused(number),
    }
}

fn rule(line: &Line) -> Rule {
    match line.op {
        b'v' => Rule::Value(line.b, line.c),
        b'm' => Rule::Masked(line.b, line.c),
        _ => Rule::Index(line.b as u32, line.c as u32),
    }
}

fn mix32(h: u64, list: &[u32]) -> u64 {
    mix_all(h, list.iter().map(|x| *x as u64))
}

fn mix64(h: u64, list: &[u64]) -> u64 {
    mix_all(h, list.iter().copied())
}

/// The arrays to their ends, and how much of each is lent.
struct Room {
    versions: Vec<u32>,
    links: Vec<u32>,
    keys: Vec<u64>,
    values: Vec<u64>,
    lent: [usize; 4],
}

impl Room {
    fn new() -> Room {
        Room {
            versions: vec![FILL32; ROOM],
            links: vec![FILL32; ROOM],
            keys: vec![FILL64; ROOM],
            values: vec![FILL64; ROOM],
            lent: [0; 4],
        }
    }

    /// A line that lends other lengths, or stores into a cell.
    fn bend(&mut self, line: &Line) {
        let (b, c) = (line.b as usize, line.c as usize);
        match line.op {
            b'C' => self.lent = [c + 1, c + 1, c, c],
            b'L' => self.lent = [c; 4],
            b'A' => (self.lent[0], self.lent[1]) = (b, c),
            b'B' => (self.lent[2], self.lent[3]) = (b, c),
            b'V' => self.versions[b] = line.c as u32,
            b'U' => self.links[b] = line.c as u32,
            b'K' => self.keys[b] = line.c,
            b'X' => self.values[b] = line.c,
            _ => (),
        }
    }
}

/// The keys that a disjoint asks for, and its output.
struct Asked {
    wanted: Vec<u64>,
    output: Vec<u32>,
    lent: usize,
}

impl Asked {
    fn new(output: usize) -> Asked {
        Asked { wanted: vec![], output: vec![FILL32; output], lent: output }
    }

    /// The places that a disjoint puts into the lent part of the output.
    fn disjoint(&mut self, by: impl FnOnce(&[u64], &mut [u32]) -> Result<(), u32>) -> Answer {
        let wanted = std::mem::take(&mut self.wanted);
        let result = by(&wanted, &mut self.output[..self.lent]);
        answered(result, |()| Answer::Places(self.output[..wanted.len()].to_vec()))
    }
}

pub struct PlainTable {
    pub t: Dense,
    room: Room,
    asked: Asked,
    buffer: Vec<u8>,
}

impl PlainTable {
    pub fn new(output: usize) -> PlainTable {
        let t = Dense { versions: vec![], links: vec![], keys: vec![], values: vec![], n: 0, s: 0, f: 0 };
        PlainTable { t, room: Room::new(), asked: Asked::new(output), buffer: vec![0x5a; BUFFER] }
    }

    /// The lent parts go back, the line stores, and the parts are lent anew.
    fn bend(&mut self, line: &Line) -> Answer {
        let (t, room) = (&mut self.t, &mut self.room);
        let [a, b, k, v] = room.lent;
        room.versions[..a].copy_from_slice(&t.versions);
        room.links[..b].copy_from_slice(&t.links);
        room.keys[..k].copy_from_slice(&t.keys);
        room.values[..v].copy_from_slice(&t.values);
        room.bend(line);
        let [a, b, k, v] = room.lent;
        t.versions = room.versions[..a].to_vec();
        t.links = room.links[..b].to_vec();
        t.keys = room.keys[..k].to_vec();
        t.values = room.values[..v].to_vec();
        Answer::Silent
    }

    fn digest(&self) -> u64 {
        let t = &self.t;
        let header = [t.is_sound() as u64, t.n as u64, t.s as u64, t.f as u64];
        let h = mix32(mix32(mix64(0, &header), &t.versions), &t.links);
        mix32(mix64(mix64(h, &t.keys), &t.values), &self.asked.output[..self.asked.lent])
    }

    fn write(&mut self, op: u8, room: usize) -> Answer {
        let result = self.t.write_image(&mut self.buffer[..room]);
        let written = &self.buffer[..room];
        answered(result, |length| match op {
            b'W' => Answer::Bytes(written[..length].to_vec()),
            _ => Answer::Digest(mix_all(mix(0, length as u64), written.iter().map(|b| *b as u64))),
        })
    }
}

impl Reading for PlainTable {
    fn is_sound(&self) -> bool {
        self.t.is_sound()
    }

    fn call(&mut self, line: &Line) -> Answer {
        let (a, b, c) = (line.a, line.b, line.c);
        let k = key_number(b, c);
        let t = &mut self.t;
        match line.op {
            b'C' => {
                self.asked.lent = self.asked.output.len();
                self.bend(line);
                answered(self.t.fresh(), |()| Answer::Done)
            }
            b'A' | b'B' | b'V' | b'U' | b'K' | b'X' => self.bend(line),
            b'O' => {
                self.asked.lent = c as usize;
                Answer::Silent
            }
            b'H' => {
                (t.n, t.s, t.f) = (a as u32, b as u32, c as u32);
                Answer::Silent
            }
            b'i' => answered(t.insert(c), Answer::Key),
            b'n' => answered(t.next_key(), Answer::Key),
            b'g' => answered(t.lookup(k), Answer::Number),
            b'c' => answered(t.contains(k), |is| Answer::Number(is as u64)),
            b'o' => answered(t.place_of(k), |place| Answer::Number(place as u64)),
            b'p' => answered(t.put(key_number(a, b), c), Answer::Number),
            b'r' => answered(t.remove(k), Answer::Number),
            b'd' => answered(t.detach(k), Answer::Number),
            b'a' => answered(t.reattach(key_number(a, b), c), |()| Answer::Done),
            b'v' | b'm' | b'x' => answered(t.retain(rule(line)), |()| Answer::Done),
            b'e' => answered(t.clear(), |()| Answer::Done),
            b'z' | b'y' => answered(t.drain_step(), |step| step.map_or(Answer::Done, |(k, v)| Answer::Pair(k, v))),
            b'k' => {
                self.asked.wanted.push(k);
                Answer::Silent
            }
            b'j' => self.asked.disjoint(|wanted, output| t.disjoint(wanted, output)),
            b'l' => answered(t.len(), |n| Answer::Number(n as u64)),
            b'f' => answered(t.len(), |n| Answer::Number((n == 0) as u64)),
            b't' => Answer::Digest(mix64(mix64(0, t.key_list()), t.value_list())),
            b's' => Answer::Digest(self.digest()),
            b'N' => answered(t.image_len(), |length| Answer::Number(length as u64)),
            b'W' | b'D' => self.write(line.op, c as usize),
            b'J' => answered(read_image(&line.bytes, t.versions.len()), |records| {
                let live = records.iter().skip(1).filter(|record| record.1.is_some()).count();
                Answer::Counts(records.len() as u64, live as u64)
            }),
            b'R' => answered(t.rebuild(&line.bytes), |()| Answer::Done),
            op => panic!("call {}", op as char),
        }
    }
}

pub struct PlainMap {
    pub m: Secondary,
    room: Room,
    asked: Asked,
}

impl PlainMap {
    pub fn new() -> PlainMap {
        let m = Secondary { versions: vec![], values: vec![], s: 0, count: 0 };
        PlainMap { m, room: Room::new(), asked: Asked::new(OUTPUT) }
    }

    fn bend(&mut self, line: &Line) -> Answer {
        let (m, room) = (&mut self.m, &mut self.room);
        room.versions[..m.versions.len()].copy_from_slice(&m.versions);
        room.values[..m.values.len()].copy_from_slice(&m.values);
        room.bend(line);
        m.versions = room.versions[..room.lent[0]].to_vec();
        m.values = room.values[..room.lent[3]].to_vec();
        Answer::Silent
    }

    fn digest(&self) -> u64 {
        let m = &self.m;
        let header = [m.is_whole() as u64, m.s as u64, m.count as u64];
        let h = mix64(mix32(mix64(0, &header), &m.versions), &m.values);
        mix32(h, &self.asked.output[..self.asked.lent])
    }
}

fn stepped(result: Result<Option<(u64, u64, u32)>, u32>) -> Answer {
    answered(result, |step| step.map_or(Answer::Done, |(k, v, next)| Answer::Step(k, v, next as u64)))
}

fn entered(result: Result<Entered, u32>) -> Answer {
    answered(result, |entered| match entered {
        Entered::Ignored => Answer::Ignored,
        Entered::Replaced(old) => Answer::Number(old),
        Entered::Kept => Answer::Kept,
        Entered::Stored => Answer::Done,
    })
}

impl Reading for PlainMap {
    fn is_sound(&self) -> bool {
        self.m.is_whole()
    }

    fn call(&mut self, line: &Line) -> Answer {
        let (a, b, c) = (line.a, line.b, line.c);
        let k = key_number(b, c);
        let m = &mut self.m;
        match line.op {
            b'L' => {
                self.asked.lent = self.asked.output.len();
                self.bend(line);
                answered(self.m.fresh(), |()| Answer::Done)
            }
            b'A' | b'B' | b'V' | b'X' => self.bend(line),
            b'O' => {
                self.asked.lent = c as usize;
                Answer::Silent
            }
            b'H' => {
                (m.s, m.count) = (b as u32, c as u32);
                Answer::Silent
            }
            b'i' => entered(m.insert(key_number(a, b), c)),
            b'p' => answered(m.put(key_number(a, b), c), Answer::Number),
            b'g' => answered(m.lookup(k), Answer::Number),
            b'c' => answered(m.contains(k), |is| Answer::Number(is as u64)),
            b'o' => answered(m.slot_of(k), |slot| Answer::Number(slot as u64)),
            b'r' => answered(m.remove(k), Answer::Number),
            b'v' | b'm' | b'x' => answered(m.retain(rule(line)), |()| Answer::Done),
            b'e' => answered(m.clear(), |()| Answer::Done),
            b'y' => stepped(m.look_step(c as u32)),
            b'z' => stepped(m.drain_step(c as u32)),
            b'k' => {
                self.asked.wanted.push(k);
                Answer::Silent
            }
            b'j' => self.asked.disjoint(|wanted, output| m.disjoint(wanted, output)),
            b'l' => answered(m.len(), |n| Answer::Number(n as u64)),
            b'f' => answered(m.len(), |n| Answer::Number((n == 0) as u64)),
            b's' => Answer::Digest(self.digest()),
            op => panic!("call {}", op as char),
        }
    }
}
