//! Rounds on bent secondary maps.
use crate::bent::{edge, rule, slot_key, small, twist, value, Bent, OLD_ODD};
use crate::lines::named;
use crate::plain::{pack, MAX};
use crate::plain_calls::PlainMap;

const CALLS: &[(u8, u64)] = &[
    (b'i', 25), (b'r', 10), (b'v', 4), (b'm', 4), (b'x', 4), (b'z', 10), (b'y', 5), (b'e', 5), (b'p', 5), (b'j', 10), (b'g', 5), (b'c', 4), (b'o', 4), (b'l', 4), (b'f', 2),
];

impl Bent<PlainMap> {
    fn key(&mut self) -> u64 {
        let i = 1 + self.roll(self.reading.m.s as usize);
        if let (Some(aim), 0) = (self.aim, self.roll(2)) {
            return slot_key(&mut self.dice, &self.reading.m.versions, aim);
        }
        let (m, dice) = (&self.reading.m, &mut self.dice);
        match dice.roll(9) {
            0..=4 => {
                let key = slot_key(dice, &m.versions, i);
                twist(dice, key)
            }
            5 | 6 => pack(1 + dice.roll(m.versions.len().max(1) as u64) as u32, dice.roll(6) as u32),
            7 => pack(1 + dice.roll(5) as u32, dice.pick(&OLD_ODD)),
            _ => pack(edge(dice, m.count, m.s, m.versions.len()), dice.roll(4) as u32),
        }
    }

    fn line(&mut self, op: u8) -> String {
        let letter = op as char;
        match op {
            b'i' | b'p' => format!("{letter}{} {}", named(self.key()), value(&mut self.dice)),
            b'r' | b'g' | b'c' | b'o' => format!("{letter}{}", named(self.key())),
            b'v' | b'm' | b'x' => rule(&mut self.dice, op),
            b'y' | b'z' if self.roll(8) == 0 => format!("{letter}{}", MAX - self.roll(2) as u32),
            b'y' | b'z' => format!("{letter}{}", self.roll(8)),
            b'j' => {
                self.disjoint_keys();
                "j".into()
            }
            _ => letter.into(),
        }
    }

    fn disjoint_keys(&mut self) {
        let (first, other) = (self.roll(8), self.roll(12));
        for i in 0..self.roll(5) {
            let slots = self.reading.m.versions.iter().enumerate().take(self.reading.m.s as usize);
            let held: Vec<u64> = slots.filter(|slot| *slot.1 > 0).map(|(slot, version)| pack(slot as u32, *version)).collect();
            let key = if i == other || held.is_empty() { self.key() } else { held[(first + i) % held.len()] };
            self.say(&format!("k{}", named(key)));
        }
        if self.roll(4) == 0 {
            let room = self.roll(4);
            self.say(&format!("O{room}"));
        }
    }

    fn bend(&mut self) {
        let i = self.roll(self.reading.m.s as usize);
        self.aim = Some(i);
        let m = &self.reading.m;
        let (s, count) = (m.s, m.count);
        let x = edge(&mut self.dice, count, s, m.versions.len());
        let version = m.versions.get(i).copied();
        match (self.roll(8), version) {
            (k @ 0..=3, Some(version)) => {
                let new = [version.wrapping_add(1), version.wrapping_add(1), x, 0][k];
                self.say(&format!("V{i} {new}"));
            }
            (4, _) => {
                self.say(&format!("H{s} 0"));
            }
            (5 | 6, _) => {
                self.say(&format!("H{s} {x}"));
            }
            _ => {
                self.say(&format!("H{x} {count}"));
            }
        }
    }

    fn round(&mut self, length: usize, builds: usize) {
        self.aim = None;
        self.say(&format!("L{length}"));
        if self.roll(12) == 0 {
            let s = 1 + self.roll(length);
            let count = self.roll(s);
            self.say(&format!("H{s} {count}"));
        } else {
            for _ in 0..self.roll(builds) {
                let op = if self.roll(12) == 0 { b'r' } else { b'i' };
                let line = self.line(op);
                self.say(&line);
            }
        }
        for _ in 0..self.dice.pick(&[0, 1, 1, 1, 2, 2, 3]) {
            self.bend();
        }
        if self.roll(12) == 0 {
            self.lend([length; 4]);
        }
        for _ in 0..1 + self.roll(4) {
            let op = self.dice.kind(CALLS);
            let line = self.line(op);
            self.call(&line, matches!(op, b'i' | b'p' | b'r' | b'v' | b'm' | b'x' | b'e' | b'z' | b'j'));
        }
    }
}

pub fn secondary(first: &str) -> String {
    let mut bent = Bent::new(13, PlainMap::new(), first);
    bent.say("H0 0");
    for _ in 0..3_800 {
        let length = 1 + small(&mut bent.dice);
        bent.round(length, 2 * length + 4);
    }
    for length in [4_096, 4_097, 4_098, 4_097, 4_096, 4_097] {
        bent.round(length, 20);
    }
    bent.list.text
}
