//! Rounds on bent tables, for the lists of calls, sweeps and images, read and written.
use crate::bent::{edge, rule, slot_key, small, twist, value, Bent, OLD_EVEN, OLD_ODD};
use crate::dense::OUTPUT;
use crate::dice::{damaged, odd_start, some_image};
use crate::lines::{hex, named};
use crate::plain::{index_of, pack, version_of, MAX};
use crate::plain_calls::PlainTable;

/// How often each kind of call comes: while a table is built, and on the bent table. `+` ages a slot, `_` detaches a free slot by hand.
struct Kinds {
    builds: &'static [(u8, u64)],
    calls: &'static [(u8, u64)],
}

const DENSE: Kinds = Kinds {
    builds: &[(b'i', 9), (b'r', 3), (b'd', 2), (b'a', 2), (b'+', 2)],
    calls: &[(b'i', 12), (b'r', 14), (b'd', 12), (b'a', 14), (b'p', 8), (b'g', 8), (b'o', 6), (b'c', 5), (b'n', 7), (b'l', 3), (b'f', 2), (b't', 4)],
};

const SWEEP: Kinds = Kinds {
    builds: &[(b'i', 9), (b'z', 3), (b'_', 1), (b'+', 2)],
    calls: &[(b'i', 6), (b'v', 8), (b'm', 8), (b'x', 8), (b'e', 10), (b'z', 14), (b'y', 12), (b'j', 24)],
};

const READ: Kinds = Kinds {
    builds: &[(b'i', 9), (b'r', 3), (b'd', 2), (b'+', 2)],
    calls: &[(b'i', 6), (b'r', 6), (b'd', 6), (b'R', 24), (b'J', 12)],
};

const WRITTEN: Kinds = Kinds {
    builds: &[(b'i', 9), (b'r', 3), (b'd', 2), (b'+', 2)],
    calls: &[(b'i', 6), (b'r', 6), (b'd', 6), (b'W', 14), (b'D', 8), (b'N', 10)],
};

impl Bent<PlainTable> {
    fn header(&mut self, n: u32, s: u32, f: u32) {
        self.say(&format!("H{n} {s} {f}"));
    }

    /// A key to ask for; for a reattach mostly a detached one.
    fn key(&mut self, reattach: bool) -> u64 {
        let at = if reattach && self.roll(3) > 0 { 9 } else { self.roll(11) };
        let (p, i) = (self.roll(self.reading.t.n as usize), self.roll(self.reading.t.s as usize));
        if let (Some(aim), 0) = (self.aim, self.roll(2)) {
            return slot_key(&mut self.dice, &self.reading.t.versions, aim);
        }
        let parked = self.parked();
        let (t, dice) = (&self.reading.t, &mut self.dice);
        let key = match at {
            0..=5 => t.keys.get(p).copied().unwrap_or(0),
            6..=8 => slot_key(dice, &t.versions, i),
            9 => slot_key(dice, &t.versions, parked.unwrap_or(i)),
            _ => return pack(edge(dice, t.n, t.s, t.keys.len()), dice.roll(4) as u32),
        };
        twist(dice, key)
    }

    fn parked(&self) -> Option<usize> {
        let t = &self.reading.t;
        t.links.iter().take(t.s as usize).position(|link| *link == MAX)
    }

    /// A slot with the versions of a long life. What was sound stays so.
    fn age(&mut self) {
        if self.reading.t.s < 2 {
            return;
        }
        let i = 1 + self.roll(self.reading.t.s as usize - 1);
        let (version, link) = (self.reading.t.versions[i], self.reading.t.links[i]);
        if version % 2 == 0 {
            let old = self.dice.pick(&OLD_EVEN);
            self.say(&format!("V{i} {old}"));
        } else {
            let old = self.dice.pick(&OLD_ODD);
            self.say(&format!("V{i} {old}"));
            self.say(&format!("K{link} {}", pack(i as u32, old)));
        }
    }

    /// The free head leaves the list and is detached, in a program that has no detach.
    fn park(&mut self) {
        let (n, s, f) = (self.reading.t.n, self.reading.t.s, self.reading.t.f);
        if f < s {
            let next = self.reading.t.links[f as usize];
            self.say(&format!("U{f} {MAX}"));
            self.header(n, s, next);
        }
    }

    fn build(&mut self, kinds: &Kinds) {
        match self.dice.kind(kinds.builds) {
            b'+' => self.age(),
            b'_' => self.park(),
            op => {
                let line = self.line(op);
                self.say(&line);
            }
        }
    }

    /// Mostly within the shape, where the free head or the count is wrong.
    fn bend_header(&mut self, x: u32) {
        let i = self.roll(self.reading.t.s as usize) as u32;
        let (n, s, f) = (self.reading.t.n, self.reading.t.s, self.reading.t.f);
        let kind = if self.parked().is_some() && self.roll(3) == 0 { 10 } else { self.roll(16) };
        match kind {
            0..=5 => self.header(n, s, i + 1),
            6..=9 => self.header(i, s, f),
            10 | 11 => self.header(s.wrapping_sub(1), s, f),
            12 => self.header(n, s, x),
            13 => self.header(x, s, f),
            _ => self.header(n, x, f),
        }
    }

    /// Changes the header, a version, a link, a key, or the last key.
    fn bend(&mut self) {
        let (i, p) = (self.roll(self.reading.t.s as usize), self.roll(self.reading.t.n as usize));
        self.aim = Some(i);
        let t = &self.reading.t;
        let (n, c) = (t.n as usize, t.keys.len());
        let x = edge(&mut self.dice, t.n, t.s, c);
        let (version, key) = (t.versions.get(i).copied(), t.keys.get(p).copied());
        match (self.roll(8), version, key) {
            (3, Some(version), _) => {
                let new = [version ^ 1, version ^ 1, version.wrapping_add(2), x][self.roll(4)];
                self.say(&format!("V{i} {new}"));
            }
            (4 | 5, Some(_), _) => {
                self.say(&format!("U{i} {x}"));
            }
            (6, _, Some(key)) => {
                self.aim = Some(index_of(key) as usize);
                let other = pack(x, version_of(key));
                let new = [key ^ 1 << 32, key ^ 1, other, other][self.roll(4)];
                self.say(&format!("K{p} {new}"));
            }
            (7, _, Some(key)) if 0 < n && n <= c => {
                self.say(&format!("K{} {key}", n - 1));
            }
            _ => self.bend_header(x),
        }
    }

    /// The bytes that a rebuild or a judge is given: the table's own image, bent or not, or one out of nothing.
    fn image(&mut self) -> Vec<u8> {
        let c = self.reading.t.keys.len().min(6) as u64;
        let own = self.reading.t.image_len().unwrap_or(0);
        if own == 0 || own > 200 || self.roll(3) == 0 {
            return match self.roll(6) {
                0..=2 => damaged(&mut self.dice, c),
                3 => odd_start(&mut self.dice, c),
                _ => some_image(&mut self.dice, c, 3),
            };
        }
        let mut bytes = vec![0; own];
        self.reading.t.write_image(&mut bytes).unwrap();
        let at = self.roll(own);
        match self.roll(8) {
            0 | 1 => bytes[at] ^= 1,
            2 => bytes[at] = self.dice.pick(&[0, 1, 2, 128, 255]),
            3 => bytes.truncate(at),
            4 => bytes.push(0),
            _ => (),
        }
        bytes
    }

    /// The line of a call, once a disjoint's keys have been named.
    fn line(&mut self, op: u8) -> String {
        let letter = op as char;
        match op {
            b'i' => format!("i{}", value(&mut self.dice)),
            b'p' | b'a' => format!("{letter}{} {}", named(self.key(op == b'a')), value(&mut self.dice)),
            b'r' | b'd' | b'g' | b'c' | b'o' => format!("{letter}{}", named(self.key(false))),
            b'v' | b'm' | b'x' => rule(&mut self.dice, op),
            b'R' | b'J' => format!("{letter}{}", hex(&self.image())),
            b'W' | b'D' => {
                let room = self.reading.t.image_len().unwrap_or(1) + self.roll(4);
                // a large image is told by its digest
                let letter = if room > 400 { 'D' } else { letter };
                format!("{letter}{}", room.saturating_sub(1))
            }
            b'j' => {
                self.disjoint_keys();
                "j".into()
            }
            _ => letter.into(),
        }
    }

    /// Up to four keys of places side by side, one of them changed now and then; and sometimes an output that is too short.
    fn disjoint_keys(&mut self) {
        let (first, other) = (self.roll(8), self.roll(12));
        for i in 0..self.roll(5) {
            let place = (first + i) % (self.reading.t.n as usize).max(1);
            let key = if i == other { self.key(false) } else { self.reading.t.keys.get(place).copied().unwrap_or(0) };
            self.say(&format!("k{}", named(key)));
        }
        if self.roll(4) == 0 {
            let room = self.roll(4);
            self.say(&format!("O{room}"));
        }
    }

    fn calls(&mut self, kinds: &Kinds) {
        for _ in 0..1 + self.roll(4) {
            let mut op = self.dice.kind(kinds.calls);
            // without a detached slot a reattach has little to meet
            if op == b'a' && self.parked().is_none() && self.roll(3) > 0 {
                op = b'i';
            }
            let line = self.line(op);
            self.call(&line, matches!(op, b'i' | b'r' | b'd' | b'a' | b'p' | b'v' | b'm' | b'x' | b'e' | b'z' | b'y' | b'j' | b'R'));
        }
    }

    /// Bends what has been built, and calls.
    fn bent_calls(&mut self, kinds: &Kinds) {
        for _ in 0..self.dice.pick(&[0, 1, 1, 1, 2, 2, 3]) {
            self.bend();
        }
        if self.roll(12) == 0 {
            let t = &self.reading.t;
            self.lend([t.versions.len(), t.links.len(), t.keys.len(), t.values.len()]);
        }
        self.calls(kinds);
    }

    fn round(&mut self, kinds: &Kinds) {
        let c = small(&mut self.dice);
        self.aim = None;
        self.say(&format!("C{c}"));
        if self.roll(12) == 0 {
            // a header of the right shape over what the arrays hold
            let s = 1 + self.roll(c + 1) as u32;
            let (n, f) = (self.roll(s as usize) as u32, 1 + self.roll(s as usize) as u32);
            self.header(n, s, f);
        } else {
            if c > 0 && kinds.calls.iter().any(|kind| kind.0 == b'R') && self.roll(4) == 0 {
                let bytes = some_image(&mut self.dice, c as u64, 3);
                self.say(&format!("R{}", hex(&bytes)));
            }
            for _ in 0..self.roll(2 * c + 4) {
                self.build(kinds);
            }
        }
        self.bent_calls(kinds);
    }

    /// Rounds on one large table, whose slots, keys and header are set back after each; the last when a sweep has changed many.
    fn large(&mut self, kinds: &Kinds, c: usize, filled: bool, rounds: usize) {
        self.aim = None;
        self.say(&format!("C{c}"));
        for _ in 0..if filled { c } else { 4 } {
            self.say("i7");
        }
        for _ in 0..rounds {
            let before = self.reading.t.clone();
            self.bent_calls(kinds);
            self.say(&format!("A{} {}", c + 1, c + 1));
            self.say(&format!("B{c} {c}"));
            let after = &self.reading.t;
            let slots: Vec<usize> = (0..c + 1).filter(|i| before.versions[*i] != after.versions[*i] || before.links[*i] != after.links[*i]).collect();
            let places: Vec<usize> = (0..c).filter(|p| before.keys[*p] != after.keys[*p]).collect();
            if slots.len() + places.len() > 60 {
                return;
            }
            for i in slots {
                self.say(&format!("V{i} {}", before.versions[i]));
                self.say(&format!("U{i} {}", before.links[i]));
            }
            for p in places {
                self.say(&format!("K{p} {}", before.keys[p]));
            }
            self.header(before.n, before.s, before.f);
        }
    }
}

fn tables(seed: u64, output: usize, kinds: &Kinds, first: &str, rounds: usize) -> String {
    let mut bent = Bent::new(seed, PlainTable::new(output), first);
    bent.header(0, 0, 0);
    for _ in 0..rounds {
        bent.round(kinds);
    }
    bent.large(kinds, 4_097, false, 3);
    bent.large(kinds, 4_096, true, 12);
    bent.large(kinds, 4_095, false, 6);
    bent.large(kinds, 4_096, false, 6);
    bent.list.text
}

pub fn dense(first: &str) -> String {
    tables(11, 0, &DENSE, first, 4_000)
}

pub fn sweep(first: &str) -> String {
    tables(12, OUTPUT, &SWEEP, first, 3_600)
}

pub fn images(first: &str) -> String {
    tables(14, 0, &READ, first, 2_000)
}

pub fn written(first: &str) -> String {
    tables(15, 0, &WRITTEN, first, 2_000)
}
