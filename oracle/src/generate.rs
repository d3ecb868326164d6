//! The call lists. Each is made by running the crate beside it, so that most keys are live ones; the others are detached, old or bent in one field.
use crate::dense::{number, Dense, OUTPUT};
use crate::dice::{bent, damaged, odd_start, some_image, some_value, Dice, List};
use crate::image;
use crate::lines::{hex, named, Answer, Line};
use crate::secondary::Secondary;

/// The keys that a list's calls may name, beside the live ones.
struct Known {
    old: Vec<u64>,
    away: Vec<u64>,
}

impl Known {
    fn key(&self, dice: &mut Dice, t: &Dense, want_away: bool) -> u64 {
        let old = dice.pick(&self.old);
        let live = if t.m.is_empty() { old } else { number(dice.pick(t.m.keys_as_slice())) };
        let away = if self.away.is_empty() { old } else { dice.pick(&self.away) };
        match dice.roll(20) {
            0 => old,
            1 => away,
            2 => bent(dice, live, t.c as u64),
            3 => bent(dice, away, t.c as u64),
            _ if want_away => away,
            _ => live,
        }
    }

    /// Learns from what a call on a key answered, on a table of C.
    fn learn(&mut self, op: u8, key: u64, answer: Answer, c: usize) {
        let read = key | 1 << 32;
        match (op, answer) {
            (b'i', Answer::Key(k)) => {
                self.old.push(k);
                if self.old.len() > c + 4 {
                    self.old.remove(0);
                }
            }
            (b'd', Answer::Number(_)) => self.away.push(read),
            (b'a', Answer::Done) => self.away.retain(|x| *x != read),
            _ => {}
        }
    }
}

fn a_retain(dice: &mut Dice, c: usize, op: u8) -> String {
    // large tables lose few elements a time, small ones any number
    let few = c > 20 && dice.roll(8) > 0;
    let c = c as u64;
    match op {
        b'v' if few => format!("v{} {}", dice.roll(2), u64::MAX - dice.roll(3)),
        b'v' => format!("v{} {}", dice.roll(40), 30 + dice.roll(70)),
        b'm' if few => dice.pick(&["m0 0", "m2251799813685248 0", "m4611686018427387904 0"]).into(),
        b'm' => format!("m{} {}", dice.pick(&[1, 2, 3, 64]), dice.roll(3)),
        _ if few => format!("x{} {}", dice.roll(6), c - dice.roll(6)),
        _ => format!("x{} {}", dice.roll(c / 2 + 2), c / 2 + dice.roll(c / 2 + 3)),
    }
}

/// How often each kind of call comes, while a table grows, shrinks or stays as large as it is.
type Moods = [&'static [(u8, u64)]; 3];

const DENSE: Moods = [
    &[(b'i', 50), (b'r', 8), (b'd', 4), (b'a', 6), (b'g', 8), (b'p', 8), (b'c', 4), (b'o', 4), (b'n', 4), (b'l', 2), (b'f', 2), (b't', 2)],
    &[(b'i', 10), (b'r', 30), (b'd', 8), (b'a', 12), (b'g', 8), (b'p', 8), (b'c', 4), (b'o', 4), (b'n', 4), (b'l', 2), (b'f', 2), (b't', 2)],
    &[(b'i', 20), (b'r', 16), (b'd', 12), (b'a', 14), (b'g', 8), (b'p', 8), (b'c', 4), (b'o', 4), (b'n', 5), (b'l', 3), (b'f', 3), (b't', 3)],
];

const SWEEP: Moods = [
    &[(b'i', 60), (b'z', 2), (b'y', 2), (b'j', 10), (b'v', 1), (b'm', 1), (b'x', 1)],
    &[(b'i', 20), (b'z', 8), (b'y', 8), (b'j', 10), (b'v', 8), (b'm', 5), (b'x', 5), (b'e', 6)],
    &[(b'i', 30), (b'z', 5), (b'y', 5), (b'j', 12), (b'v', 6), (b'm', 4), (b'x', 4), (b'e', 3)],
];

/// Calls on a table of C, by the crate's own answers. Whole states are asked every 40 calls, and after each sweep and drain step.
fn dense_part(dice: &mut Dice, list: &mut List, t: &mut Dense, moods: &Moods, c: usize, calls: usize) {
    let say = |list: &mut List, t: &mut Dense, line: &str| -> Answer {
        list.add(line);
        t.call(&Line::parse(line))
    };
    let mut known = Known { old: vec![1 << 32 | 1], away: vec![] };
    say(list, t, &format!("C{c}"));
    let mut mood = moods[0];
    for i in 0..calls {
        if i % (c / 2 + 25) == 0 {
            let turn = dice.roll(4);
            mood = if c > 20 && i < 2 * c { moods[0] } else { moods[[0, 1, 2, 2][turn as usize]] };
        }
        if list.since >= 40 {
            say(list, t, "s");
            list.since = 0;
        }
        let mut op = dice.kind(mood);
        // a large table is swept seldom, and a clear is for small ones
        let sweep = matches!(op, b'v' | b'm' | b'x');
        if c > 20 && (op == b'e' && dice.roll(30) > 0 || sweep && dice.roll(6) > 0) {
            op = b'i';
        }
        let k = known.key(dice, t, op == b'a');
        let v = some_value(dice);
        let line = match op {
            b'i' => format!("i{v}"),
            b'p' | b'a' => format!("{}{} {v}", op as char, named(k)),
            b'r' | b'd' | b'g' | b'c' | b'o' => format!("{}{}", op as char, named(k)),
            b'v' | b'm' | b'x' => a_retain(dice, c, op),
            _ => (op as char).to_string(),
        };
        if op == b'j' {
            for _ in 0..dice.pick(&[0, 1, 1, 2, 2, 3, 4, 8]) {
                let k = known.key(dice, t, false);
                say(list, t, &format!("k{}", named(k)));
            }
        }
        let answer = say(list, t, &line);
        known.learn(op, k, answer, c);
        if op == b'y' || is_watched(op) {
            say(list, t, "s");
        }
    }
    say(list, t, "s");
}

/// Whether the whole state is asked after every call of this letter: it sweeps, or takes a drain step.
fn is_watched(op: u8) -> bool {
    matches!(op, b'z' | b'v' | b'm' | b'x' | b'e')
}

/// Every sequence of five calls of an alphabet, each on a fresh table, with the whole state at its end.
fn sequences(list: &mut List, begin: &str, alphabet: &[&str]) {
    let n = alphabet.len();
    for t in 0..n.pow(5) {
        list.add(begin);
        for place in (0..5).rev() {
            let call = alphabet[t / n.pow(place) % n];
            list.add(call);
            if place == 0 || is_watched(call.as_bytes()[0]) {
                list.add("s");
            }
        }
    }
}

pub fn dense() -> String {
    let mut dice = Dice::new(1);
    let mut list = List::new();
    let mut t = Dense::new(0);
    for _ in 0..700 {
        dense_part(&mut dice, &mut list, &mut t, &DENSE, 0, 2);
        dense_part(&mut dice, &mut list, &mut t, &DENSE, 1, 20);
        dense_part(&mut dice, &mut list, &mut t, &DENSE, 2, 20);
    }
    for _ in 0..9 {
        dense_part(&mut dice, &mut list, &mut t, &DENSE, 20, 5_000);
    }
    dense_part(&mut dice, &mut list, &mut t, &DENSE, 1_000, 11_000);
    dense_part(&mut dice, &mut list, &mut t, &DENSE, 4_096, 11_000);
    sequences(&mut list, "C0", &["i7", "r1 1", "a1 1 8"]);
    sequences(&mut list, "C1", &["i7", "r1 1", "d1 1", "a1 1 8"]);
    sequences(&mut list, "C2", &["i7", "r1 1", "r2 1", "d1 1", "a1 1 8"]);
    list.text
}

pub fn sweep() -> String {
    let mut dice = Dice::new(2);
    let mut list = List::new();
    let mut t = Dense::new(OUTPUT);
    for _ in 0..40 {
        dense_part(&mut dice, &mut list, &mut t, &SWEEP, 0, 2);
        dense_part(&mut dice, &mut list, &mut t, &SWEEP, 1, 100);
        dense_part(&mut dice, &mut list, &mut t, &SWEEP, 2, 150);
    }
    for _ in 0..4 {
        dense_part(&mut dice, &mut list, &mut t, &SWEEP, 20, 5_000);
    }
    dense_part(&mut dice, &mut list, &mut t, &SWEEP, 1_000, 6_000);
    dense_part(&mut dice, &mut list, &mut t, &SWEEP, 4_096, 8_000);
    sequences(&mut list, "C0", &["i7", "z", "e"]);
    sequences(&mut list, "C1", &["i7", "z", "x0 0", "e"]);
    sequences(&mut list, "C2", &["i7", "z", "x2 2", "m1 0"]);
    list.text
}

// ---- the secondary map

const SECONDARY: Moods = [
    &[(b'i', 60), (b'p', 6), (b'r', 6), (b'g', 6), (b'c', 4), (b'o', 5), (b'z', 1), (b'y', 3), (b'j', 5), (b'l', 3), (b'f', 3)],
    &[(b'i', 24), (b'p', 6), (b'r', 20), (b'g', 6), (b'c', 4), (b'o', 6), (b'z', 8), (b'y', 4), (b'j', 12), (b'v', 6), (b'm', 6), (b'x', 6), (b'e', 14), (b'l', 4), (b'f', 4)],
    &[(b'i', 34), (b'p', 8), (b'r', 10), (b'g', 10), (b'c', 5), (b'o', 10), (b'z', 4), (b'y', 5), (b'j', 18), (b'v', 6), (b'm', 6), (b'x', 6), (b'e', 4), (b'l', 5), (b'f', 5)],
];

/// A version for an insert: odd, below 2^31, where the port orders versions as the crate does.
fn young_version(dice: &mut Dice) -> u64 {
    match dice.roll(8) {
        0 => 0x7fff_ffff - 2 * dice.roll(4),
        1 => 1 + 2 * dice.roll(200),
        _ => 1 + 2 * dice.roll(3),
    }
}

fn secondary_part(dice: &mut Dice, list: &mut List, t: &mut Secondary, l: usize, calls: usize) {
    let say = |list: &mut List, t: &mut Secondary, line: &str| {
        list.add(line);
        t.call(&Line::parse(line));
    };
    let some_key = |dice: &mut Dice, t: &Secondary| -> u64 {
        let n = t.m.len() as u64;
        if n == 0 || dice.roll(12) == 0 {
            return young_version(dice) << 32 | dice.roll(l as u64 + 2);
        }
        let live = number(t.m.keys().nth(dice.roll(n) as usize).unwrap());
        if dice.roll(8) == 0 {
            return bent(dice, live, l as u64);
        }
        live
    };
    say(list, t, &format!("L{l}"));
    let mut mood = SECONDARY[0];
    for i in 0..calls {
        if i % (l / 2 + 25) == 0 {
            let turn = dice.roll(4);
            mood = if l > 21 && i < l { SECONDARY[0] } else { SECONDARY[[0, 1, 2, 2][turn as usize]] };
        }
        if list.since >= 40 {
            say(list, t, "s");
            list.since = 0;
        }
        let mut op = dice.kind(mood);
        let sweep = matches!(op, b'v' | b'm' | b'x');
        if l > 21 && (op == b'e' && dice.roll(30) > 0 || sweep && dice.roll(6) > 0) {
            op = b'i';
        }
        let k = some_key(dice, t);
        let v = some_value(dice);
        let place = if dice.roll(2) == 0 { 0 } else { dice.roll(l as u64 + 1) };
        let line = match op {
            b'i' => {
                // half go to any slot, half to a live key's, where the version decides
                let idx = if dice.roll(2) == 0 { k & 0xffff_ffff } else { dice.roll(l as u64) };
                let version = if k >> 63 == 0 && dice.roll(2) == 0 { k >> 32 } else { young_version(dice) };
                format!("i{} {v}", named(version << 32 | idx))
            }
            b'p' => format!("p{} {v}", named(k)),
            b'r' | b'g' | b'c' | b'o' => format!("{}{}", op as char, named(k)),
            b'y' | b'z' => format!("{}{place}", op as char),
            b'v' | b'm' | b'x' => a_retain(dice, l - 1, op),
            _ => (op as char).to_string(),
        };
        if op == b'j' {
            for _ in 0..dice.pick(&[0, 1, 1, 2, 2, 3, 4, 8]) {
                let k = some_key(dice, t);
                say(list, t, &format!("k{}", named(k)));
            }
        }
        say(list, t, &line);
        if is_watched(op) {
            say(list, t, "s");
        }
    }
    say(list, t, "s");
}

pub fn secondary() -> String {
    let mut dice = Dice::new(3);
    let mut list = List::new();
    let mut t = Secondary::new();
    for _ in 0..350 {
        secondary_part(&mut dice, &mut list, &mut t, 1, 4);
        secondary_part(&mut dice, &mut list, &mut t, 2, 20);
        secondary_part(&mut dice, &mut list, &mut t, 3, 20);
    }
    for _ in 0..92 {
        secondary_part(&mut dice, &mut list, &mut t, 21, 500);
    }
    secondary_part(&mut dice, &mut list, &mut t, 1_001, 4_000);
    secondary_part(&mut dice, &mut list, &mut t, 4_097, 6_000);
    sequences(&mut list, "L1", &["i1 1 7", "r1 1", "z0"]);
    sequences(&mut list, "L2", &["i1 1 7", "i1 3 8", "r1 1", "z0"]);
    sequences(&mut list, "L3", &["i1 1 7", "i2 1 8", "i1 3 9", "r1 1"]);
    list.text
}

// ---- the slot image

/// Images rebuilt and judged, `?` and `!` damaged ones, with calls on the rebuilt tables.
const READ: &[(u8, u64)] = &[
    (b'i', 20), (b'r', 10), (b'd', 6), (b'a', 6), (b'p', 3), (b'z', 3), (b'v', 2), (b'm', 2), (b'x', 2), (b'e', 1), (b'R', 14), (b'?', 14), (b'J', 12), (b'!', 8),
];

/// Images written, and their lengths.
const WRITTEN: &[(u8, u64)] = &[(b'i', 20), (b'r', 12), (b'd', 8), (b'a', 4), (b'W', 14), (b'D', 14), (b'N', 10)];

fn image_part(dice: &mut Dice, list: &mut List, t: &mut Dense, kinds: &[(u8, u64)], c: usize, calls: usize) {
    let say = |list: &mut List, t: &mut Dense, line: &str| -> Answer {
        list.add(line);
        t.call(&Line::parse(line))
    };
    let large = c > 20;
    let mut known = Known { old: vec![1 << 32 | 1], away: vec![] };
    say(list, t, &format!("C{c}"));
    for _ in 0..calls {
        let mut op = dice.kind(kinds);
        // images and sweeps of large tables come seldom
        if large && !matches!(op, b'i' | b'r' | b'd' | b'a' | b'p') && dice.roll(200) > 0 {
            op = b'i';
        }
        let k = known.key(dice, t, op == b'a');
        let line = match op {
            b'i' => format!("i{}", some_value(dice)),
            b'p' | b'a' => format!("{}{} {}", op as char, named(k), some_value(dice)),
            b'r' | b'd' => format!("{}{}", op as char, named(k)),
            b'v' | b'm' | b'x' => a_retain(dice, c, op),
            b'R' if dice.roll(5) == 0 => format!("R{}", hex(&odd_start(dice, c as u64))),
            b'R' => format!("R{}", hex(&some_image(dice, c as u64, 3))),
            b'?' => format!("R{}", hex(&damaged(dice, c as u64))),
            b'J' => format!("J{}", hex(&some_image(dice, c as u64, 3))),
            b'!' => format!("J{}", hex(&damaged(dice, c as u64))),
            b'W' | b'D' => {
                let room = image::bytes(&t.m).len() as u64 + dice.roll(5) - dice.roll(2);
                format!("{}{room}", if large { 'D' } else { op as char })
            }
            _ => (op as char).to_string(),
        };
        let answer = say(list, t, &line);
        known.learn(op, k, answer, c);
        if line.starts_with('R') || is_watched(op) || list.since >= 40 {
            say(list, t, "s");
            list.since = 0;
        }
    }
    say(list, t, "s");
}

fn image_list(seed: u64, kinds: &[(u8, u64)]) -> String {
    let mut dice = Dice::new(seed);
    let mut list = List::new();
    let mut t = Dense::new(0);
    for _ in 0..500 {
        image_part(&mut dice, &mut list, &mut t, kinds, 0, 4);
        image_part(&mut dice, &mut list, &mut t, kinds, 1, 12);
        image_part(&mut dice, &mut list, &mut t, kinds, 2, 18);
    }
    for _ in 0..25 {
        image_part(&mut dice, &mut list, &mut t, kinds, 20, 200);
    }
    image_part(&mut dice, &mut list, &mut t, kinds, 1_000, 2_500);
    image_part(&mut dice, &mut list, &mut t, kinds, 4_096, 2_500);
    list.text
}

pub fn images() -> String {
    image_list(4, READ)
}

pub fn written() -> String {
    image_list(5, WRITTEN)
}
