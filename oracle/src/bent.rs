//! The bent part of each list: rounds on tables and maps that no sequence of calls could leave, answered by the plain reading of the rules.
//!
//! A round starts a table over whatever the arrays hold from before, builds it up by a few calls, bends cells, header or lengths, and then
//! makes one to four calls. The whole state is asked after every call that changed it, and after a third of the others.
use crate::dice::{Dice, List};
use crate::lines::{Answer, Line};
use crate::plain::{pack, MAX};
use crate::plain_calls::Reading;

/// Whether a letter names a line that only bends: it has no answer, and the crate knows none.
pub fn bends(op: u8) -> bool {
    matches!(op, b'A' | b'B' | b'O' | b'H' | b'V' | b'U' | b'K' | b'X')
}

/// Even and odd versions around 2^31 and 2^32.
pub const OLD_EVEN: [u32; 5] = [MAX - 1, MAX - 1, 0, 0x7fff_fffe, 0x8000_0000];
pub const OLD_ODD: [u32; 5] = [MAX, MAX, MAX - 2, 0x7fff_ffff, 0x8000_0001];

/// Most are small, so that rules and keys meet them.
pub fn value(dice: &mut Dice) -> u64 {
    match dice.roll(12) {
        0 => u64::MAX - dice.roll(3),
        1 => dice.roll(1 << 50),
        _ => dice.roll(8),
    }
}

/// A header number, link or index at an edge.
pub fn edge(dice: &mut Dice, n: u32, s: u32, c: usize) -> u32 {
    let x = match dice.roll(12) {
        0..=3 => s,
        4..=6 => n,
        7 | 8 => c as u32,
        9 => return MAX,
        _ => return dice.roll(8) as u32,
    };
    x.wrapping_add(dice.roll(3) as u32).wrapping_sub(1)
}

/// Sometimes one bit of a key is turned: the lowest of its version, the next one, or the lowest of its index.
pub fn twist(dice: &mut Dice, key: u64) -> u64 {
    match dice.roll(20) {
        0 => key ^ 1 << 32,
        1 => key ^ 1 << 33,
        2 => key ^ 1,
        _ => key,
    }
}

/// The key that a slot's version belongs to: the live one, or mostly the one that left last.
pub fn slot_key(dice: &mut Dice, versions: &[u32], i: usize) -> u64 {
    let version = versions.get(i).copied().unwrap_or(0);
    if version % 2 == 0 && dice.roll(4) > 0 {
        return pack(i as u32, version.wrapping_sub(1));
    }
    pack(i as u32, version)
}

pub fn rule(dice: &mut Dice, op: u8) -> String {
    let (lo, hi) = match op {
        b'v' => (value(dice), value(dice)),
        b'm' => (dice.roll(4), dice.roll(4)),
        _ => (dice.roll(5), dice.roll(8)),
    };
    format!("{}{lo} {hi}", op as char)
}

/// Sizes from 0 to 6, mostly in the middle.
pub fn small(dice: &mut Dice) -> usize {
    (dice.roll(4) + dice.roll(4)) as usize
}

/// One length is one more or one less, or all are.
fn lengths(dice: &mut Dice, mut lengths: [usize; 4]) -> [usize; 4] {
    let up = dice.roll(2) == 0;
    let which = dice.roll(5) as usize;
    for (i, length) in lengths.iter_mut().enumerate() {
        if which == 4 || which == i {
            *length = if up { *length + 1 } else { length.saturating_sub(1) };
        }
    }
    lengths
}

/// A list under way, and the reading that answers it.
pub struct Bent<R> {
    pub dice: Dice,
    pub list: List,
    pub reading: R,
    /// The slot that was bent last, which calls ask for.
    pub aim: Option<usize>,
}

impl<R: Reading> Bent<R> {
    /// Goes on where the first part of the list ended.
    pub fn new(seed: u64, mut reading: R, first: &str) -> Bent<R> {
        for line in first.lines() {
            reading.call(&Line::parse(line));
        }
        Bent { dice: Dice::new(seed), list: List::new(), reading, aim: None }
    }

    pub fn say(&mut self, line: &str) -> Answer {
        self.list.add(line);
        self.reading.call(&Line::parse(line))
    }

    pub fn roll(&mut self, sides: usize) -> usize {
        self.dice.roll(sides.max(1) as u64) as usize
    }

    /// A call and, if it changed something or by chance, the whole state.
    pub fn call(&mut self, line: &str, changes: bool) {
        let answer = self.say(line);
        let accepted = !matches!(answer, Answer::Refused(_));
        if changes && accepted || self.dice.roll(3) == 0 {
            self.say("s");
        }
    }

    pub fn lend(&mut self, table: [usize; 4]) {
        let [a, b, k, v] = lengths(&mut self.dice, table);
        self.say(&format!("A{a} {b}"));
        self.say(&format!("B{k} {v}"));
    }
}
