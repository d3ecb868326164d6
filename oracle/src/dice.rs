//! What the generators of lists share: choices, values, versions, keys and images, and a list under way.
use crate::image;

/// A deterministic source of choices.
pub struct Dice(u64);

impl Dice {
    pub fn new(seed: u64) -> Dice {
        Dice(seed.wrapping_mul(0x9e37_79b9_7f4a_7c15) | 1)
    }

    /// A number below `sides`.
    pub fn roll(&mut self, sides: u64) -> u64 {
        self.0 ^= self.0 << 13;
        self.0 ^= self.0 >> 7;
        self.0 ^= self.0 << 17;
        (self.0 >> 11) % sides
    }

    pub fn pick<T: Copy>(&mut self, from: &[T]) -> T {
        from[self.roll(from.len() as u64) as usize]
    }

    /// One of the kinds, as often as its weight says.
    pub fn kind(&mut self, weights: &[(u8, u64)]) -> u8 {
        let mut at = self.roll(weights.iter().map(|w| w.1).sum());
        for (op, weight) in weights {
            if at < *weight {
                return *op;
            }
            at -= weight;
        }
        unreachable!()
    }
}

/// Values are small mostly, so that the lists stay short; some have one bit, some are at the end of their range.
pub fn some_value(dice: &mut Dice) -> u64 {
    match dice.roll(40) {
        0 => 1 << dice.roll(64),
        1 => u64::MAX - dice.roll(3),
        2 => dice.roll(1 << 50),
        _ => dice.roll(100),
    }
}

/// Versions at the start, around 2^31 and around 2^32.
pub fn some_version(dice: &mut Dice) -> u64 {
    match dice.roll(6) {
        0 => 0x7fff_fffa + dice.roll(10),
        1 => 0xffff_fff8 + dice.roll(8),
        2 => 0xffff_fffe + dice.roll(2),
        3 => dice.roll(300),
        _ => dice.roll(5),
    }
}

/// A key with one field changed: the version's lowest bit, the version, the index, or the index of no slot.
pub fn bent(dice: &mut Dice, k: u64, slots: u64) -> u64 {
    let (idx, version) = (k & 0xffff_ffff, k >> 32);
    let version_is = |v: u64| (v & 0xffff_ffff) << 32 | idx;
    match dice.roll(8) {
        0 | 1 => k ^ 1 << 32,
        2 => version_is(version + 2),
        3 => version_is(version.wrapping_sub(2)),
        4 => version_is(version ^ 1 << dice.roll(32)),
        5 => version << 32 | dice.roll(slots + 2),
        6 => version << 32 | (idx ^ 1 << dice.roll(32)),
        _ => version << 32 | dice.pick(&[0, 0xffff_ffff]),
    }
}

/// An image whose slots fit C, with versions from `some_version`; one slot in `free` is vacant.
pub fn some_image(dice: &mut Dice, c: u64, free: u64) -> Vec<u8> {
    image_but(dice, c, free, 0)
}

/// The same, but for one slot whose version and presence contradict each other.
fn image_but(dice: &mut Dice, c: u64, free: u64, wrong: u64) -> Vec<u8> {
    let s = 1 + if dice.roll(3) == 0 { c } else { dice.roll(c + 1) };
    let mut out = vec![];
    image::push_number(&mut out, s);
    out.extend([0, 0]);
    for i in 1..s {
        let odd = dice.roll(free) > 0;
        let there = odd != (i == wrong);
        image::push_number(&mut out, some_version(dice) & !1 | odd as u64);
        out.push(there as u8);
        if there {
            image::push_number(&mut out, some_value(dice));
        }
    }
    out
}

/// An image with a fault: cut off, a number lengthened or changed, bytes added, an odd first slot, a presence or a count that is wrong.
pub fn damaged(dice: &mut Dice, c: u64) -> Vec<u8> {
    let mut b = some_image(dice, c, 3);
    let at = dice.roll(b.len() as u64) as usize;
    match dice.roll(10) {
        0 => b.truncate(at),
        1 => b[at] ^= 1 << dice.roll(8),
        2 => b.insert(at, 0x80),
        3 => {
            b[at] |= 0x80;
            b.insert(at + 1, 0);
        }
        4 => b.push(dice.roll(256) as u8),
        5 => b[1] = 1,
        6 => b[2] = dice.pick(&[2, 127]),
        7 => {
            // too many slots, or none
            let mut count = vec![];
            image::push_number(&mut count, dice.pick(&[0, c + 2, c + 3, 200, 0xffff_ffff, 0x1_0000_0000]));
            b.splice(0..1, count);
        }
        8 => b = image_but(dice, c, 3, 1),
        _ => {
            let long = dice.pick(&[4, 5, 9, 10]);
            b.splice(at..at, vec![0xff; long]);
        }
    }
    b
}

/// An image whose first record is not 0, 0: its version and value are thrown away.
pub fn odd_start(dice: &mut Dice, c: u64) -> Vec<u8> {
    let mut b = some_image(dice, c, 3);
    let mut first = vec![];
    image::push_number(&mut first, some_version(dice) & 0xffff_fffe);
    first.push(1);
    image::push_number(&mut first, some_value(dice));
    let at = if b[0] < 128 { 1 } else { 2 };
    b.splice(at..at + 2, first);
    b
}

/// A list under way.
pub struct List {
    pub text: String,
    pub since: u32,
}

impl List {
    pub fn new() -> List {
        List { text: String::new(), since: 0 }
    }

    pub fn add(&mut self, line: &str) {
        self.text.push_str(line);
        self.text.push('\n');
        self.since += 1;
    }
}
