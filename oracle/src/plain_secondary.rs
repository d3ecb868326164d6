//! The plain reading of the secondary map.
use crate::plain::{index_of, pack, read, version_of, Rule, MAX, MOST};

/// The secondary map: lent versions and values of one length, slot count and element count. Version 0 is vacant, no other is.
#[derive(Clone, PartialEq, Debug)]
pub struct Secondary {
    pub versions: Vec<u32>,
    pub values: Vec<u64>,
    pub s: u32,
    pub count: u32,
}

/// The four answers of an insert.
pub enum Entered {
    Ignored,
    Replaced(u64),
    Kept,
    Stored,
}

impl Secondary {
    fn lengths_fit(&self) -> bool {
        let length = self.versions.len();
        self.values.len() == length && 1 <= length && length <= MOST + 1
    }

    /// Other calls than fresh judge lengths and s first.
    fn shape(&self) -> Result<(), u32> {
        if self.lengths_fit() && 1 <= self.s && self.s as usize <= self.versions.len() {
            Ok(())
        } else {
            Err(1)
        }
    }

    /// A key is held where its slot has its version, as `get` in the Rust (slot 0 too).
    fn slot(&self, key: u64) -> Result<usize, u32> {
        if index_of(key) < self.s && self.versions[index_of(key) as usize] == version_of(key) {
            Ok(index_of(key) as usize)
        } else {
            Err(2)
        }
    }

    /// The slot of a key, as lookup finds it.
    pub fn slot_of(&self, number: u64) -> Result<usize, u32> {
        self.shape()?;
        self.slot(read(number))
    }

    /// Slot 0 gets version 0; s=1, count 0; it judges lengths only.
    pub fn fresh(&mut self) -> Result<(), u32> {
        if !self.lengths_fit() {
            return Err(1);
        }
        self.versions[0] = 0;
        (self.s, self.count) = (1, 0);
        Ok(())
    }

    pub fn len(&self) -> Result<u32, u32> {
        self.shape()?;
        Ok(self.count)
    }

    pub fn contains(&self, number: u64) -> Result<bool, u32> {
        self.shape()?;
        Ok(self.slot(read(number)).is_ok())
    }

    pub fn lookup(&self, number: u64) -> Result<u64, u32> {
        Ok(self.values[self.slot_of(number)?])
    }

    pub fn put(&mut self, number: u64, value: u64) -> Result<u64, u32> {
        let slot = self.slot_of(number)?;
        let old = self.values[slot];
        self.values[slot] = value;
        Ok(old)
    }

    /// Null key: ignored. Index 0: 9. Index ≥ L: 8. Then slots up to the index become vacant, s grows. Same version: replace.
    /// Occupied by a newer version: kept. Else stored; the count grows only if the slot was vacant, and at or above the new s−1 that is 5.
    pub fn insert(&mut self, number: u64, value: u64) -> Result<Entered, u32> {
        self.shape()?;
        let key = read(number);
        let index = index_of(key);
        if index == MAX {
            return Ok(Entered::Ignored);
        }
        if index == 0 {
            return Err(9);
        }
        let slot = index as usize;
        if slot >= self.versions.len() {
            return Err(8);
        }
        let grown = self.s.max(index + 1);
        let held = if index < self.s {
            self.versions[slot]
        } else {
            0
        };
        if held == 0 && self.count >= grown - 1 {
            return Err(5);
        }
        for new in self.s..grown {
            self.versions[new as usize] = 0;
        }
        self.s = grown;
        if held == version_of(key) {
            let old = self.values[slot];
            self.values[slot] = value;
            return Ok(Entered::Replaced(old));
        }
        if held != 0 && version_of(key) < held {
            return Ok(Entered::Kept);
        }
        if held == 0 {
            self.count += 1;
        }
        self.versions[slot] = version_of(key);
        self.values[slot] = value;
        Ok(Entered::Stored)
    }

    /// Removing sets version 0 and keeps the stored value. Counting down at 0 is 5.
    fn vacate(&mut self, slot: usize) -> Result<u64, u32> {
        if self.count == 0 {
            return Err(5);
        }
        self.versions[slot] = 0;
        self.count -= 1;
        Ok(self.values[slot])
    }

    pub fn remove(&mut self, number: u64) -> Result<u64, u32> {
        let slot = self.slot_of(number)?;
        self.vacate(slot)
    }

    /// The occupied slot of lowest index from a given place on (0 reads as 1): its key, made with an odd version, its value,
    /// and the place after it; or done (`None`).
    pub fn look_step(&self, from: u32) -> Result<Option<(u64, u64, u32)>, u32> {
        self.shape()?;
        for slot in from.max(1)..self.s {
            let version = self.versions[slot as usize];
            if version != 0 {
                return Ok(Some((
                    pack(slot, version | 1),
                    self.values[slot as usize],
                    slot + 1,
                )));
            }
        }
        Ok(None)
    }

    /// As the looking step, and the slot becomes vacant.
    pub fn drain_step(&mut self, from: u32) -> Result<Option<(u64, u64, u32)>, u32> {
        let step = self.look_step(from)?;
        if let Some((_, _, next)) = step {
            self.vacate(next as usize - 1)?;
        }
        Ok(step)
    }

    /// Each stored version must be 0 or odd, slot 0 vacant, the element count true.
    pub fn is_whole(&self) -> bool {
        if self.shape().is_err() || self.versions[0] != 0 {
            return false;
        }
        let slots = &self.versions[..self.s as usize];
        slots
            .iter()
            .all(|&version| version == 0 || version % 2 == 1)
            && slots.iter().filter(|&&version| version != 0).count() == self.count as usize
    }

    fn asks_whole(&self) -> Result<(), u32> {
        self.shape()?;
        if self.is_whole() {
            Ok(())
        } else {
            Err(5)
        }
    }

    /// Retain takes the rules above and asks for the whole check.
    pub fn retain(&mut self, rule: Rule) -> Result<(), u32> {
        self.asks_whole()?;
        for slot in 0..self.s as usize {
            let version = self.versions[slot];
            if version != 0 && !rule.keeps(pack(slot as u32, version), self.values[slot]) {
                self.vacate(slot)?;
            }
        }
        Ok(())
    }

    /// Drain steps until done, asked of a whole map.
    pub fn clear(&mut self) -> Result<(), u32> {
        self.asks_whole()?;
        while self.drain_step(0)?.is_some() {}
        Ok(())
    }

    /// Keys all held and, as read, all different give their slot indexes; then 6.
    pub fn disjoint(&self, numbers: &[u64], out: &mut [u32]) -> Result<(), u32> {
        self.shape()?;
        let mut slots = Vec::new();
        for (i, &number) in numbers.iter().enumerate() {
            if numbers[..i]
                .iter()
                .any(|&earlier| read(earlier) == read(number))
            {
                return Err(2);
            }
            slots.push(self.slot(read(number))? as u32);
        }
        if out.len() < numbers.len() {
            return Err(6);
        }
        out[..numbers.len()].copy_from_slice(&slots);
        Ok(())
    }
}
