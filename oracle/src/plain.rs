//! A plain reading of docs/01-scope.md: every call on any arrays and any header, with no crate behind it.
//! Nothing here is fast or clever. An answer is `Ok`, a refusal is `Err` with its number, and a refused call has written nothing.

pub const MAX: u32 = u32::MAX;
pub const MOST: usize = 4096;

/// A key is an index (lower 32 bits) and a version (upper 32 bits).
pub fn index_of(key: u64) -> u32 {
    key as u32
}

pub fn version_of(key: u64) -> u32 {
    (key >> 32) as u32
}

pub fn pack(index: u32, version: u32) -> u64 {
    ((version as u64) << 32) | index as u64
}

/// Every number given as a key is read as `from_ffi` does: the version's lowest bit is set.
pub fn read(number: u64) -> u64 {
    number | (1 << 32)
}

/// The rules of retain. If lo > hi, none is kept.
#[derive(Clone, Copy)]
pub enum Rule {
    Value(u64, u64),
    Masked(u64, u64),
    Index(u32, u32),
}

impl Rule {
    pub fn keeps(self, key: u64, value: u64) -> bool {
        match self {
            Rule::Value(lo, hi) => lo <= value && value <= hi,
            Rule::Masked(mask, wanted) => value & mask == wanted,
            Rule::Index(lo, hi) => lo <= index_of(key) && index_of(key) <= hi,
        }
    }
}

/// The dense table: four lent arrays, and the header's element count, slot count and free head.
#[derive(Clone, PartialEq, Debug)]
pub struct Dense {
    pub versions: Vec<u32>,
    pub links: Vec<u32>,
    pub keys: Vec<u64>,
    pub values: Vec<u64>,
    pub n: u32,
    pub s: u32,
    pub f: u32,
}

impl Dense {
    pub fn capacity(&self) -> usize {
        self.keys.len()
    }

    pub fn lengths_fit(&self) -> bool {
        let c = self.capacity();
        c <= MOST
            && self.values.len() == c
            && self.versions.len() == c + 1
            && self.links.len() == c + 1
    }

    /// Shape holds when the lengths fit, 1 ≤ s ≤ C+1, n ≤ s−1 and 1 ≤ f ≤ s.
    pub fn shape(&self) -> Result<(), u32> {
        let holds = self.lengths_fit()
            && 1 <= self.s
            && self.s as usize <= self.capacity() + 1
            && self.n <= self.s - 1
            && 1 <= self.f
            && self.f <= self.s;
        if holds {
            Ok(())
        } else {
            Err(1)
        }
    }

    fn is_slot(&self, index: u32) -> bool {
        1 <= index && index < self.s
    }

    /// Live when 1 ≤ index < s and the slot's version equals the key's.
    fn live(&self, key: u64) -> bool {
        self.is_slot(index_of(key)) && self.versions[index_of(key) as usize] == version_of(key)
    }

    /// A live key's place. Damaged when its link is ≥ n or the place holds another key.
    fn place(&self, key: u64) -> Result<usize, u32> {
        if !self.live(key) {
            return Err(2);
        }
        let link = self.links[index_of(key) as usize];
        if link >= self.n || self.keys[link as usize] != key {
            return Err(5);
        }
        Ok(link as usize)
    }

    /// The place of a key, as lookup finds it.
    pub fn place_of(&self, number: u64) -> Result<usize, u32> {
        self.shape()?;
        self.place(read(number))
    }

    /// Slot 0 gets version 0, link 0; n=0, s=1, f=1; nothing else is written. Only the lengths are judged.
    pub fn fresh(&mut self) -> Result<(), u32> {
        if !self.lengths_fit() {
            return Err(1);
        }
        self.versions[0] = 0;
        self.links[0] = 0;
        (self.n, self.s, self.f) = (0, 1, 1);
        Ok(())
    }

    pub fn len(&self) -> Result<u32, u32> {
        self.shape()?;
        Ok(self.n)
    }

    pub fn contains(&self, number: u64) -> Result<bool, u32> {
        self.shape()?;
        Ok(self.live(read(number)))
    }

    /// The link is the place; its value is answered.
    pub fn lookup(&self, number: u64) -> Result<u64, u32> {
        let place = self.place_of(number)?;
        Ok(self.values[place])
    }

    /// Put overwrites that value only and answers the old one.
    pub fn put(&mut self, number: u64, value: u64) -> Result<u64, u32> {
        let place = self.place_of(number)?;
        let old = self.values[place];
        self.values[place] = value;
        Ok(old)
    }

    /// The key that insert would answer, or its refusal.
    pub fn next_key(&self) -> Result<u64, u32> {
        self.shape()?;
        if self.f < self.s {
            let slot = self.f as usize;
            let link = self.links[slot];
            if self.versions[slot] % 2 == 1 || link < 1 || link > self.s || self.n == self.s - 1 {
                return Err(5);
            }
            return Ok(pack(self.f, self.versions[slot] | 1));
        }
        if self.s as usize == self.capacity() + 1 {
            return Err(3);
        }
        Ok(pack(self.s, 1))
    }

    /// If f < s, take slot f: its version has the lowest bit set, f becomes its link, its link becomes n.
    /// Else append slot s with version 1, link n; s grows by one and f becomes the new s.
    /// Key and value go to place n; n grows.
    pub fn insert(&mut self, value: u64) -> Result<u64, u32> {
        let key = self.next_key()?;
        if self.f < self.s {
            let slot = self.f as usize;
            self.versions[slot] |= 1;
            self.f = self.links[slot];
            self.links[slot] = self.n;
        } else {
            let slot = self.s as usize;
            self.versions[slot] = 1;
            self.links[slot] = self.n;
            self.s += 1;
            self.f = self.s;
        }
        self.keys[self.n as usize] = key;
        self.values[self.n as usize] = value;
        self.n += 1;
        Ok(key)
    }

    /// What remove and detach judge: the key's place, and that the last key names a slot.
    fn leaving(&self, key: u64) -> Result<usize, u32> {
        self.shape()?;
        let place = self.place(key)?;
        if !self.is_slot(index_of(self.keys[self.n as usize - 1])) {
            return Err(5);
        }
        Ok(place)
    }

    /// n falls. Unless the freed place is the last, the last key and value move into it and that key's slot link becomes it.
    /// The old last place keeps what it held.
    fn close(&mut self, place: usize) {
        self.n -= 1;
        let last = self.n as usize;
        if place != last {
            let moved = self.keys[last];
            self.keys[place] = moved;
            self.values[place] = self.values[last];
            self.links[index_of(moved) as usize] = place as u32;
        }
    }

    /// The slot's version goes up by one, wrapping; its link becomes f, f becomes its index.
    fn free(&mut self, index: u32) {
        let slot = index as usize;
        self.versions[slot] = self.versions[slot].wrapping_add(1);
        self.links[slot] = self.f;
        self.f = index;
    }

    pub fn remove(&mut self, number: u64) -> Result<u64, u32> {
        let key = read(number);
        let place = self.leaving(key)?;
        let value = self.values[place];
        self.free(index_of(key));
        self.close(place);
        Ok(value)
    }

    /// As remove, but the link becomes 4,294,967,295 and f stays.
    pub fn detach(&mut self, number: u64) -> Result<u64, u32> {
        let key = read(number);
        let place = self.leaving(key)?;
        let value = self.values[place];
        let slot = index_of(key) as usize;
        self.versions[slot] = self.versions[slot].wrapping_add(1);
        self.links[slot] = MAX;
        self.close(place);
        Ok(value)
    }

    /// Index from 1 to s−1, slot version equals key version plus one, wrapping, and link 4,294,967,295.
    /// Version goes back by one; key and value go to place n; link is n; n grows.
    pub fn reattach(&mut self, number: u64, value: u64) -> Result<(), u32> {
        self.shape()?;
        let key = read(number);
        let slot = index_of(key) as usize;
        if !self.is_slot(index_of(key))
            || self.versions[slot] != version_of(key).wrapping_add(1)
            || self.links[slot] != MAX
        {
            return Err(4);
        }
        if self.n == self.s - 1 {
            return Err(5);
        }
        self.versions[slot] = self.versions[slot].wrapping_sub(1);
        self.links[slot] = self.n;
        self.keys[self.n as usize] = key;
        self.values[self.n as usize] = value;
        self.n += 1;
        Ok(())
    }

    /// Takes the last place, answers its key and value, lowers n and frees its slot; on n=0 it answers done (`None`).
    pub fn drain_step(&mut self) -> Result<Option<(u64, u64)>, u32> {
        self.shape()?;
        if self.n == 0 {
            return Ok(None);
        }
        let last = self.n - 1;
        let key = self.keys[last as usize];
        let index = index_of(key);
        if !self.is_slot(index)
            || self.versions[index as usize] != version_of(key)
            || self.links[index as usize] != last
        {
            return Err(5);
        }
        self.n = last;
        self.free(index);
        Ok(Some((key, self.values[last as usize])))
    }

    /// What retain, clear and image writing ask for.
    pub fn asks_sound(&self) -> Result<(), u32> {
        self.shape()?;
        if self.is_sound() {
            Ok(())
        } else {
            Err(5)
        }
    }

    /// Walk from place 0; a dropped element is removed and the same place looked at again.
    pub fn retain(&mut self, rule: Rule) -> Result<(), u32> {
        self.asks_sound()?;
        let mut place = 0;
        while place < self.n as usize {
            let key = self.keys[place];
            if rule.keeps(key, self.values[place]) {
                place += 1;
            } else {
                self.remove(key)?;
            }
        }
        Ok(())
    }

    /// Clear is drain steps until done.
    pub fn clear(&mut self) -> Result<(), u32> {
        self.asks_sound()?;
        while self.drain_step()?.is_some() {}
        Ok(())
    }

    /// Keys all live and, as read, all different give their places in order. Each is judged by 2 then 5; at last 6.
    pub fn disjoint(&self, numbers: &[u64], out: &mut [u32]) -> Result<(), u32> {
        self.shape()?;
        let mut places = Vec::new();
        for (i, &number) in numbers.iter().enumerate() {
            if numbers[..i]
                .iter()
                .any(|&earlier| read(earlier) == read(number))
            {
                return Err(2);
            }
            places.push(self.place(read(number))? as u32);
        }
        if out.len() < numbers.len() {
            return Err(6);
        }
        out[..numbers.len()].copy_from_slice(&places);
        Ok(())
    }

    /// The first n keys, or none if shape fails.
    pub fn key_list(&self) -> &[u64] {
        if self.shape().is_err() {
            &[]
        } else {
            &self.keys[..self.n as usize]
        }
    }

    /// The first n values, or none if shape fails.
    pub fn value_list(&self) -> &[u64] {
        if self.shape().is_err() {
            &[]
        } else {
            &self.values[..self.n as usize]
        }
    }

    /// Sound, sentence by sentence.
    pub fn is_sound(&self) -> bool {
        if self.shape().is_err() || self.versions[0] != 0 || self.links[0] != 0 {
            return false;
        }
        // Each place's key has an index from 1 to s−1 and that slot holds the key's odd version and the place as link.
        for place in 0..self.n {
            let key = self.keys[place as usize];
            let index = index_of(key);
            if !self.is_slot(index)
                || version_of(key) % 2 == 0
                || self.versions[index as usize] != version_of(key)
                || self.links[index as usize] != place
            {
                return false;
            }
        }
        // Exactly n slots have odd versions.
        let slots = self.s as usize;
        if self.versions[..slots]
            .iter()
            .filter(|&&version| version % 2 == 1)
            .count()
            != self.n as usize
        {
            return false;
        }
        // The list from f runs over vacant slots, each once, and ends at s.
        let mut listed = vec![false; slots];
        let mut at = self.f;
        while at != self.s {
            if !self.is_slot(at) || self.versions[at as usize] % 2 == 1 || listed[at as usize] {
                return false;
            }
            listed[at as usize] = true;
            at = self.links[at as usize];
        }
        // Each other slot from 1 up is either detached or on the list.
        (1..slots)
            .all(|slot| self.versions[slot] % 2 == 1 || self.links[slot] == MAX || listed[slot])
    }
}
