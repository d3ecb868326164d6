//! The plain reading of the slot image.
use crate::plain::{pack, Dense};

impl Dense {
    /// Image: s; then for each slot its version, presence 0 or 1, and the value if 1.
    fn image(&self) -> Result<Vec<u8>, u32> {
        self.asks_sound()?;
        let mut bytes = Vec::new();
        write_number(&mut bytes, self.s as u64);
        for slot in 0..self.s as usize {
            write_number(&mut bytes, self.versions[slot] as u64);
            if self.versions[slot] % 2 == 1 {
                bytes.push(1);
                write_number(&mut bytes, self.values[self.links[slot] as usize]);
            } else {
                bytes.push(0);
            }
        }
        Ok(bytes)
    }

    pub fn image_len(&self) -> Result<usize, u32> {
        Ok(self.image()?.len())
    }

    /// Output past the image's end stays as it was.
    pub fn write_image(&self, out: &mut [u8]) -> Result<usize, u32> {
        let image = self.image()?;
        if out.len() < image.len() {
            return Err(6);
        }
        out[..image.len()].copy_from_slice(&image);
        Ok(image.len())
    }

    /// Slot 0 becomes version 0, link 0; occupied slots fill places in slot order; with the next-free number starting at s,
    /// each vacant slot takes it as link and becomes it; at the end it is f. Nothing beyond n and s is written.
    pub fn rebuild(&mut self, bytes: &[u8]) -> Result<(), u32> {
        if !self.lengths_fit() {
            return Err(1);
        }
        let records = read_image(bytes, self.capacity() + 1)?;
        self.s = records.len() as u32;
        self.n = 0;
        self.f = self.s;
        self.versions[0] = 0;
        self.links[0] = 0;
        for (slot, &(version, value)) in records.iter().enumerate().skip(1) {
            self.versions[slot] = version;
            if let Some(value) = value {
                self.links[slot] = self.n;
                self.keys[self.n as usize] = pack(slot as u32, version);
                self.values[self.n as usize] = value;
                self.n += 1;
            } else {
                self.links[slot] = self.f;
                self.f = slot as u32;
            }
        }
        Ok(())
    }
}

/// Unsigned LEB128: seven-bit groups, lowest first, shortest form.
fn write_number(bytes: &mut Vec<u8>, mut number: u64) {
    while number >= 128 {
        bytes.push((number % 128) as u8 | 128);
        number /= 128;
    }
    bytes.push(number as u8);
}

/// 10 if the image ends before the number is whole. 11 at the first byte that shows it: a zero last group after others,
/// or a fifth byte (tenth in values) that goes on or overflows.
fn read_number(bytes: &[u8], at: &mut usize, bits: u32) -> Result<u64, u32> {
    let mut number = 0u64;
    let mut shift = 0;
    loop {
        let byte = *bytes.get(*at).ok_or(10u32)?;
        *at += 1;
        let last_allowed = shift + 7 >= bits;
        if last_allowed && byte as u64 >= 1 << (bits - shift) {
            return Err(11);
        }
        if byte == 0 && shift > 0 {
            return Err(11);
        }
        number |= ((byte & 127) as u64) << shift;
        if byte < 128 {
            return Ok(number);
        }
        shift += 7;
    }
}

/// Number faults and 16 as met from the front, with 12 right after the count; then 15; then 13; then 14.
pub fn read_image(bytes: &[u8], most: usize) -> Result<Vec<(u32, Option<u64>)>, u32> {
    let mut at = 0;
    let count = read_number(bytes, &mut at, 32)?;
    if count > most as u64 {
        return Err(12);
    }
    let mut records = Vec::new();
    for _ in 0..count {
        let version = read_number(bytes, &mut at, 32)? as u32;
        let value = match read_number(bytes, &mut at, 32)? {
            0 => None,
            1 => Some(read_number(bytes, &mut at, 64)?),
            _ => return Err(16),
        };
        records.push((version, value));
    }
    if at < bytes.len() {
        return Err(15);
    }
    if records.is_empty() || records[0].0 % 2 == 1 {
        return Err(13);
    }
    if records[1..]
        .iter()
        .any(|(version, value)| (version % 2 == 1) != value.is_some())
    {
        return Err(14);
    }
    Ok(records)
}
