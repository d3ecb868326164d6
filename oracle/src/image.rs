//! The slot image: its bytes are ADDED, its records are the crate's own serde. Refusals 13 and 14 are the crate's verdicts, 10, 11, 12, 15 and 16 are judged here.
use crate::dense::Map;
use std::fmt::Write;

pub fn push_number(out: &mut Vec<u8>, mut x: u64) {
    while x > 127 {
        out.push((x & 127) as u8 | 128);
        x >>= 7;
    }
    out.push(x as u8);
}

/// The image of a map, from what the crate serializes.
pub fn bytes(m: &Map) -> Vec<u8> {
    let slots = serde_json::to_value(m).unwrap();
    let slots = slots.as_array().unwrap();
    let mut out = vec![];
    push_number(&mut out, slots.len() as u64);
    for slot in slots {
        push_number(&mut out, slot["version"].as_u64().unwrap());
        match slot["value"].as_u64() {
            Some(v) => {
                out.push(1);
                push_number(&mut out, v);
            }
            None => out.push(0),
        }
    }
    out
}

/// A number of at most so many bits, and the place after it.
fn number(b: &[u8], at: usize, bits: u32) -> Result<(u64, usize), u32> {
    let groups = (bits + 6) / 7;
    let mut x = 0u64;
    for i in 0..groups {
        let Some(&byte) = b.get(at + i as usize) else { return Err(10) };
        let last = i + 1 == groups;
        if last && (byte as u64) >> (bits - 7 * i) != 0 || byte == 0 && i > 0 {
            return Err(11);
        }
        x |= ((byte & 127) as u64) << (7 * i);
        if byte & 128 == 0 {
            return Ok((x, at + i as usize + 1));
        }
    }
    unreachable!()
}

/// The records as the JSON text that the crate deserializes.
fn records(b: &[u8], most: u64) -> Result<String, u32> {
    let (count, mut at) = number(b, 0, 32)?;
    if count > most {
        return Err(12);
    }
    let mut json = String::from("[");
    for i in 0..count {
        let (version, behind) = number(b, at, 32)?;
        let (presence, last) = number(b, behind, 32)?;
        if presence > 1 {
            return Err(16);
        }
        at = last;
        let mut value = String::from("null");
        if presence == 1 {
            let (v, next) = number(b, at, 64)?;
            (value, at) = (v.to_string(), next);
        }
        let comma = if i > 0 { "," } else { "" };
        write!(json, "{comma}{{\"value\":{value},\"version\":{version}}}").unwrap();
    }
    if at != b.len() {
        return Err(15);
    }
    json.push(']');
    Ok(json)
}

/// The map that the crate makes of an image, or the refusal.
pub fn map(b: &[u8], most: u64) -> Result<Map, u32> {
    serde_json::from_str(&records(b, most)?).map_err(|e| {
        let text = e.to_string();
        if text.starts_with("first slot not empty") {
            13
        } else if text.starts_with("inconsistent occupation in Slot") {
            14
        } else {
            panic!("{text}")
        }
    })
}
