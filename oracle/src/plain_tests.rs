//! Spells and limits of the plain reading.
use crate::plain::*;

fn table(c: usize) -> Dense {
    let mut t = Dense {
        versions: vec![9; c + 1],
        links: vec![9; c + 1],
        keys: vec![9; c],
        values: vec![9; c],
        n: 9,
        s: 9,
        f: 9,
    };
    t.fresh().unwrap();
    t
}

fn image(t: &Dense) -> Vec<u8> {
    let mut out = vec![0; t.image_len().unwrap()];
    t.write_image(&mut out).unwrap();
    out
}

#[test]
fn spells_of_the_table() {
    let mut t = table(9);
    assert_eq!(image(&t), [1, 0, 0]);
    assert_eq!(t.insert(7), Ok(pack(1, 1)));
    assert_eq!(t.insert(300), Ok(pack(2, 1)));
    assert_eq!(image(&t), [3, 0, 0, 1, 1, 7, 1, 1, 0xac, 2]);
    assert_eq!(t.remove(pack(1, 1)), Ok(7));
    assert_eq!(image(&t), [3, 0, 0, 2, 0, 1, 1, 0xac, 2]);
    assert_eq!(t.insert(9), Ok(12884901889));
    assert_eq!(read(8589934597), pack(5, 3));
}

#[test]
fn spells_of_detached_slots_and_wrapping() {
    let mut t = table(1);
    let key = t.insert(5).unwrap();
    assert_eq!(t.detach(key), Ok(5));
    assert_eq!(t.insert(6), Err(3));
    assert_eq!(t.reattach(key, 8), Ok(()));
    assert_eq!(t.lookup(key), Ok(8));
    let mut t = table(1);
    t.insert(5).unwrap();
    t.versions[1] = MAX;
    t.keys[0] = pack(1, MAX);
    assert!(t.is_sound());
    assert_eq!(t.remove(pack(1, MAX)), Ok(5));
    assert_eq!(t.versions[1], 0);
    assert_eq!(t.insert(6), Ok(pack(1, 1)));
}

#[test]
fn spells_of_the_image() {
    let mut t = table(9);
    assert_eq!(t.rebuild(&[3, 0, 0, 2, 0, 4, 0]), Ok(()));
    assert_eq!(t.f, 2);
    assert_eq!(t.insert(1), Ok(pack(2, 5)));
    assert_eq!(t.rebuild(&[1, 2, 1, 5]), Ok(()));
    assert_eq!((t.n, t.s), (0, 1));
    for (bytes, number) in [
        (&[0][..], 13),
        (&[0, 5], 15),
        (&[1, 0x80, 0, 0], 11),
        (&[11], 12),
        (&[1, 0, 2], 16),
        (&[1, 0, 0x80, 1], 16),
        (&[1, 0x80, 0x80, 0x80, 0x80], 10),
        (&[1, 0x80, 0x80, 0x80, 0x80, 0x80], 11),
        (&[1, 0x80, 0x80, 0x80, 0x80, 0x10], 11),
        (&[2, 0, 0, 1, 0], 14),
        (&[2, 1, 0, 1, 0], 13),
    ] {
        assert_eq!(t.rebuild(bytes), Err(number));
    }
}

#[test]
fn limits() {
    let mut t = table(4096);
    assert_eq!(t.insert(1), Ok(pack(1, 1)));
    t.versions.push(0);
    t.links.push(0);
    t.keys.push(0);
    t.values.push(0);
    assert_eq!(t.insert(1), Err(1));
    assert_eq!(t.fresh(), Err(1));
    assert_eq!(table(0).insert(1), Err(3));
}

/// A list that passes an occupied slot, and a stored key without its low bit.
#[test]
fn bent_tables() {
    let mut t = table(3);
    t.versions = vec![0, 0, 1, 1];
    t.links = vec![0, 4, 0, 1];
    t.keys = vec![pack(2, 1), pack(3, 1), 0];
    (t.n, t.s, t.f) = (2, 4, 3);
    assert!(!t.is_sound());
    assert_eq!(t.insert(1), Err(5));
    let mut t = table(1);
    t.versions = vec![0, 2];
    t.links = vec![0, 0];
    t.keys = vec![8589934593];
    (t.n, t.s, t.f) = (1, 2, 2);
    assert_eq!(t.drain_step(), Ok(Some((8589934593, 9))));
}
