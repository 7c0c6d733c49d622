//! Damaged copies of good images.

use crate::image::{HEADER_BYTES, NAME_RECORD_BYTES, NODE_RECORD_BYTES};
use crate::random::Random;

fn word(bytes: &[u8], at: usize) -> u32 {
    u32::from_le_bytes([bytes[at], bytes[at + 1], bytes[at + 2], bytes[at + 3]])
}

fn put(bytes: &mut [u8], at: usize, word: u32) {
    bytes[at..at + 4].copy_from_slice(&word.to_le_bytes());
}

/// A word near another, or one at the edge of what there is.
fn other(old: u32, random: &mut Random) -> u32 {
    match random.below(8) {
        0 => old.wrapping_add(1),
        1 => old.wrapping_sub(1),
        2 => 0,
        3 => u32::MAX,
        4 => random.below(40) as u32,
        5 => old ^ (1 << random.below(32)),
        6 => old.wrapping_add(random.within(2, 9) as u32),
        _ => random.next() as u32,
    }
}

/// One thing changed; what it is goes round with the number.
pub fn damaged(good: &[u8], number: u64, random: &mut Random) -> Vec<u8> {
    let mut bytes = good.to_vec();
    let (n, m, t) = (word(good, 4) as usize, word(good, 12) as usize, word(good, 20) as usize);
    let names_at = HEADER_BYTES;
    let nodes_at = names_at + NAME_RECORD_BYTES * n;
    let texts_at = nodes_at + NODE_RECORD_BYTES * m;
    match number % 24 {
        field @ 0..=7 => {
            let at = 4 * field as usize;
            let new = other(word(good, at), random);
            put(&mut bytes, at, new);
        }
        field @ 8..=12 if n > 0 => {
            let at = names_at + NAME_RECORD_BYTES * random.below(n) + 4 * (field as usize - 8);
            let new = other(word(good, at), random);
            put(&mut bytes, at, new);
        }
        field @ 13..=18 => {
            let at = nodes_at + NODE_RECORD_BYTES * random.below(m) + 4 * (field as usize - 13);
            let new = other(word(good, at), random);
            put(&mut bytes, at, new);
        }
        19 => bytes.truncate(random.below(bytes.len())),
        20 => bytes.extend((0..random.within(1, 40)).map(|_| 65)),
        21 if t > 0 => {
            let at = texts_at + random.below(t);
            bytes[at] = *random.pick(&[0, 31, 32, 33, 126, 127, 128, 255]);
        }
        22 if m > 1 => {
            // Two nodes change places.
            let (a, b) = (random.below(m), random.below(m));
            let record = |i: usize| nodes_at + NODE_RECORD_BYTES * i..nodes_at + NODE_RECORD_BYTES * (i + 1);
            bytes[record(a)].copy_from_slice(&good[record(b)]);
            bytes[record(b)].copy_from_slice(&good[record(a)]);
        }
        _ => {
            // A few words anywhere.
            for _ in 0..random.within(1, 3) {
                let at = 4 * random.below(texts_at / 4);
                let new = other(word(&bytes, at), random);
                put(&mut bytes, at, new);
            }
        }
    }
    bytes
}
