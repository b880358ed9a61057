//! Jobs made at random: whole ones, and damaged ones.

use crate::random::Random;
use crate::special;
use crate::statements::{ENDPIC, ERASE, act, definition};

/// Some pictures with definitions in them and between them.
fn pictures(r: &mut Random) -> Vec<u8> {
    let mut out = Vec::new();
    for _ in 0..1 + r.below(3) {
        for _ in 0..r.below(3) {
            definition(r, &mut out);
        }
        out.push(ERASE);
        for _ in 0..r.below(40) {
            if r.one_in(15) { definition(r, &mut out) } else { act(r, &mut out) }
        }
        out.push(ENDPIC);
    }
    out
}

/// Noise whose bytes are codes more often than not.
fn noise(r: &mut Random) -> Vec<u8> {
    let mut out = vec![ERASE];
    for _ in 0..r.below(200) {
        out.push(if r.one_in(4) { r.byte() } else { r.below(22) as u8 });
    }
    out
}

pub fn stream(r: &mut Random) -> Vec<u8> {
    r.calm = r.one_in(2);
    match r.below(20) {
        0 => noise(r),
        1..=7 => special::stream(r),
        _ => pictures(r),
    }
}

/// A part of another stream put in at a random place.
fn splice(r: &mut Random, bytes: &mut Vec<u8>) {
    let other = if r.one_in(2) { pictures(r) } else { bytes.clone() };
    let (a, b) = (r.below(other.len() + 1), r.below(other.len() + 1));
    let at = r.below(bytes.len() + 1);
    bytes.splice(at..at, other[a.min(b)..a.max(b)].iter().copied());
}

fn damage(r: &mut Random, bytes: &mut Vec<u8>) {
    if bytes.is_empty() {
        return;
    }
    let at = r.below(bytes.len());
    match r.below(6) {
        0 => bytes.truncate(at),
        1 => bytes[at] ^= 1 << r.below(8),
        2 => bytes[at] = r.byte(),
        3 => splice(r, bytes),
        4 => bytes.insert(at, r.byte()),
        _ => {
            bytes.remove(at);
        }
    }
}

/// A side, mostly small, sometimes the largest, rarely a wrong one.
fn side(r: &mut Random) -> usize {
    match r.below(48) {
        0 if r.one_in(2) => r.pick(&[0, 1, 7, 513, 514, 65535]),
        1 => 512,
        2 => 8 + r.below(505),
        3 | 4 => 8,
        _ => 8 + r.below(60),
    }
}

/// A job: a side and a stream, whole or damaged.
pub fn job(r: &mut Random) -> Vec<u8> {
    let mut bytes = stream(r);
    for _ in 0..r.pick(&[0, 0, 0, 1, 1, 2]) {
        damage(r, &mut bytes);
    }
    let side = side(r);
    let mut out = vec![(side / 256) as u8, (side % 256) as u8];
    out.extend(bytes);
    if r.one_in(400) {
        out.truncate(r.below(2));
    }
    out
}

/// Lengths of pieces that cut a stream of so many bytes, the last of which is what is left.
pub fn cutting(r: &mut Random, len: usize) -> Vec<u8> {
    let most = r.pick(&[1usize, 2, 3, 7, 40, 255]);
    let mut lengths = Vec::new();
    let mut left = len;
    while left > 0 && !r.one_in(2000) {
        let n = r.below(most + 1);
        lengths.push(n as u8);
        left = left.saturating_sub(n);
    }
    lengths
}
