//! Statements made at random, lawful more often than not.

use crate::random::Random;

pub const NULL: u8 = 0;
pub const ERASE: u8 = 1;
pub const MOVEA: u8 = 2;
pub const MOVER: u8 = 3;
pub const DRAWA: u8 = 4;
pub const DRAWR: u8 = 5;
pub const DOTA: u8 = 6;
pub const TEXT: u8 = 8;
pub const TEXTR: u8 = 9;
pub const ENDPIC: u8 = 10;
pub const ESCDEV: u8 = 11;
pub const LINMOD: u8 = 12;
pub const SETINT: u8 = 13;
pub const TEXTO: u8 = 14;
pub const SUBHED: u8 = 15;
pub const SUBEND: u8 = 16;
pub const INSTS: u8 = 17;
pub const MARK: u8 = 18;
pub const MOVEMK: u8 = 19;
pub const DRAWMK: u8 = 20;

/// A header for simple calls.
pub const SIMPLE: u8 = 0x80;

pub fn put_pair(out: &mut Vec<u8>, code: u8, x: i32, y: i32) {
    out.push(code);
    out.extend_from_slice(&(x as i16).to_be_bytes());
    out.extend_from_slice(&(y as i16).to_be_bytes());
}

pub fn put_count(out: &mut Vec<u8>, n: usize) {
    if n < 128 {
        out.push(n as u8);
    } else {
        out.extend_from_slice(&[128 + (n / 256) as u8, (n % 256) as u8]);
    }
}

pub fn put_string(out: &mut Vec<u8>, code: u8, text: &[u8]) {
    out.push(code);
    put_count(out, text.len());
    out.extend_from_slice(text);
}

pub fn begin_definition(out: &mut Vec<u8>, name: &[u8], header: u8) {
    out.push(SUBHED);
    put_count(out, name.len());
    out.extend_from_slice(name);
    out.extend_from_slice(&[1, header]);
}

/// A call with an empty tail.
pub fn put_call(out: &mut Vec<u8>, name: &[u8]) {
    put_string(out, INSTS, name);
    out.push(0);
}

fn coordinate(r: &mut Random, delta: bool) -> i32 {
    let edges: &[i32] = if delta && r.calm {
        &[-600, -450, -1, 0, 1, 450, 600]
    } else if delta {
        &[-32767, -16384, -600, -450, -1, 0, 1, 450, 600, 16383, 32767]
    } else {
        &[-16384, -16383, -1, 0, 1, 15934, 15935, 16382, 16383]
    };
    match r.below(8) {
        0 => r.pick(edges),
        1 if r.rarely(12) => r.pick(&[-32768, 16384, -16385, 32767]),
        2..=5 if delta => r.between(-1000, 1000),
        _ if delta && r.calm => r.between(-4000, 4000),
        _ => r.between(-16384, 16383),
    }
}

pub fn travel(r: &mut Random, out: &mut Vec<u8>) {
    let code = 2 + r.below(6) as u8;
    let delta = code % 2 == 1;
    let (x, y) = (coordinate(r, delta), coordinate(r, delta));
    put_pair(out, code, x, y);
}

fn text_code(r: &mut Random) -> u8 {
    match r.below(12) {
        0 => r.pick(&[8, 10, 13, 0, 7, 31, 127]),
        1 if r.rarely(60) => r.pick(&[128, 255]),
        2 => 32,
        _ => r.between(33, 126) as u8,
    }
}

pub fn text(r: &mut Random, out: &mut Vec<u8>) {
    let n = match r.below(24) {
        0 => 126 + r.below(4),
        1 => 509 + r.below(4),
        2 if r.rarely(4) => 513 + r.below(300),
        _ => r.below(14),
    };
    let codes: Vec<u8> = (0..n).map(|_| text_code(r)).collect();
    let code = r.pick(&[TEXT, TEXTR, TEXTO]);
    put_string(out, code, &codes);
}

/// A text whose count has two bytes, which may be too short or too long.
pub fn long_count(r: &mut Random, out: &mut Vec<u8>) {
    out.push(r.pick(&[TEXT, TEXTR, TEXTO]));
    let n = r.pick(&[0usize, 1, 126, 127, 128, 129, 511, 512, 513, 32767]);
    out.extend_from_slice(&[128 + (n / 256) as u8, (n % 256) as u8]);
    out.extend(std::iter::repeat_n(b'o', n.min(600)));
}

pub fn name(r: &mut Random) -> Vec<u8> {
    if r.rarely(40) {
        return r.pick(&[&b""[..], b"a", b"A B", b"ABCDEFGHI", b"@", b"[", b"/", b":"]).to_vec();
    }
    r.pick(&[&b"A"[..], b"B", b"ARROW", b"BOX1", b"ZZZZZZZZ", b"Q9", b"0"]).to_vec()
}

/// A tail, lawful more often than not.
fn tail(r: &mut Random) -> Vec<u8> {
    if r.one_in(3) {
        return Vec::new();
    }
    let code = if r.rarely(25) { r.byte() } else { r.pick(&[0x00, 0x40, 0x80, 0xC0]) };
    let mut out = vec![code];
    if code & 0x80 != 0 {
        let n = if r.rarely(20) { 9 } else { r.below(9) };
        out.push(n as u8);
        out.extend(std::iter::repeat_n(if r.rarely(30) { b'x' } else { b'X' }, n));
    }
    if code & 0x40 != 0 {
        let (x, y) = (coordinate(r, false), coordinate(r, false));
        put_pair(&mut out, 0, x, y);
        let at = out.len() - 5;
        out.remove(at);
    }
    if r.rarely(30) {
        out.push(0);
    }
    out
}

pub fn call(r: &mut Random, out: &mut Vec<u8>) {
    let called = name(r);
    put_string(out, INSTS, &called);
    let tail = tail(r);
    let t = if r.rarely(40) { 15 } else { tail.len() };
    out.push(t as u8);
    out.extend(tail);
}

/// A statement that may be performed or recorded.
pub fn act(r: &mut Random, out: &mut Vec<u8>) {
    match r.below(14) {
        0 => out.push(NULL),
        1..=5 => travel(r, out),
        6 | 7 => text(r, out),
        8 => out.extend_from_slice(&[LINMOD, r.below(4) as u8]),
        9 => out.extend_from_slice(&[SETINT, r.pick(&[0, 1, 128, 255])]),
        10 => out.push(r.pick(&[MARK, MARK, MARK, MOVEMK, DRAWMK])),
        11 => call(r, out),
        12 if r.rarely(6) => long_count(r, out),
        _ => {
            out.extend_from_slice(&[ESCDEV, r.byte()]);
            let n = if r.one_in(10) { r.below(513) } else { r.below(6) };
            put_count(out, n);
            out.extend((0..n).map(|_| r.byte()));
        }
    }
}

pub fn definition(r: &mut Random, out: &mut Vec<u8>) {
    let defined = name(r);
    let header = if r.rarely(40) { r.byte() } else { r.pick(&[0x80, 0x80, 0x80, 0xC0, 0x40]) };
    begin_definition(out, &defined, header);
    for _ in 0..r.below(12) {
        act(r, out);
    }
    out.push(SUBEND);
}
