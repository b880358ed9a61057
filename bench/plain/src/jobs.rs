//! Jobs made at random: whole ones, and damaged ones.

/// A small generator of numbers, the same for the same seed.
pub struct Random(u64);

impl Random {
    pub fn new(seed: u64) -> Random {
        Random(seed.wrapping_mul(0x9E37_79B9_7F4A_7C15) | 1)
    }

    fn next(&mut self) -> u64 {
        self.0 ^= self.0 << 13;
        self.0 ^= self.0 >> 7;
        self.0 ^= self.0 << 17;
        self.0
    }

    /// A number below n.
    pub fn below(&mut self, n: usize) -> usize {
        (self.next() % n as u64) as usize
    }

    fn one_in(&mut self, n: usize) -> bool {
        self.below(n) == 0
    }

    fn pick(&mut self, from: &[i32]) -> i32 {
        from[self.below(from.len())]
    }
}

fn coordinate(r: &mut Random, out: &mut Vec<u8>, delta: bool) {
    let edges: &[i32] = if delta {
        &[-32767, -16384, -600, -450, -1, 0, 1, 450, 600, 16383, 32767]
    } else {
        &[-16384, -16383, -1, 0, 1, 15934, 15935, 16382, 16383]
    };
    let v = match r.below(8) {
        0 => r.pick(edges),
        1 if r.one_in(8) => r.pick(&[-32768, 16384, -16385]),
        2..=4 if delta => r.below(2000) as i32 - 1000,
        _ => r.below(32768) as i32 - 16384,
    };
    out.extend_from_slice(&(v as i16).to_be_bytes());
}

fn count(n: usize, out: &mut Vec<u8>) {
    if n < 128 {
        out.push(n as u8);
    } else {
        out.extend_from_slice(&[128 + (n / 256) as u8, (n % 256) as u8]);
    }
}

fn name(r: &mut Random, out: &mut Vec<u8>) {
    let names: [&[u8]; 6] = [b"A", b"B", b"ARROW", b"BOX1", b"ZZZZZZZZ", b"Q9"];
    let picked = names[r.below(names.len())];
    out.push(picked.len() as u8);
    out.extend_from_slice(picked);
}

fn text(r: &mut Random, out: &mut Vec<u8>) {
    let n = match r.below(20) {
        0 => 127 + r.below(3),
        1 => 510 + r.below(3),
        _ => r.below(12),
    };
    count(n, out);
    for _ in 0..n {
        let code = match r.below(10) {
            0 => [8, 10, 13, 0, 127][r.below(5)],
            1 if r.one_in(40) => 128,
            _ => 32 + r.below(95) as u8,
        };
        out.push(code);
    }
}

fn call(r: &mut Random, out: &mut Vec<u8>) {
    out.push(17);
    name(r, out);
    let mut tail = Vec::new();
    if !r.one_in(3) {
        let code = [0x00, 0x40, 0x80, 0xC0][r.below(4)];
        tail.push(code);
        if code & 0x80 != 0 {
            let n = r.below(9);
            tail.push(n as u8);
            tail.extend(std::iter::repeat_n(b'X', n));
        }
        if code & 0x40 != 0 {
            coordinate(r, &mut tail, false);
            coordinate(r, &mut tail, false);
        }
    }
    out.push(tail.len() as u8);
    out.extend(tail);
}

fn act(r: &mut Random, out: &mut Vec<u8>) {
    match r.below(12) {
        0 => out.push(0),
        1..=5 => {
            let code = 2 + r.below(6) as u8;
            out.push(code);
            coordinate(r, out, code % 2 == 1);
            coordinate(r, out, code % 2 == 1);
        }
        6 => {
            out.push([8, 9, 14][r.below(3)]);
            text(r, out);
        }
        7 => out.extend_from_slice(&[12, r.below(4) as u8]),
        8 => out.extend_from_slice(&[13, [0, 1, 128, 255][r.below(4)]]),
        9 => out.push([18, 18, 18, 19, 20][r.below(5)]),
        10 => call(r, out),
        _ => {
            out.extend_from_slice(&[11, r.below(256) as u8]);
            let n = r.below(6);
            count(n, out);
            out.extend((0..n).map(|i| 250 + i as u8));
        }
    }
}

fn definition(r: &mut Random, out: &mut Vec<u8>) {
    out.push(15);
    name(r, out);
    out.extend_from_slice(&[1, [0x80, 0x80, 0xC0, 0x40][r.below(4)]]);
    for _ in 0..r.below(12) {
        act(r, out);
    }
    out.push(16);
}

fn stream(r: &mut Random) -> Vec<u8> {
    let mut out = Vec::new();
    for _ in 0..1 + r.below(3) {
        if r.one_in(2) {
            definition(r, &mut out);
        }
        out.push(1);
        for _ in 0..r.below(40) {
            if r.one_in(15) { definition(r, &mut out) } else { act(r, &mut out) }
        }
        out.push(10);
    }
    out
}

fn damage(r: &mut Random, bytes: &mut Vec<u8>) {
    match r.below(5) {
        0 => bytes.truncate(r.below(bytes.len() + 1)),
        1 => {
            let at = r.below(bytes.len());
            bytes[at] ^= 1 << r.below(8);
        }
        2 => {
            let at = r.below(bytes.len());
            bytes[at] = r.below(256) as u8;
        }
        3 => {
            let (a, b) = (r.below(bytes.len()), r.below(bytes.len()));
            let part = bytes[a.min(b)..a.max(b)].to_vec();
            let at = r.below(bytes.len());
            bytes.splice(at..at, part);
        }
        _ => {
            let at = r.below(bytes.len());
            bytes.remove(at);
        }
    }
}

/// A job: a side and a stream, damaged more often than not.
pub fn job(r: &mut Random) -> Vec<u8> {
    let side = match r.below(12) {
        0 => 7 + r.below(3),
        1 => 511 + r.below(3),
        2 => 8 + r.below(505),
        _ => 8 + r.below(60),
    };
    let mut bytes = stream(r);
    if r.one_in(20) {
        bytes = (0..r.below(64)).map(|_| r.below(256) as u8).collect();
    }
    for _ in 0..r.below(3) {
        if !bytes.is_empty() {
            damage(r, &mut bytes);
        }
    }
    let mut out = vec![(side / 256) as u8, (side % 256) as u8];
    out.extend(bytes);
    if r.one_in(200) {
        out.truncate(r.below(2));
    }
    out
}
