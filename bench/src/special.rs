//! Streams made for what random ones seldom reach: the limits of the table, the bodies, the mark stack, the
//! open calls, the statement count, the margins and the field.

use crate::random::Random;
use crate::statements::*;

fn numbered(k: usize) -> Vec<u8> {
    format!("N{k}").into_bytes()
}

/// Thirty to thirty-four names, one of them defined twice.
fn many_names(r: &mut Random) -> Vec<u8> {
    let mut out = Vec::new();
    let again = r.below(30);
    for k in 0..30 + r.below(5) {
        begin_definition(&mut out, &numbered(k), SIMPLE);
        act(r, &mut out);
        out.push(SUBEND);
        if k == 29 {
            begin_definition(&mut out, &numbered(again), SIMPLE);
            out.push(SUBEND);
        }
    }
    out.push(ERASE);
    for _ in 0..4 {
        put_call(&mut out, &numbered(r.below(36)));
    }
    out.push(ENDPIC);
    out
}

/// A body of about 1,024 bytes, within a picture or outside, called afterwards.
fn long_body(r: &mut Random) -> Vec<u8> {
    let mut out = Vec::new();
    let inside = r.one_in(2);
    if inside {
        out.push(ERASE);
    }
    begin_definition(&mut out, b"LONG", SIMPLE);
    let size = r.between(1019, 1026) as usize;
    let mut body = Vec::new();
    if r.one_in(2) {
        let n = r.between(500, 512) as usize;
        put_string(&mut body, TEXTO, &vec![b'M'; n]);
    }
    while body.len() + 5 <= size {
        put_pair(&mut body, DRAWR, r.between(-90, 90), r.between(-90, 90));
    }
    body.resize(size.max(body.len()), NULL);
    out.extend(body);
    out.push(SUBEND);
    if !inside {
        out.push(ERASE);
    }
    put_call(&mut out, b"LONG");
    out.push(ENDPIC);
    out
}

/// The mark stack, up to its 64 points and over, and taken down again.
fn many_marks(r: &mut Random) -> Vec<u8> {
    let mut out = vec![ERASE];
    for _ in 0..60 + r.below(8) {
        put_pair(&mut out, r.pick(&[MOVEA, DRAWA, DOTA]), r.between(-16384, 16383), r.between(-16384, 16383));
        out.push(MARK);
        if r.one_in(20) {
            out.push(r.pick(&[MOVEMK, DRAWMK]));
        }
    }
    for _ in 0..r.below(70) {
        out.push(r.pick(&[MOVEMK, DRAWMK]));
    }
    out.push(ENDPIC);
    out
}

/// Bodies that call one another, about eight deep; the last may close a ring or be for no simple call.
fn deep_calls(r: &mut Random) -> Vec<u8> {
    let mut out = Vec::new();
    let depth = 6 + r.below(5);
    for k in 0..depth {
        begin_definition(&mut out, &numbered(k), if r.one_in(40) { 0x40 } else { SIMPLE });
        for _ in 0..r.below(3) {
            put_pair(&mut out, DRAWR, r.between(-900, 900), r.between(-900, 900));
        }
        if k + 1 < depth {
            put_call(&mut out, &numbered(k + 1));
        } else if r.one_in(3) {
            put_call(&mut out, &numbered(r.below(depth)));
        }
        act(r, &mut out);
        out.push(SUBEND);
    }
    out.push(ERASE);
    for _ in 0..1 + r.below(3) {
        put_call(&mut out, &numbered(r.below(3)));
    }
    out.push(ENDPIC);
    out
}

/// About 65,536 statements, by calls of calls.
fn many_statements(r: &mut Random) -> Vec<u8> {
    let mut out = Vec::new();
    begin_definition(&mut out, b"A", SIMPLE);
    let filler = r.pick(&[NULL, NULL, MOVEMK]);
    out.extend(std::iter::repeat_n(filler, 1023));
    out.push(SUBEND);
    begin_definition(&mut out, b"B", SIMPLE);
    for _ in 0..8 {
        put_call(&mut out, b"A");
    }
    out.push(SUBEND);
    out.push(ERASE);
    // a call of B counts 8,193 statements
    for _ in 0..7 {
        put_call(&mut out, b"B");
    }
    let left = 65536 - 7 * 8193 + r.below(5) - 3;
    out.extend(std::iter::repeat_n(NULL, left));
    put_pair(&mut out, DOTA, 5, 5);
    out.push(ENDPIC);
    out
}

/// Texts at the right margin and at the field's edges.
fn margins(r: &mut Random) -> Vec<u8> {
    let mut out = vec![ERASE];
    for _ in 0..1 + r.below(6) {
        put_pair(&mut out, MOVEA, r.between(15930, 15940), r.between(-16384, 16383));
        text(r, &mut out);
        if r.one_in(3) {
            out.extend_from_slice(&[SETINT, r.pick(&[0, 0, 7])]);
        }
        let n = r.below(90);
        let code = r.pick(&[TEXT, TEXTR, TEXTO]);
        put_string(&mut out, code, &vec![r.pick(b"W# \x0A\x08\x0D"); n]);
    }
    out.push(ENDPIC);
    out
}

/// The beam near the field's edges, with lines from and to points off the screen.
fn edges(r: &mut Random) -> Vec<u8> {
    let mut out = vec![ERASE];
    for _ in 0..1 + r.below(12) {
        put_pair(&mut out, MOVEA, r.pick(&[-16384, 16383, 0]), r.pick(&[-16384, 16383, 0]));
        out.extend_from_slice(&[LINMOD, r.below(3) as u8]);
        for _ in 0..r.below(4) {
            let code = r.pick(&[MOVER, DRAWR, DRAWR, 7]);
            let reach = [16383, 16384, 16385, 8000, -16384, -16385, -8000, 1, -1, 0];
            put_pair(&mut out, code, r.pick(&reach), r.pick(&reach));
        }
        put_pair(&mut out, DRAWA, r.between(-16384, 16383), r.between(-16384, 16383));
        if r.one_in(4) {
            text(r, &mut out);
        }
    }
    out.push(ENDPIC);
    out
}

/// A stream about as long as a job holds.
fn longest(r: &mut Random) -> Vec<u8> {
    let mut out = vec![ERASE];
    while out.len() < 65000 {
        out.extend_from_slice(&[ESCDEV, 0]);
        let n = r.between(500, 512) as usize;
        put_count(&mut out, n);
        out.extend(std::iter::repeat_n(r.byte(), n));
    }
    out.resize(65534 + r.below(4), NULL);
    out.push(ENDPIC);
    out
}

/// A stream of one of these kinds.
pub fn stream(r: &mut Random) -> Vec<u8> {
    match r.below(64) {
        0..=7 => many_names(r),
        8..=17 => long_body(r),
        18..=26 => many_marks(r),
        27..=38 => deep_calls(r),
        39..=41 => many_statements(r),
        42..=51 => margins(r),
        52..=62 => edges(r),
        _ => longest(r),
    }
}

/// A stream of about the longest length, which ends outside or within a statement.
pub fn longest_or_longer(r: &mut Random) -> Vec<u8> {
    let total = (16_777_214 + r.below(6)) / 2 * 2;
    let mut out = Vec::with_capacity(total + 8);
    while out.len() + 16 < total {
        out.extend_from_slice(&[ERASE, ENDPIC]);
    }
    if r.one_in(2) {
        out.push(ERASE);
        put_pair(&mut out, DOTA, -9000, 9000);
        put_pair(&mut out, DRAWA, 16383, 16383);
        put_pair(&mut out, DRAWA, -16384, 16383);
        out.push(ENDPIC);
    } else {
        while out.len() < total {
            out.extend_from_slice(&[ERASE, ENDPIC]);
        }
    }
    out
}
