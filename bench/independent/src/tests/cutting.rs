//! Streams in pieces come to the same as whole ones.

use super::*;

/// A statement that may be lawful.
fn statement(numbers: &mut Numbers, names: &[&str]) -> Vec<u8> {
    let name = names[numbers.below(names.len() as u64) as usize];
    let code = numbers.below(24) as u8;
    match code {
        2 | 4 | 6 => {
            let mut part = || numbers.within(-16_384, 16_383) as i16;
            pair(code, part(), part())
        }
        3 | 5 | 7 => {
            let mut part = || numbers.within(-3_000, 3_000) as i16;
            pair(code, part(), part())
        }
        8 | 9 | 14 => {
            let length = [3, 20, 126, 129, 300][numbers.below(5) as usize];
            let mut code_of = || match numbers.below(30) {
                0 => 13,
                1 => 8,
                _ => numbers.below(128) as u8,
            };
            let codes: Vec<u8> = (0..length).map(|_| code_of()).collect();
            string(code, &codes)
        }
        11 => {
            let length = numbers.below(400) as usize;
            join(&[&[11], &string(numbers.below(256) as u8, &vec![200; length])])
        }
        12 | 13 => vec![code, numbers.below(4) as u8],
        17 | 21 => {
            let tails: [&[u8]; 4] = [&[], &[0], &[0x40, 0, 9, 0, 9], &[0xC0, 1, b'Q', 1, 1, 1, 1]];
            call(name, tails[numbers.below(4) as usize])
        }
        0 | 18..=20 => vec![code],
        _ => vec![],
    }
}

/// A stream of definitions and pictures.
fn stream(numbers: &mut Numbers) -> Vec<u8> {
    let names = ["A", "BB", "CCC", "D4"];
    let mut stream = Vec::new();
    for _ in 0..numbers.within(1, 6) {
        let mut body = Vec::new();
        for _ in 0..numbers.below(12) {
            body.extend(statement(numbers, &names));
        }
        let chosen = numbers.below(4) as usize;
        if numbers.below(2) == 0 {
            stream.extend(define(names[chosen], &body));
        } else {
            stream.push(ERASE);
            stream.extend(&body);
            if numbers.below(3) == 0 {
                stream.extend(define(
                    names[chosen],
                    &statement(numbers, &names[..chosen + 1]),
                ));
            }
            stream.extend(call(names[chosen], &[]));
            stream.push(ENDPIC);
        }
    }
    stream
}

/// Damages most streams.
fn damage(numbers: &mut Numbers, stream: &mut Vec<u8>) {
    let at = numbers.below(stream.len() as u64) as usize;
    match numbers.below(5) {
        0 => stream[at] ^= 1 << numbers.below(8),
        1 => {
            stream.remove(at);
        }
        2 => stream.truncate(at),
        3 => stream.insert(at, numbers.below(256) as u8),
        _ => {}
    }
}

/// Draws a stream in pieces of lengths up to this, and finishes it.
fn cut(numbers: &mut Numbers, stream: &[u8], longest: u64, stock: Option<u32>) -> (Page, Report) {
    let mut page = Page::with_stock(40, stock).unwrap();
    let mut reader = Reader::new();
    let mut rest = stream;
    while !rest.is_empty() {
        let length = rest.len().min(numbers.below(longest + 1) as usize);
        let (piece, after) = rest.split_at(length);
        let _ = reader.feed(&mut page, piece);
        let _ = reader.report();
        rest = after;
    }
    let _ = reader.finish();
    (page, reader.report())
}

#[test]
fn cut_streams_equal_whole_ones() {
    let mut numbers = Numbers(11);
    let mut seen = [0; 18];
    for turn in 0..4_000 {
        let mut stream = stream(&mut numbers);
        damage(&mut numbers, &mut stream);
        let stock = (turn % 3 == 0).then_some(40);
        let mut page = Page::with_stock(40, stock).unwrap();
        let mut reader = Reader::new();
        let _ = reader.feed(&mut page, &stream);
        let _ = reader.finish();
        let whole = (page, reader.report());
        for longest in [1, 2, 7, 90, 1_000] {
            assert_eq!(cut(&mut numbers, &stream, longest, stock), whole);
        }
        if let State::Refused(fault) = whole.1.state {
            seen[usize::from(fault.number())] += 1;
        } else {
            seen[0] += 1;
        }
    }
    for number in [0, 1, 2, 4, 5, 6, 7, 8, 9, 12, 16, 17] {
        assert!(seen[number] > 0, "{number} of {seen:?}");
    }
}

#[test]
fn every_cut_in_two() {
    let stream = join(&[
        &define(
            "ARROW",
            &join(&[
                &pair(5, 900, 0),
                &text(&[[b'V', 7]; 30].concat()),
                &text(&[127; 130]),
            ]),
        ),
        &[ERASE, 11, 1, 3, 9, 9, 9, 13, 77],
        &call("ARROW", b"\xC0\x02N1\x00\x05\xFF\x06"),
        &texto(b"AB"),
        &[MARK, ENDPIC],
    ]);
    let whole = {
        let mut page = Page::new(64).unwrap();
        let report = play(&mut page, &stream);
        (page, report)
    };
    for at in 0..=stream.len() {
        let mut page = Page::new(64).unwrap();
        let mut reader = Reader::new();
        let (first, last) = stream.split_at(at);
        assert_eq!(reader.feed(&mut page, first), Ok(()));
        assert_eq!(reader.report().read as usize, at);
        let _ = reader.feed(&mut page, last);
        assert_eq!((page, reader.report()), whole);
    }
}

#[test]
fn a_refusal_shows_at_its_byte() {
    // One byte before the deciding one nothing is refused, whatever comes.
    for (stream, last) in [
        (&[15, 0x80, 0x7F, 0][..], 3),
        (&[15, 9, 0], 2),
        (&[15, 1, b'a', 0, 0], 4),
        (&[15, 1, b'a', 1, 0x80, 0], 5),
        (&[ERASE, 17, 1, b'a', 15, 0], 5),
        (&[ERASE, 17, 1, b'a', 0, 0], 5),
        (&[ERASE, 17, 1, b'A', 2, 0x3F, 0, 0], 7),
        (&[ERASE, 2, 0x7F, 0, 0, 0, 0], 6),
    ] {
        let mut page = Page::new(8).unwrap();
        let mut reader = Reader::new();
        for (read, byte) in stream.iter().enumerate() {
            let answer = reader.feed(&mut page, &[*byte]);
            assert_eq!(answer.is_ok(), read + 1 < last, "{stream:?}");
        }
        assert_eq!(reader.report().read as usize, last);
        assert_eq!(report(stream), reader.report());
    }
}
