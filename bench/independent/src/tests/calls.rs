//! Definitions and calls, and the refusals 8 and 11 to 13.

use super::*;

/// The tail of a call at a point.
fn at(x: i16, y: i16) -> Vec<u8> {
    pair(0x40, x, y)
}

#[test]
fn a_call() {
    let stream = join(&[&define("A", &mover(10, 0)), &[ERASE], &call("A", &[])]);
    assert_eq!(beam(&stream), (10, 0));
    assert_eq!(report(&stream).statements, 2);
    assert_eq!(beam(&join(&[&stream, &call("A", &at(5, 6))])), (15, 6));
    assert_eq!(beam(&join(&[&stream, &call("A", &[0])])), (20, 0));
    let named = join(&[&[0xC0, 1, b'X'], &at(5, 6)[1..]]);
    assert_eq!(beam(&join(&[&stream, &call("A", &named)])), (15, 6));
}

#[test]
fn an_unknown_name() {
    let stream = join(&[&[ERASE], &call("A", &at(5, 6)), &call("A", &[])]);
    assert_eq!((beam(&stream), report(&stream).statements), ((5, 6), 2));
}

#[test]
fn names_are_told_apart() {
    let stream = join(&[
        &define("A", &mover(1, 0)),
        &define("AA", &mover(0, 1)),
        &define("A2345678", &mover(0, 100)),
        &[ERASE],
        &call("A", &[]),
        &call("AA", &[]),
        &call("AAA", &[]),
        &call("A2345678", &[]),
    ]);
    assert_eq!(beam(&stream), (1, 101));
}

#[test]
fn what_a_body_leaves() {
    let mut page = Page::new(16).unwrap();
    let body = join(&[&[12, 2], &movea(-16_384, 16_383), &[MARK]]);
    let stream = join(&[
        &define("SET", &body),
        &[ERASE],
        &call("SET", &[]),
        &pair(4, 16_383, 16_383),
        &[19],
    ]);
    assert_eq!(play(&mut page, &stream).beam, Point::new(-16_384, 16_383));
    assert_eq!(picture(&page)[0], "#...#...#...#...");
}

#[test]
fn redefinition() {
    let stream = join(&[
        &define("A", &mover(1, 0)),
        &define("B", &call("A", &[])),
        &[ERASE],
        &call("B", &[]),
        &define("A", &mover(0, 1)),
        &call("B", &[]),
        &head("A", 0x40),
        &[0, 0, 0],
    ]);
    assert_eq!((beam(&stream), report(&stream).statements), ((1, 1), 6));
    let place = stream.len() as u32 + 1;
    let stream = join(&[&stream, &[SUBEND], &call("B", &[])]);
    assert_eq!(spot(&stream), (11, place, 1, 0));
}

#[test]
fn not_callable() {
    let stream = join(&[&head("A", 0x40), &[SUBEND, ERASE], &call("A", &at(7, 8))]);
    assert_eq!(refused(&stream), (11, 7, Layer::Performance, 16));
    let report = report(&stream);
    assert_eq!((report.beam, report.statements), (Point::new(7, 8), 1));
    let stream = join(&[&head("A", 0xC0), &[0, SUBEND, ERASE], &call("A", &[])]);
    assert_eq!(
        (beam(&stream), super::report(&stream).statements),
        ((0, 0), 2)
    );
}

#[test]
fn already_open() {
    let body = join(&[&[0], &call("A", &at(7, 8))]);
    let stream = join(&[&define("A", &body), &[ERASE, 0], &call("A", &[])]);
    assert_eq!(spot(&stream), (12, stream.len() as u32 - 4, 1, 1));
    assert_eq!(fault(&stream).layer(), Layer::Performance);
    let report = report(&stream);
    assert_eq!((report.beam, report.statements), (Point::new(7, 8), 4));
    let stream = join(&[
        &define("A", &join(&[&call("B", &[]), &[0]])),
        &define("B", &join(&[&[0, 0], &call("A", &[])])),
        &[ERASE],
        &call("A", &[]),
    ]);
    assert_eq!(spot(&stream), (12, stream.len() as u32 - 4, 2, 2));
    // One after the other is lawful.
    let stream = join(&[
        &define("A", &mover(1, 1)),
        &define("B", &call("A", &[]).repeat(3)),
    ]);
    let stream = join(&[&stream, &[ERASE], &call("B", &[]), &call("B", &[])]);
    assert_eq!(
        (beam(&stream), super::report(&stream).statements),
        ((6, 6), 14)
    );
}

/// Definitions N1 to N8, each of which calls the next after a NULL, and N9.
fn chain(last: &[u8]) -> Vec<u8> {
    let mut stream = define("N9", last);
    for number in 1..=8 {
        let next = call(&format!("N{}", number + 1), &[]);
        stream.extend(define(&format!("N{number}"), &join(&[&[0], &next])));
    }
    stream.push(ERASE);
    stream
}

#[test]
fn calls_to_the_limit() {
    let stream = join(&[&chain(&mover(1, 2)), &call("N2", &[]), &call("N9", &[])]);
    assert_eq!((beam(&stream), report(&stream).statements), ((2, 4), 18));
    for last in [&[][..], &[0]] {
        let start = chain(last);
        let stream = join(&[&start, &call("N1", &[])]);
        assert_eq!(spot(&stream), (13, start.len() as u32, 8, 1));
        assert_eq!(fault(&stream).layer(), Layer::Performance);
        assert_eq!(report(&stream).statements, 1 + 2 * 8);
    }
}

#[test]
fn at_eight_open_calls() {
    // A name without an entry opens no call.
    let stream = join(&[&chain(&call("NONE", &at(3, 4))), &call("N2", &[])]);
    assert_eq!(beam(&stream), (3, 4));
    // Not callable comes first, then already open, then too deep.
    let start = chain(&join(&[&[0, 0], &call("N5", &[])]));
    assert_eq!(
        spot(&join(&[&start, &call("N2", &[])])),
        (12, start.len() as u32, 8, 2)
    );
    let odd = join(&[&head("ODD", 0x40), &[SUBEND]]);
    let start = join(&[&odd, &chain(&call("ODD", &[]))]);
    assert_eq!(
        spot(&join(&[&start, &call("N2", &[])])),
        (11, start.len() as u32, 8, 0)
    );
    let start = join(&[&define("NEW", &[]), &chain(&call("NEW", &[]))]);
    assert_eq!(
        spot(&join(&[&start, &call("N2", &[])])),
        (13, start.len() as u32, 8, 0)
    );
    assert_eq!(beam(&join(&[&start, &call("N3", &[])])), (0, 0));
}

#[test]
fn faults_in_bodies() {
    let body = join(&[&mover(32_767, 0), &[0], &mover(1, 0)]);
    let stream = join(&[&define("A", &body), &[ERASE, 0], &call("A", &[]), &[0]]);
    let place = stream.len() as u32 - 5;
    assert_eq!(spot(&stream), (9, place, 1, 6));
    let after = report(&stream);
    assert_eq!((after.statements, after.read), (5, stream.len() as u32 - 1));
    let stream = join(&[&define("A", &[MARK; 65]), &[ERASE], &call("A", &[])]);
    assert_eq!(spot(&stream), (10, stream.len() as u32 - 4, 1, 64));
    let stream = join(&[&define("A", &[0]), &[ERASE], &[0; 65_535], &call("A", &[])]);
    assert_eq!(spot(&stream), (14, stream.len() as u32 - 4, 1, 0));
    assert_eq!(report(&stream).statements, 65_536);
    let dots = join(&[&[0], &pair(7, 1, 1), &pair(7, 1, 1)]);
    let inner = join(&[
        &define("A", &dots),
        &define("B", &join(&[&[0, 0, 0], &call("A", &[])])),
    ]);
    let stream = join(&[&inner, &[ERASE], &call("B", &[])]);
    let report = play(&mut Page::with_stock(8, Some(1)).unwrap(), &stream);
    let State::Refused(fault) = report.state else {
        panic!("the sheet is full");
    };
    assert_eq!((fault.number(), fault.layer()), (17, Layer::Sheet));
    assert_eq!(
        (fault.place, fault.calls, fault.offset),
        (stream.len() as u32 - 4, 2, 6)
    );
    assert_eq!(report.beam, Point::new(1, 1));
}

#[test]
fn long_bodies() {
    let full = join(&[&head("A", 0x80), &[0; 1_024]]);
    assert_eq!(report(&join(&[&full, &[SUBEND]])).state, State::Live);
    let stream = join(&[&full, &[0]]);
    assert_eq!(refused(&stream), (8, 1_029, Layer::Statement, 1_030));
    let stream = join(&[&head("A", 0x80), &[0; 1_020], &mover(1, 1)]);
    assert_eq!(refused(&stream), (8, 1_025, Layer::Statement, 1_030));
    assert_eq!(report(&stream[..1_029]).state, State::Live);
    let stream = join(&[&full, &[SUBEND, ERASE], &call("A", &[]), &[ENDPIC]]);
    assert_eq!(report(&stream).statements, 1_025);
    // Its own bytes come first.
    assert_eq!(refused(&join(&[&full, &pair(3, -32_768, 0)])).0, 6);
}

#[test]
fn many_names() {
    let names: Vec<String> = (0..33).map(|number| format!("N{number}")).collect();
    let full: Vec<u8> = names[..32]
        .iter()
        .flat_map(|name| define(name, &mover(1, 0)))
        .collect();
    let stream = join(&[&full, &head(&names[32], 0x80), &[0]]);
    let place = full.len() as u32;
    assert_eq!(refused(&stream), (8, place, Layer::Statement, place + 7));
    // A known name may be defined again, and all are there.
    let calls: Vec<u8> = names.iter().flat_map(|name| call(name, &[])).collect();
    let stream = join(&[&full, &define("N7", &mover(0, 1)), &[ERASE], &calls]);
    assert_eq!(beam(&stream), (31, 1));
}
