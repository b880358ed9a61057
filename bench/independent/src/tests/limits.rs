//! The longest stream, finishes and closed readers: refusals 15, 16 and 20.

use super::*;

/// The most bytes of a stream.
const LONGEST: usize = 16_777_216;

/// A picture without its end, of so many bytes. It is made of ESCDEV.
fn long(length: usize) -> Vec<u8> {
    let escape = join(&[&[11], &string(0, &[7; 512])]);
    let mut stream = vec![ERASE];
    while stream.len() + escape.len() <= length {
        stream.extend(&escape);
    }
    stream.resize(length, 0);
    stream
}

#[test]
fn the_longest_stream() {
    let stream = join(&[&long(LONGEST - 1), &[ENDPIC]]);
    let mut page = Page::new(8).unwrap();
    let mut reader = Reader::new();
    for piece in stream.chunks(1_000_003) {
        reader.feed(&mut page, piece).unwrap();
    }
    assert_eq!(reader.report().pictures, 1);
    assert_eq!(reader.report().read as usize, LONGEST);
    let mut closed = reader.clone();
    closed.finish().unwrap();
    assert_eq!(closed.report().state, State::Closed);
    // One byte more, between statements. It would be misplaced.
    let refusal = reader.feed(&mut page, &[0]).unwrap_err();
    assert_eq!(refusal.number(), 15);
    let State::Refused(fault) = reader.report().state else {
        panic!("too long");
    };
    assert_eq!(
        (fault.place as usize, fault.layer()),
        (LONGEST, Layer::Bytes)
    );
    assert_eq!(reader.report().read as usize, LONGEST);
}

#[test]
fn too_long_in_a_statement() {
    let stream = join(&[&long(LONGEST - 3), &pair(2, 16_384, 0)]);
    let report = report(&stream);
    let State::Refused(fault) = report.state else {
        panic!("too long");
    };
    assert_eq!((fault.number(), fault.place as usize), (15, LONGEST - 3));
    assert_eq!(report.read as usize, LONGEST);
    // A fault in the last lawful byte comes first.
    let stream = join(&[&long(LONGEST - 1), &[21, 21]]);
    assert_eq!(
        refused(&stream),
        (1, LONGEST as u32 - 1, Layer::Bytes, LONGEST as u32)
    );
}

#[test]
fn unfinished() {
    let in_statement = [ERASE, ENDPIC, 15, 1];
    let definition = head("A", 0x80);
    for stream in [
        &[ERASE][..],
        &[ERASE, 0],
        &in_statement,
        &definition,
        &[ERASE, 2, 0],
    ] {
        let mut page = Page::new(8).unwrap();
        let mut reader = Reader::new();
        reader.feed(&mut page, stream).unwrap();
        let refusal = reader.finish().unwrap_err();
        let Refusal::Stream(fault) = refusal else {
            panic!("a refusal of the stream");
        };
        assert_eq!((fault.number(), fault.layer()), (16, Layer::Bytes));
        assert_eq!(
            (fault.place as usize, fault.calls, fault.offset),
            (stream.len(), 0, 0)
        );
        // The stream stays refused.
        let report = reader.report();
        assert_eq!(report.state, State::Refused(fault));
        assert_eq!(reader.feed(&mut page, &[0]), Err(refusal));
        assert_eq!(reader.finish(), Err(refusal));
        assert_eq!(reader.report(), report);
    }
}

#[test]
fn closed() {
    for stream in [&[][..], &[ERASE, ENDPIC], &define("A", &[0])] {
        let mut page = Page::new(8).unwrap();
        let mut reader = Reader::new();
        assert_eq!(reader.report().state, State::Live);
        reader.feed(&mut page, stream).unwrap();
        reader.finish().unwrap();
        let report = reader.report();
        assert_eq!(report.state, State::Closed);
        for piece in [&[][..], &[ERASE], &[99]] {
            let refusal = reader.feed(&mut page, piece).unwrap_err();
            assert_eq!((refusal, refusal.number()), (Refusal::Closed, 20));
        }
        reader.finish().unwrap();
        assert_eq!(reader.report(), report);
    }
}

#[test]
fn nothing_changes_after_a_refusal() {
    let mut page = Page::new(8).unwrap();
    let mut reader = Reader::new();
    let stream = join(&[&[ERASE], &pair(6, 0, 0), &[21], &pair(6, 9_999, 0)]);
    let refusal = reader.feed(&mut page, &stream).unwrap_err();
    let (report, before) = (reader.report(), page.clone());
    assert_eq!((refusal.number(), report.read), (1, 7));
    assert_eq!(reader.feed(&mut page, &[ENDPIC, ERASE]), Err(refusal));
    assert_eq!(reader.feed(&mut page, &[]), Err(refusal));
    assert_eq!(reader.finish(), Err(refusal));
    assert_eq!((reader.report(), page), (report, before));
}

#[test]
fn a_new_reader() {
    let report = Reader::new().report();
    assert_eq!((report.read, report.pictures, report.statements), (0, 0, 0));
    assert_eq!((report.beam, report.state), (Point::new(0, 0), State::Live));
}
