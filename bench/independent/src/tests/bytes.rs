//! Reading bytes: refusals 1 to 7.

use super::*;

use Layer::{Bytes, Statement};

#[test]
fn unknown_codes() {
    assert_eq!(refused(&[21]), (1, 0, Bytes, 1));
    assert_eq!(refused(&[ERASE, 0, 255, 0]), (1, 2, Bytes, 3));
    assert_eq!(report(&[ERASE, 20]).state, State::Live);
}

#[test]
fn misplaced_codes() {
    let picture = vec![ERASE];
    let definition = head("A", 0x80);
    let inner = join(&[&[ERASE], &head("A", 0x80)]);
    for (start, wrong) in [
        (&vec![], (0..=20).filter(|c| ![1, 15].contains(c)).collect()),
        (&picture, vec![1, 16]),
        (&definition, vec![1, 10, 15]),
        (&inner, vec![1, 10, 15]),
    ] {
        let place = start.len() as u32;
        for code in 0..=20 {
            let stream = join(&[start, &[code]]);
            if wrong.contains(&code) {
                assert_eq!(refused(&stream), (2, place, Statement, place + 1));
            } else {
                assert_eq!(report(&stream).state, State::Live);
            }
        }
    }
}

#[test]
fn definitions_lead_back() {
    let inner = join(&[&[ERASE], &define("A", &[0]), &[ENDPIC]]);
    assert_eq!(report(&inner).pictures, 1);
    let outer = join(&[&define("A", &[0]), &[0]]);
    assert_eq!(refused(&outer).0, 2);
}

#[test]
fn counts() {
    for code in [8, 9, 14] {
        assert_eq!(refused(&[ERASE, code, 0x80, 0x7F]), (3, 1, Bytes, 4));
        assert_eq!(refused(&[ERASE, code, 0x82, 0x01]), (4, 1, Bytes, 4));
        assert_eq!(refused(&[ERASE, code, 0xFF, 0xFF]), (4, 1, Bytes, 4));
        for lawful in [&[0x7F][..], &[0x80], &[0x80, 0x80], &[0x82, 0x00]] {
            let stream = join(&[&[ERASE, code], lawful]);
            assert_eq!(report(&stream).state, State::Live);
        }
    }
    assert_eq!(refused(&[ERASE, 11, 9, 0x80, 0x00]), (3, 1, Bytes, 5));
    assert_eq!(refused(&[ERASE, 11, 0x80, 0x82, 0x01]), (4, 1, Bytes, 5));
}

#[test]
fn strings_of_all_lengths() {
    for length in [0, 1, 127, 128, 255, 256, 511, 512] {
        let escape = join(&[&[11], &string(200, &vec![0xFF; length])]);
        let stream = join(&[&[ERASE], &escape, &text(&vec![0; length]), &[ENDPIC]]);
        let report = report(&stream);
        assert_eq!((report.pictures, report.statements), (1, 2));
        assert_eq!(report.read as usize, stream.len());
    }
}

#[test]
fn counts_of_names() {
    assert_eq!(refused(&[15, 9]), (4, 0, Bytes, 2));
    assert_eq!(refused(&[15, 0x80, 0x7F]), (3, 0, Bytes, 3));
    assert_eq!(refused(&[15, 0x80, 0x80]), (4, 0, Bytes, 3));
    assert_eq!(refused(&[ERASE, 17, 127]), (4, 1, Bytes, 3));
    assert_eq!(report(&[15, 0x80]).state, State::Live);
    assert_eq!(report(&define("ABCDEFG8", &[])).state, State::Live);
}

#[test]
fn characters_of_texts() {
    let stream = join(&[&[ERASE], &text(b"A\x80B"), &[0]]);
    assert_eq!(refused(&stream), (5, 1, Statement, 6));
    assert_eq!(report(&stream[..5]).state, State::Live);
    for code in [9, 14] {
        assert_eq!(refused(&join(&[&[ERASE], &string(code, &[255])])).0, 5);
    }
    let stream = join(&[&[ERASE], &text(&(0..128).collect::<Vec<u8>>())]);
    // From the left margin, 95 letters to the right.
    assert_eq!(beam(&stream), (-16_384 + 95 * 450, -600));
}

#[test]
fn characters_of_names() {
    for name in ["", "a", "A B", "A-", "@", "[", "/", ":"] {
        let stream = head(name, 0xC0);
        let length = stream.len() as u32;
        assert_eq!(refused(&stream), (5, 0, Statement, length));
        let stream = join(&[&[ERASE], &call(name, &[])]);
        assert_eq!(refused(&stream), (5, 1, Statement, length));
    }
    // The characters of a name are looked at last.
    assert_eq!(
        refused(&join(&[&string(15, b"a"), &[2]])),
        (7, 0, Statement, 4)
    );
    assert_eq!(refused(&head("a", 0x81)), (7, 0, Statement, 5));
    assert_eq!(refused(&head("", 0)), (7, 0, Statement, 4));
}

#[test]
fn absolute_coordinates() {
    for code in [2, 4, 6] {
        for (x, y) in [(16_384, 0), (0, 16_384), (-16_385, 0), (0, -16_385)] {
            let stream = join(&[&[ERASE], &pair(code, x, y)]);
            assert_eq!(refused(&stream), (6, 1, Statement, 6));
            assert_eq!(report(&stream[..5]).state, State::Live);
        }
        let stream = join(&[&[ERASE], &pair(code, -16_384, 16_383)]);
        assert_eq!(beam(&stream), (-16_384, 16_383));
    }
}

#[test]
fn deltas() {
    for code in [3, 5, 7] {
        for (x, y) in [(-32_768, 0), (0, -32_768)] {
            let stream = join(&[&[ERASE], &pair(code, x, y)]);
            assert_eq!(refused(&stream), (6, 1, Statement, 6));
        }
        let stream = join(&[&[ERASE], &pair(code, -32_767, 32_767)]);
        assert_eq!(beam(&stream), (-32_767, 32_767));
    }
}

#[test]
fn headings() {
    assert_eq!(refused(&[15, 1, b'A', 0]), (7, 0, Statement, 4));
    for header in 0..=255 {
        let stream = head("A", header);
        if [0x80, 0x40, 0xC0].contains(&header) {
            assert_eq!(report(&stream).state, State::Live);
        } else {
            assert_eq!(refused(&stream), (7, 0, Statement, 5));
        }
    }
}

#[test]
fn tails() {
    let tail = |bytes: &[u8]| join(&[&[ERASE], &call("A", bytes)]);
    let lawful: [&[u8]; 7] = [
        &[],
        &[0],
        &[0x80, 0],
        &[0x80, 2, b'X', b'9'],
        &[0x40, 0, 5, 0, 6],
        &[0xC0, 0, 0, 5, 0, 6],
        b"\xC0\x08ABCDEFGH\x00\x05\x00\x06",
    ];
    for bytes in lawful {
        let report = report(&tail(bytes));
        assert_eq!((report.state, report.statements), (State::Live, 1));
    }
    let wrong: [&[u8]; 10] = [
        &[1],
        &[0x20, 0],
        &[0, 0],
        &[0x80],
        &[0x80, 1],
        &[0x80, 0, 0],
        b"\x80\x09ABCDEFGHI",
        &[0x40, 0, 5, 0],
        &[0x40, 0, 5, 0, 6, 0],
        &[0xC0, 1, 0, 5, 0, 6],
    ];
    for bytes in wrong {
        let stream = tail(bytes);
        assert_eq!(refused(&stream), (7, 1, Statement, stream.len() as u32));
        assert_eq!(report(&stream[..stream.len() - 1]).state, State::Live);
    }
    assert_eq!(refused(&[ERASE, 17, 1, b'A', 15]), (7, 1, Statement, 5));
    // First the layout, then coordinates, then characters.
    assert_eq!(refused(&tail(&[0xC0, 1, b'x', 0x40, 0, 0, 0])).0, 6);
    assert_eq!(refused(&tail(&[0xC0, 1, b'x', 0x3F, 0, 0, 0])).0, 5);
    assert_eq!(refused(&tail(&[0xE0, 1, b'x', 0x40, 0, 0, 0])).0, 7);
    assert_eq!(
        refused(&join(&[&[ERASE], &call("", &[0x40, 0xBF, 0xFF, 0, 0])])).0,
        6
    );
}
