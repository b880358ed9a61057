//! The three texts.

use super::*;

/// A picture that begins with the beam anywhere in the field.
fn at(x: i32, y: i32) -> Vec<u8> {
    let (half_x, half_y) = (x / 2, y / 2);
    join(&[
        &[ERASE],
        &mover(half_x as i16, half_y as i16),
        &mover((x - half_x) as i16, (y - half_y) as i16),
    ])
}

/// The number of a picture's refusal, and where its beam is.
fn stopped(stream: &[u8]) -> (u8, (i32, i32)) {
    let report = report(stream);
    assert_eq!(fault(stream).place, 11);
    (fault(stream).number(), (report.beam.x, report.beam.y))
}

#[test]
fn codes_of_a_text() {
    assert_eq!(beam(&join(&[&at(7, 9), &text(b"AB ~")])), (7 + 1_800, 9));
    assert_eq!(beam(&join(&[&at(7, 9), &text(b"A\r")])), (-16_384, 9));
    assert_eq!(beam(&join(&[&at(7, 9), &text(b"\n")])), (7, -591));
    assert_eq!(beam(&join(&[&at(7, 9), &text(&[8])])), (-443, 9));
    assert_eq!(
        beam(&join(&[&at(7, 9), &text(&[0, 7, 9, 11, 31, 127])])),
        (7, 9)
    );
    assert_eq!(beam(&join(&[&at(7, 9), &text(&[])])), (7, 9));
}

#[test]
fn letters_at_the_edge_of_the_field() {
    assert_eq!(beam(&join(&[&at(32_317, 0), &text(b"A")])), (32_767, 0));
    assert_eq!(
        stopped(&join(&[&at(32_318, 0), &text(b"A")])),
        (9, (32_318, 0))
    );
    assert_eq!(
        stopped(&join(&[&at(32_318, 0), &text(b" ")])),
        (9, (32_318, 0))
    );
    // The letters before the refused one stand.
    assert_eq!(
        stopped(&join(&[&at(31_868, 0), &text(b"AB")])),
        (9, (32_318, 0))
    );
    assert_eq!(
        stopped(&join(&[&at(31_868, 0), &textr(b"AB")])),
        (9, (31_868, 0))
    );
    let dark = join(&[&at(32_318, 0), &[13, 0], &text(b"A")]);
    assert_eq!(fault(&dark).number(), 9);
}

#[test]
fn other_codes_at_the_edge_of_the_field() {
    assert_eq!(beam(&join(&[&at(0, -32_168), &text(b"\n")])), (0, -32_768));
    assert_eq!(
        stopped(&join(&[&at(0, -32_169), &text(b"\n")])),
        (9, (0, -32_169))
    );
    assert_eq!(beam(&join(&[&at(-32_318, 0), &text(&[8])])), (-32_768, 0));
    assert_eq!(
        stopped(&join(&[&at(-32_319, 0), &text(&[8])])),
        (9, (-32_319, 0))
    );
    assert_eq!(beam(&join(&[&at(-32_768, 5), &text(b"\r")])), (-16_384, 5));
}

#[test]
fn the_beam_goes_back() {
    assert_eq!(beam(&join(&[&at(7, 9), &textr(b"AB\r\nC")])), (7, 9));
    assert_eq!(beam(&join(&[&at(20_000, 9), &textr(b"A")])), (20_000, 9));
    assert_eq!(
        stopped(&join(&[&at(7, -32_700), &textr(b"AB\n")])),
        (9, (7, -32_700))
    );
}

#[test]
fn the_right_margin() {
    assert_eq!(beam(&join(&[&at(15_934, 0), &texto(b"A")])), (16_384, 0));
    assert_eq!(
        beam(&join(&[&at(15_935, 0), &texto(b"A")])),
        (-15_934, -600)
    );
    assert_eq!(
        beam(&join(&[&at(15_935, 0), &texto(b" ")])),
        (-15_934, -600)
    );
    assert_eq!(
        beam(&join(&[&at(15_934, 0), &texto(b"AB")])),
        (-15_934, -600)
    );
    // Other codes do not break the line, and far to the right it is broken too.
    assert_eq!(
        beam(&join(&[&at(15_935, 0), &texto(&[127, 8])])),
        (15_485, 0)
    );
    assert_eq!(
        beam(&join(&[&at(32_767, 0), &texto(b"A")])),
        (-15_934, -600)
    );
    assert_eq!(beam(&join(&[&at(15_935, 0), &text(b"A")])), (16_385, 0));
    // 72 letters of 450 fill a line of 32,768: 72 * 450 is 32,400.
    let line = texto(&[b'A'; 72]);
    assert_eq!(beam(&join(&[&at(-16_384, 0), &line])), (16_016, 0));
    let line = texto(&[b'A'; 73]);
    assert_eq!(beam(&join(&[&at(-16_384, 0), &line])), (-15_934, -600));
}

#[test]
fn where_a_wrapped_letter_stands() {
    let mut page = Page::new(512).unwrap();
    play(&mut page, &join(&[&at(15_935, -14_000), &texto(b"_")]));
    // The point (-16,384, -14,600): 1,784 / 64 is 27.9, so row 511 - 27.
    let inked: Vec<_> = [0, 1, 2, 3, 4].map(|column| (column, 484)).to_vec();
    assert_eq!(pixels(&page), inked);
}

#[test]
fn a_line_break_out_of_the_field() {
    assert_eq!(
        beam(&join(&[&at(15_935, -32_168), &texto(b"A")])),
        (-15_934, -32_768)
    );
    let stream = join(&[&at(15_935, -32_169), &texto(b"A")]);
    assert_eq!(stopped(&stream), (9, (15_935, -32_169)));
}

#[test]
fn texts_on_a_full_sheet() {
    let mut page = Page::with_stock(16, Some(2)).unwrap();
    let mut stopped = |stream: &[u8]| {
        let report = play(&mut page, stream);
        let State::Refused(fault) = report.state else {
            panic!("the sheet is full");
        };
        assert_eq!((fault.number(), fault.place), (17, 11));
        (report.beam.x, report.beam.y)
    };
    assert_eq!(stopped(&join(&[&at(0, 0), &text(b" A B C")])), (2_250, 0));
    assert_eq!(stopped(&join(&[&at(0, 0), &textr(b"ABC")])), (0, 0));
    // The line break stands though the letter is refused.
    assert_eq!(
        stopped(&join(&[&at(15_500, 0), &texto(b"\x08ABC")])),
        (-16_384, -600)
    );
    // The field is looked at before the sheet.
    let mut page = Page::with_stock(16, Some(0)).unwrap();
    let report = play(&mut page, &join(&[&at(32_318, 0), &text(b"A")]));
    assert!(matches!(report.state, State::Refused(fault) if fault.number() == 9));
    // A space and a dark letter want no stock.
    let stream = join(&[&at(0, 0), &text(b"  "), &[13, 0], &text(b"A")]);
    assert_eq!(play(&mut page, &stream).state, State::Live);
}
