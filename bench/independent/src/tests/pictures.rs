//! Statements in pictures, and the refusals 9, 10, 14 and 17.

use super::*;

#[test]
fn strokes() {
    let mut page = Page::new(8).unwrap();
    let stream = join(&[
        &[ERASE],
        &movea(-16_384, 16_383),  // pixel (0, 0)
        &pair(5, 8_192, 0),       // to pixel (2, 0)
        &pair(6, 0, 0),           // a dot at (4, 3)
        &pair(7, 4_096, -4_096),  // a dot at (5, 4)
        &pair(4, 4_096, -16_384), // down to (5, 7)
        &mover(-1, 1),
        &[ENDPIC],
    ]);
    let report = play(&mut page, &stream);
    assert_eq!(
        picture(&page),
        [
            "###.....", "........", "........", "....#...", ".....#..", ".....#..", ".....#..",
            ".....#..",
        ]
    );
    assert_eq!(
        (report.read, report.pictures, report.statements),
        (32, 1, 6)
    );
    assert_eq!(report.beam, Point::new(4_095, -16_383));
}

#[test]
fn line_modes() {
    for (value, row) in [
        (0, "################"),
        (1, "########....####"),
        (2, "#...#...#...#..."),
        (3, "################"),
        (255, "################"),
    ] {
        let mut page = Page::new(16).unwrap();
        let stream = join(&[
            &[ERASE],
            &movea(-16_384, 16_383),
            &[12, value],
            &pair(4, 16_383, 16_383),
        ]);
        play(&mut page, &stream);
        assert_eq!(picture(&page)[0], row);
    }
}

#[test]
fn intensity_and_erase() {
    let mut page = Page::with_stock(8, Some(1)).unwrap();
    let dark = join(&[
        &[ERASE, 13, 0],
        &pair(6, 1, 2),
        &pair(4, 3, 4),
        &text(b"AB"),
    ]);
    let report = play(&mut page, &dark);
    assert_eq!((report.statements, report.beam), (4, Point::new(903, 4)));
    assert_eq!((page.stock(), pixels(&page)), (Some(1), vec![]));
    // The next picture starts bright and solid at (0, 0), on a clear page.
    let stream = join(&[
        &dark,
        &[12, 2, 13, 1],
        &pair(6, 0, 0),
        &[ENDPIC, ERASE],
        &pair(4, -16_384, 0),
    ]);
    let report = play(&mut page, &stream);
    assert_eq!((report.statements, report.pictures), (1, 1));
    assert_eq!(picture(&page)[3], "#####...");
    assert_eq!(page.stock(), Some(0));
}

#[test]
fn off_the_field() {
    let far = join(&[&[ERASE], &mover(32_767, -32_767)]);
    assert_eq!(beam(&far), (32_767, -32_767));
    assert_eq!(beam(&join(&[&far, &mover(0, -1)])), (32_767, -32_768));
    let stream = join(&[&far, &pair(5, 1, 0)]);
    assert_eq!(refused(&stream), (9, 6, Layer::Performance, 11));
    let report = report(&stream);
    assert_eq!(
        (report.beam, report.statements),
        (Point::new(32_767, -32_767), 2)
    );
    assert_eq!(refused(&join(&[&far, &pair(7, 0, -2)])).0, 9);
    assert_eq!(refused(&join(&[&far, &mover(32_767, 0)])).0, 9);
}

#[test]
fn marks() {
    let stream = join(&[
        &[ERASE],
        &movea(1, 2),
        &[MARK],
        &movea(3, 4),
        &[MARK, 19],
        &movea(5, 6),
        &[20],
    ]);
    assert_eq!(beam(&stream[..stream.len() - 1]), (5, 6));
    assert_eq!(beam(&stream), (1, 2));
    assert_eq!(beam(&join(&[&stream, &[19]])), (0, 0));
    assert_eq!(beam(&join(&[&stream, &[20]])), (0, 0));
}

#[test]
fn drawing_to_a_mark() {
    let mut page = Page::new(16).unwrap();
    let at = |column, row| {
        let point = centre(column, row, 16);
        movea(point.x as i16, point.y as i16)
    };
    play(
        &mut page,
        &join(&[&[ERASE], &at(3, 3), &[MARK], &at(6, 3), &[20]]),
    );
    assert_eq!(picture(&page)[3], "...####.........");
    play(
        &mut page,
        &join(&[&[ERASE], &at(3, 3), &[MARK], &at(6, 3), &[19]]),
    );
    assert_eq!(pixels(&page), []);
}

#[test]
fn the_mark_stack_fills() {
    let full = join(&[&[ERASE], &[MARK; 64]]);
    assert_eq!(report(&full).state, State::Live);
    let stream = join(&[&full, &[MARK]]);
    assert_eq!(refused(&stream), (10, 65, Layer::Performance, 66));
    assert_eq!(report(&stream).statements, 65);
    assert_eq!(report(&join(&[&full, &[19, MARK]])).state, State::Live);
    assert_eq!(
        report(&join(&[&full, &[ENDPIC, ERASE, MARK]])).state,
        State::Live
    );
}

#[test]
fn too_many_statements() {
    let full = join(&[&[ERASE], &[0; 65_536]]);
    assert_eq!(report(&full).statements, 65_536);
    let stream = join(&[&full, &[MARK]]);
    assert_eq!(refused(&stream), (14, 65_537, Layer::Performance, 65_538));
    assert_eq!(report(&stream).statements, 65_536);
    // Definitions and endings are not counted.
    let stream = join(&[&full, &define("A", &[0]), &[ENDPIC]]);
    assert_eq!(
        (report(&stream).statements, report(&stream).pictures),
        (65_536, 1)
    );
    let stream = join(&[&stream, &[ERASE, 0]]);
    assert_eq!(report(&stream).statements, 1);
    // A misplaced or a wrong statement is refused for itself.
    assert_eq!(refused(&join(&[&full, &pair(2, 20_000, 0)])).0, 6);
}

#[test]
fn a_full_sheet() {
    let mut page = Page::with_stock(8, Some(1)).unwrap();
    let stream = join(&[&[ERASE], &pair(6, 0, 0), &movea(5, 5), &pair(4, 9, 9)]);
    let report = play(&mut page, &stream);
    let State::Refused(fault) = report.state else {
        panic!("the sheet is full");
    };
    assert_eq!(
        (fault.number(), fault.layer(), fault.place),
        (17, Layer::Sheet, 11)
    );
    assert_eq!((report.beam, report.statements), (Point::new(5, 5), 3));
    assert_eq!(pixels(&page), [(4, 3)]);
    // The field is looked at before the sheet.
    let stream = join(&[&[ERASE], &pair(7, 32_767, 0), &pair(7, 1, 0)]);
    let report = play(&mut page, &stream);
    assert!(matches!(report.state, State::Refused(fault) if fault.number() == 9));
    // Clearing makes the stock full again.
    let stream = join(&[&[ERASE], &pair(6, 0, 0), &[ENDPIC, ERASE], &pair(6, 0, 0)]);
    assert_eq!(play(&mut page, &stream).state, State::Live);
}

#[test]
fn statements_without_effect() {
    let stream = [ERASE, 0, 11, 7, 2, 1, 255, 0, ENDPIC];
    let mut page = Page::new(8).unwrap();
    let report = play(&mut page, &stream);
    assert_eq!((report.statements, report.beam), (3, Point::new(0, 0)));
    assert_eq!(pixels(&page), []);
}
