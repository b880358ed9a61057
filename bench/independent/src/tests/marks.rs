//! Pages, dots, letters and the lettering.

use super::*;
use crate::{Mode, SheetFull, glyph};

#[test]
fn sides() {
    for side in [0, 7, 2_049] {
        let refusal = Page::new(side).unwrap_err();
        assert_eq!((refusal, refusal.number()), (Refusal::Side, 18));
    }
    for (side, bytes) in [(8, 8), (9, 18), (2_048, 2_048 * 256)] {
        let page = Page::new(side).unwrap();
        assert_eq!((page.side(), page.rows().len()), (side, bytes));
    }
}

#[test]
fn points_go_to_pixels() {
    let page = Page::new(512).unwrap();
    for (v, pixel) in [
        (-16_385, -1),
        (-16_384, 0),
        (-1, 255),
        (0, 256),
        (16_383, 511),
    ] {
        assert_eq!(page.pixel(Point::new(v, v)), (pixel, 511 - pixel));
    }
    let page = Page::new(2_048).unwrap();
    assert_eq!(page.pixel(Point::new(-32_768, 32_767)), (-1_024, -1_024));
    assert_eq!(page.pixel(Point::new(32_767, -32_768)), (3_071, 3_071));
    let page = Page::new(10).unwrap();
    // 3,276 * 10 / 32,768 is just below 1, and 3,277 * 10 / 32,768 just above.
    assert_eq!(page.pixel(Point::new(-16_384 + 3_276, 0)).0, 0);
    assert_eq!(page.pixel(Point::new(-16_384 + 3_277, 0)).0, 1);
    assert_eq!(
        page.pixel(Point::new(i32::MAX, i32::MIN)),
        (655_364, 655_364)
    );
}

#[test]
fn dots() {
    let mut page = Page::new(9).unwrap();
    page.dot(Point::new(-16_384, 16_383)).unwrap();
    page.dot(Point::new(16_383, 16_383)).unwrap();
    page.dot(Point::new(0, -16_384)).unwrap();
    page.dot(Point::new(-16_385, 0)).unwrap();
    page.dot(Point::new(0, 16_384)).unwrap();
    assert_eq!(pixels(&page), [(0, 0), (8, 0), (4, 8)]);
    assert_eq!(page.rows()[..2], [0x80, 0x80]);
    assert_eq!(page.rows()[16..], [0x08, 0x00]);
    page.clear();
    assert!(page.rows().iter().all(|&byte| byte == 0));
    assert!(!page.inked(-1, 0) && !page.inked(0, 9));
}

#[test]
fn a_full_stop() {
    let mut page = Page::new(512).unwrap();
    page.letter(Point::new(0, 0), b'.').unwrap();
    assert_eq!(
        pixels(&page),
        [(257, 254), (258, 254), (257, 255), (258, 255)]
    );
}

#[test]
fn letters_by_the_rule() {
    let mut numbers = Numbers(5);
    for _ in 0..2_000 {
        let side = numbers.within(8, 512) as u32;
        let mut page = Page::new(side).unwrap();
        let mut dots = page.clone();
        let code = numbers.within(0, 255) as u8;
        let x = numbers.within(-17_000, 17_000) as i32;
        let y = numbers.within(-17_000, 17_000) as i32;
        page.letter(Point::new(x, y), code).unwrap();
        for (r, &row) in glyph(code).iter().enumerate() {
            for c in (0..5).filter(|c| row & (16 >> c) != 0) {
                let dot = Point::new(x + 75 * c, y + 75 * (6 - r as i32));
                dots.dot(dot).unwrap();
            }
        }
        assert_eq!(page, dots);
    }
}

#[test]
fn a_letter_over_the_edge() {
    // The left two columns of the letter are off the page, the others one
    // pixel apart or two: 75 units are 1.17 pixels.
    let mut page = Page::new(512).unwrap();
    page.letter(Point::new(-16_384 - 150, -16_384), b'_')
        .unwrap();
    assert_eq!(pixels(&page), [(0, 511), (1, 511), (2, 511)]);
}

#[test]
fn lettering() {
    assert_eq!(*glyph(b'A'), [4, 10, 17, 17, 31, 17, 17, 0]);
    assert_eq!(*glyph(b'!'), [4, 4, 4, 4, 4, 0, 4, 0]);
    assert_eq!(*glyph(b'~'), [0, 0, 8, 21, 2, 0, 0, 0]);
    assert_eq!(*glyph(b'/'), [1, 1, 2, 4, 8, 16, 16, 0]);
    assert_eq!(*glyph(b' '), [0; 8]);
    for code in 32..=126 {
        assert!(glyph(code).iter().all(|&row| row < 32));
        assert_eq!(glyph(code)[7], 0);
        assert_eq!(
            (32..=126)
                .filter(|&other| glyph(other) == glyph(code))
                .count(),
            1
        );
    }
    for code in (0..32).chain(127..=255) {
        assert_eq!(*glyph(code), [0; 8]);
    }
    for code in b"acegmnopqrsuvwxyz" {
        assert_eq!(glyph(*code)[..2], [0, 0]);
    }
}

#[test]
fn stocks() {
    let mut page = Page::with_stock(8, Some(3)).unwrap();
    let at = centre(0, 0, 8);
    page.dot(at).unwrap();
    page.line(at, centre(0, 1, 8), Mode::Solid).unwrap();
    page.letter(at, 7).unwrap();
    let before = page.clone();
    assert_eq!(page.stock(), Some(0));
    assert_eq!(page.dot(centre(5, 5, 8)), Err(SheetFull));
    assert_eq!(page.line(at, centre(5, 5, 8), Mode::Dotted), Err(SheetFull));
    assert_eq!(page.letter(at, b'A'), Err(SheetFull));
    assert_eq!(page, before);
    page.clear();
    assert_eq!(page, Page::with_stock(8, Some(3)).unwrap());
    assert_eq!(
        Page::with_stock(8, Some(0)).unwrap().dot(at),
        Err(SheetFull)
    );
}
