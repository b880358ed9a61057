//! Lines and their modes.

use super::*;
use crate::Mode;

/// The page of a line between two pixels of a page of side 16.
fn line(from: (i32, i32), to: (i32, i32), mode: Mode) -> Page {
    let mut page = Page::new(16).unwrap();
    let (from, to) = (centre(from.0, from.1, 16), centre(to.0, to.1, 16));
    page.line(from, to, mode).unwrap();
    page
}

#[test]
fn a_flat_line() {
    let inked = [(0, 0), (1, 1), (2, 1), (3, 2), (4, 2)];
    assert_eq!(pixels(&line((0, 0), (4, 2), Mode::Solid)), inked);
    assert_eq!(pixels(&line((4, 2), (0, 0), Mode::Solid)), inked);
}

#[test]
fn a_rising_line() {
    // From (0, 2) to (4, 0) the rows are 2 + R(-2k): 2, 2, 1, 1, 0.
    let inked = [(4, 0), (2, 1), (3, 1), (0, 2), (1, 2)];
    assert_eq!(pixels(&line((0, 2), (4, 0), Mode::Solid)), inked);
}

#[test]
fn steep_lines() {
    // From (2, 0) to (0, 4) the columns are 2 + R(-2k): 2, 2, 1, 1, 0.
    let inked = [(2, 0), (2, 1), (1, 2), (1, 3), (0, 4)];
    assert_eq!(pixels(&line((2, 0), (0, 4), Mode::Solid)), inked);
    let inked = [(3, 5), (3, 6), (3, 7)];
    assert_eq!(pixels(&line((3, 7), (3, 5), Mode::Solid)), inked);
}

#[test]
fn modes() {
    let row = |mode| picture(&line((0, 3), (15, 3), mode))[3].clone();
    assert_eq!(row(Mode::Solid), "################");
    assert_eq!(row(Mode::Dashed), "########....####");
    assert_eq!(row(Mode::Dotted), "#...#...#...#...");
}

#[test]
fn modes_count_from_the_first_end() {
    let row = |mode| picture(&line((-4, 3), (15, 3), mode))[3].clone();
    assert_eq!(row(Mode::Solid), "################");
    assert_eq!(row(Mode::Dashed), "####....########");
    // From column 17 to the left, point k is in column 17 - k.
    let row = |mode| picture(&line((17, 3), (0, 3), mode))[3].clone();
    assert_eq!(row(Mode::Dashed), "######....######");
    assert_eq!(row(Mode::Dotted), ".#...#...#...#..");
}

#[test]
fn a_line_of_one_point() {
    for mode in [Mode::Solid, Mode::Dashed, Mode::Dotted] {
        assert_eq!(pixels(&line((5, 6), (5, 6), mode)), [(5, 6)]);
        assert_eq!(pixels(&line((-5, 6), (-5, 6), mode)), []);
    }
}

#[test]
fn lines_that_miss_the_page() {
    assert_eq!(pixels(&line((-1, -8), (-1, 20), Mode::Solid)), []);
    assert_eq!(pixels(&line((0, 16), (15, 16), Mode::Solid)), []);
    assert_eq!(pixels(&line((-8, 7), (7, -8), Mode::Solid)), []);
    assert_eq!(pixels(&line((-8, 8), (8, -8), Mode::Solid)), [(0, 0)]);
}

/// The pixels of a line, word for word by the rule.
fn by_the_rule(page: &mut Page, from: Point, to: Point, mode: Mode) {
    let ((a, b), (c, d)) = (page.pixel(from), page.pixel(to));
    let n = (c - a).abs().max((d - b).abs());
    let r = |m: i64| (2 * m + n).div_euclid(2 * n);
    for k in 0..=n {
        let wanted = match mode {
            Mode::Solid => true,
            Mode::Dashed => k % 12 < 8,
            Mode::Dotted => k % 4 == 0,
        };
        if wanted && n == 0 {
            page.ink(a, b);
        } else if wanted {
            page.ink(a + r((c - a) * k), b + r((d - b) * k));
        }
    }
}

#[test]
fn lines_by_the_rule() {
    let mut numbers = Numbers(7);
    for turn in 0..30_000 {
        let side = numbers.within(8, 80) as u32;
        let reach = [16_384, 20_000, 32_768, 200_000][turn % 4];
        let mut part = || numbers.within(-reach, reach - 1) as i32;
        let (from, mut to) = (Point::new(part(), part()), Point::new(part(), part()));
        match turn % 7 {
            0 => to.y = from.y,
            1 => to.x = from.x,
            2 => to = Point::new(from.x + (to.y - from.y), to.y),
            _ => {}
        }
        let mode = [Mode::Solid, Mode::Dashed, Mode::Dotted][turn % 3];
        let mut page = Page::new(side).unwrap();
        let mut rule = page.clone();
        page.line(from, to, mode).unwrap();
        by_the_rule(&mut rule, from, to, mode);
        assert_eq!(page, rule, "{from:?} {to:?} {mode:?}");
    }
}

#[test]
fn the_farthest_ends() {
    let mut page = Page::new(2_048).unwrap();
    let ends = [i32::MIN, i32::MAX];
    for from in ends.map(|x| Point::new(x, i32::MIN)) {
        for to in ends.map(|x| Point::new(x, i32::MAX)) {
            page.line(from, to, Mode::Solid).unwrap();
        }
    }
    assert!(page.inked(0, 2_047) || page.inked(0, 2_046));
}
