//! Jobs and their printed form.

use super::*;
use crate::draw_job;

fn job(side: u16, stream: &[u8]) -> String {
    let job = join(&[&side.to_be_bytes(), stream]);
    String::from_utf8(draw_job(&job)).unwrap()
}

#[test]
fn refused_jobs() {
    assert_eq!(draw_job(&[]), b"job 22\n");
    assert_eq!(draw_job(&[0]), b"job 22\n");
    assert_eq!(draw_job(&vec![0; 65_539]), b"job 22\n");
    assert_eq!(draw_job(&vec![0; 65_538]), b"job 18\n");
    assert_eq!(draw_job(&[0, 7]), b"job 18\n");
    assert_eq!(draw_job(&[2, 1]), b"job 18\n");
    assert_eq!(draw_job(&[8, 0]), b"job 18\n");
}

#[test]
fn an_empty_stream() {
    let report = "read 0 pictures 0 statements 0 beam 0 0 fault 0 at 0 in 0 0\n";
    assert_eq!(job(8, &[]), "........\n".repeat(8) + report);
    let row = ".".repeat(512) + "\n";
    assert_eq!(job(512, &[]), row.repeat(512) + report);
}

#[test]
fn a_picture() {
    let stream = join(&[
        &[ERASE],
        &movea(-16_384, -16_384),
        &pair(4, 16_383, 16_383),
        &pair(6, 16_383, -16_384),
        &[ENDPIC],
    ]);
    let expected = "........#\n.......#.\n......#..\n.....#...\n....#....\n...#.....\n..#......\n\
        .#.......\n#.......#\n\
        read 17 pictures 1 statements 3 beam 16383 -16384 fault 0 at 0 in 0 0\n";
    assert_eq!(job(9, &stream), expected);
}

#[test]
fn refused_streams() {
    let blank = "........\n".repeat(8);
    let expected = "read 1 pictures 0 statements 0 beam 0 0 fault 16 at 1 in 0 0\n";
    assert_eq!(job(8, &[ERASE]), blank.clone() + expected);
    let expected = "read 2 pictures 0 statements 0 beam 0 0 fault 1 at 1 in 0 0\n";
    assert_eq!(job(8, &[ERASE, 99, 99]), blank.clone() + expected);
    let body = join(&[&mover(32_767, 0), &[0], &mover(1, 0)]);
    let stream = join(&[&define("A", &body), &[ERASE], &call("A", &[])]);
    let expected = "read 22 pictures 0 statements 4 beam 32767 0 fault 9 at 18 in 1 6\n";
    assert_eq!(job(8, &stream), blank + expected);
}

#[test]
fn the_writers_example() {
    let stream = join(&[
        &[1],
        &[2, 0, 0, 0, 0],
        &[4, 0, 100, 0, 100],
        &[8, 5, 72, 69, 76, 76, 79],
        &[10],
    ]);
    let printed = job(64, &stream);
    let expected = "read 19 pictures 1 statements 3 beam 2350 100 fault 0 at 0 in 0 0\n";
    assert!(printed.ends_with(expected));
    // 512 units are a pixel, so all of it lies in the rows above the middle.
    let inked = |row: &&str| row.contains('#');
    assert_eq!(printed.lines().filter(inked).count(), 2);
    let first = printed.lines().position(|row| row.contains('#'));
    assert_eq!(first, Some(30));
}

#[test]
fn the_longest_job() {
    let stream = join(&[&[ERASE], &[0; 65_534], &[ENDPIC]]);
    let expected = "read 65536 pictures 1 statements 65534 beam 0 0 fault 0 at 0 in 0 0\n";
    assert_eq!(job(8, &stream), "........\n".repeat(8) + expected);
}
