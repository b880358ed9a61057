//! Examples that were worked out by hand from the documents.

mod bytes;
mod calls;
mod cutting;
mod jobs;
mod limits;
mod lines;
mod listings;
mod marks;
mod pictures;
mod texts;

use crate::{Fault, Layer, Page, Point, Reader, Refusal, Report, State};

/// Codes of statements.
const ERASE: u8 = 1;
const MARK: u8 = 18;
const ENDPIC: u8 = 10;
const SUBEND: u8 = 16;

/// A stream of parts.
fn join(parts: &[&[u8]]) -> Vec<u8> {
    parts.concat()
}

/// A code and two coordinates.
fn pair(code: u8, x: i16, y: i16) -> Vec<u8> {
    let mut bytes = vec![code];
    bytes.extend(x.to_be_bytes());
    bytes.extend(y.to_be_bytes());
    bytes
}

fn movea(x: i16, y: i16) -> Vec<u8> {
    pair(2, x, y)
}

fn mover(x: i16, y: i16) -> Vec<u8> {
    pair(3, x, y)
}

/// A code and a string.
fn string(code: u8, bytes: &[u8]) -> Vec<u8> {
    let mut all = vec![code];
    if bytes.len() >= 128 {
        all.push(128 + (bytes.len() / 256) as u8);
        all.push((bytes.len() % 256) as u8);
    } else {
        all.push(bytes.len() as u8);
    }
    all.extend(bytes);
    all
}

fn text(codes: &[u8]) -> Vec<u8> {
    string(8, codes)
}

fn textr(codes: &[u8]) -> Vec<u8> {
    string(9, codes)
}

fn texto(codes: &[u8]) -> Vec<u8> {
    string(14, codes)
}

/// SUBHED.
fn head(name: &str, header: u8) -> Vec<u8> {
    join(&[&string(15, name.as_bytes()), &[1, header]])
}

/// A whole definition for simple calls.
fn define(name: &str, body: &[u8]) -> Vec<u8> {
    join(&[&head(name, 0x80), body, &[SUBEND]])
}

/// INSTS with the bytes of a tail.
fn call(name: &str, tail: &[u8]) -> Vec<u8> {
    join(&[&string(17, name.as_bytes()), &[tail.len() as u8], tail])
}

/// Draws a stream on a page, without a finish.
fn play(page: &mut Page, stream: &[u8]) -> Report {
    let mut reader = Reader::new();
    let answer = reader.feed(page, stream);
    let report = reader.report();
    match report.state {
        State::Refused(fault) => assert_eq!(answer, Err(Refusal::Stream(fault))),
        _ => assert_eq!(answer, Ok(())),
    }
    report
}

/// Draws a stream on a small page.
fn report(stream: &[u8]) -> Report {
    play(&mut Page::new(16).unwrap(), stream)
}

/// The fault of a stream that is refused.
fn fault(stream: &[u8]) -> Fault {
    let report = report(stream);
    let State::Refused(fault) = report.state else {
        panic!("not refused: {report:?}");
    };
    fault
}

/// The number, place, open calls and offset of a stream's fault.
fn spot(stream: &[u8]) -> (u8, u32, u8, u16) {
    let fault = fault(stream);
    (fault.number(), fault.place, fault.calls, fault.offset)
}

/// The number and place of a fault outside calls, its layer, and how many bytes
/// were read.
fn refused(stream: &[u8]) -> (u8, u32, Layer, u32) {
    let fault = fault(stream);
    assert_eq!((fault.calls, fault.offset), (0, 0));
    (
        fault.number(),
        fault.place,
        fault.layer(),
        report(stream).read,
    )
}

/// The beam after a stream that is not refused.
fn beam(stream: &[u8]) -> (i32, i32) {
    let report = report(stream);
    assert_eq!(report.state, State::Live);
    (report.beam.x, report.beam.y)
}

/// A point that goes to a pixel of a page of this side.
fn centre(column: i32, row: i32, side: i32) -> Point {
    let size = 32_768 / side;
    Point::new(
        -16_384 + column * size + size / 2,
        16_384 - row * size - size / 2,
    )
}

/// The rows of a page as text.
fn picture(page: &Page) -> Vec<String> {
    let side = i64::from(page.side());
    (0..side)
        .map(|row| {
            (0..side)
                .map(|column| if page.inked(column, row) { '#' } else { '.' })
                .collect()
        })
        .collect()
}

/// All inked pixels, as columns and rows.
fn pixels(page: &Page) -> Vec<(i64, i64)> {
    let side = i64::from(page.side());
    (0..side)
        .flat_map(|row| (0..side).map(move |column| (column, row)))
        .filter(|&(column, row)| page.inked(column, row))
        .collect()
}

/// Numbers that look random, the same at each run.
struct Numbers(u64);

impl Numbers {
    fn next(&mut self) -> u64 {
        self.0 ^= self.0 << 13;
        self.0 ^= self.0 >> 7;
        self.0 ^= self.0 << 17;
        self.0
    }

    /// A number below this one.
    fn below(&mut self, end: u64) -> u64 {
        (self.next() >> 16) % end
    }

    /// A number from the first to the last.
    fn within(&mut self, first: i64, last: i64) -> i64 {
        first + self.below((last - first + 1) as u64) as i64
    }
}
