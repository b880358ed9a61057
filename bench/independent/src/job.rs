//! Jobs: a side and a stream, drawn and printed.

use std::io::Write;

use crate::page::Page;
use crate::reader::{Reader, Report, State};
use crate::refusal::Refusal;

/// The least and the largest length of a job: a side of two bytes and a stream.
const LENGTHS: std::ops::RangeInclusive<usize> = 2..=65_538;
/// The largest side of a job's page. The least is that of every page.
const LARGEST_SIDE: u32 = 512;

/// Draws a job and prints its page and report. A job is the side of its page,
/// in two bytes with the high one first, and a stream. A refused job prints its
/// number alone.
pub fn draw_job(job: &[u8]) -> Vec<u8> {
    match draw(job) {
        Ok((page, report)) => print(&page, &report),
        Err(refusal) => format!("job {}\n", refusal.number()).into_bytes(),
    }
}

/// Draws the stream of a job, and finishes it.
fn draw(job: &[u8]) -> Result<(Page, Report), Refusal> {
    if !LENGTHS.contains(&job.len()) {
        return Err(Refusal::Job);
    }
    let (side, stream) = job.split_at(2);
    let side = u32::from(u16::from_be_bytes([side[0], side[1]]));
    if side > LARGEST_SIDE {
        return Err(Refusal::Side);
    }
    let mut page = Page::new(side)?;
    let mut reader = Reader::new();
    // A refusal of the stream is told by the report.
    let _ = reader.feed(&mut page, stream);
    let _ = reader.finish();
    Ok((page, reader.report()))
}

/// Prints a page, a line for each row, and then a line with a report.
pub fn print(page: &Page, report: &Report) -> Vec<u8> {
    let side = page.side() as usize;
    let mut text = Vec::with_capacity(side * (side + 1) + 128);
    for row in page.rows().chunks_exact(page.stride()) {
        let start = text.len();
        for &byte in row {
            for bit in 0..8 {
                text.push(if byte & (0x80 >> bit) != 0 {
                    b'#'
                } else {
                    b'.'
                });
            }
        }
        text.truncate(start + side);
        text.push(b'\n');
    }
    let (number, place, calls, offset) = match report.state {
        State::Refused(fault) => (fault.number(), fault.place, fault.calls, fault.offset),
        State::Live | State::Closed => (0, 0, 0, 0),
    };
    writeln!(
        text,
        "read {} pictures {} statements {} beam {} {} fault {number} at {place} in {calls} {offset}",
        report.read, report.pictures, report.statements, report.beam.x, report.beam.y,
    )
    .expect("memory takes all that is written");
    text
}
