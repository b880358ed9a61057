//! The independent reader, fed in pieces.

use independent::{Page, Reader, Report, State};

/// Draws a stream on a page, in pieces of these lengths and then the rest, and finishes it.
pub fn draw_cut(page: &mut Page, stream: &[u8], lengths: &[u8]) -> Report {
    let mut reader = Reader::new();
    let mut rest = stream;
    for n in lengths {
        let (piece, after) = rest.split_at(rest.len().min(usize::from(*n)));
        let _ = reader.feed(page, piece);
        rest = after;
    }
    let _ = reader.feed(page, rest);
    let _ = reader.finish();
    reader.report()
}

/// Draws a stream on a page, in pieces of one length (0: whole), and finishes it.
pub fn draw_even(page: &mut Page, stream: &[u8], piece: usize) -> Report {
    let mut reader = Reader::new();
    let size = if piece == 0 { stream.len().max(1) } else { piece };
    for part in stream.chunks(size) {
        let _ = reader.feed(page, part);
    }
    let _ = reader.finish();
    reader.report()
}

/// What is printed of a job whose stream comes in pieces; one that is refused is not cut.
pub fn print_cut(job: &[u8], lengths: &[u8]) -> Vec<u8> {
    let whole = independent::draw_job(job);
    if whole.starts_with(b"job ") {
        return whole;
    }
    let side = u32::from(job[0]) * 256 + u32::from(job[1]);
    let Ok(mut page) = Page::new(side) else { return whole };
    let report = draw_cut(&mut page, &job[2..], lengths);
    independent::print(&page, &report)
}

/// The number of a report's fault, or 0.
pub fn number(report: &Report) -> u8 {
    match report.state {
        State::Refused(fault) => fault.number(),
        _ => 0,
    }
}
