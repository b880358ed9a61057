//! A reader and rasteriser of drawing streams.
//!
//! A stream is a run of statements that move a beam and put dots, lines and
//! letters on a square page. [`Reader`] takes a stream in pieces of any length
//! and draws it on a [`Page`]; [`listing`] writes a stream's statements as
//! text; [`draw_job`] draws a job and prints its page.
//!
//! The crate is written from the documents of the format alone.

mod font;
mod job;
mod library;
mod line;
mod listing;
mod machine;
mod page;
mod parse;
mod pen;
mod reader;
mod refusal;
mod statement;

#[cfg(test)]
mod tests;

pub use font::glyph;
pub use job::{draw_job, print};
pub use listing::listing;
pub use page::{Mode, Page, Point, SheetFull};
pub use reader::{Reader, Report, State};
pub use refusal::{Fault, Kind, Layer, Refusal};
