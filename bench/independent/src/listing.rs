//! Listings: the statements of a stream as lines of text.

use std::io::Write;

use crate::page::Point;
use crate::parse::{LONGEST_STREAM, Stop, read};
use crate::refusal::Kind;
use crate::statement::{NAMES, Standing, Statement, Target};

/// Writes a line for each statement of a stream, and a last line that says how
/// the stream ends. Nothing is performed.
pub fn listing(stream: &[u8]) -> Vec<u8> {
    let longest = LONGEST_STREAM as usize;
    let lawful = &stream[..stream.len().min(longest)];
    let mut text = Vec::new();
    let mut standing = Standing::Outside;
    let mut place = 0;
    let mut refused = None;
    while place < lawful.len() {
        match read(&lawful[place..], standing) {
            Ok((statement, length)) => {
                let next = standing.after(&statement);
                let inner = standing.in_definition() && next.in_definition();
                let indent = if inner { "  " } else { "" };
                let name = NAMES[usize::from(lawful[place])];
                write(&mut text, format_args!("{place} {indent}{name}"));
                arguments(&mut text, statement);
                text.push(b'\n');
                standing = next;
                place += length;
            }
            Err(Stop::More(_)) => break,
            Err(Stop::Refused(kind, _)) => {
                refused = Some(kind);
                break;
            }
        }
    }
    if refused.is_none() && stream.len() > longest {
        refused = Some(Kind::StreamTooLong);
    }
    if let Some(kind) = refused {
        let number = kind.number();
        write(
            &mut text,
            format_args!("refused under {number} at {place}\n"),
        );
    } else if place < stream.len() || standing != Standing::Outside {
        let length = stream.len();
        write(&mut text, format_args!("unfinished at {length}\n"));
    } else {
        text.extend_from_slice(b"whole\n");
    }
    text
}

/// Writes the arguments of a statement, each after a space.
fn arguments(text: &mut Vec<u8>, statement: Statement) {
    match statement {
        Statement::Stroke(_, Target::At(point) | Target::By(point)) => coordinates(text, point),
        Statement::Text(_, codes) => quoted(text, codes),
        Statement::Escape(value, string) => {
            write(text, format_args!(" {value}"));
            quoted(text, string);
        }
        Statement::LineMode(value) | Statement::Intensity(value) => {
            write(text, format_args!(" {value}"));
        }
        Statement::Define(name, header) => {
            word(text, name);
            write(text, format_args!(" {header:02X}"));
        }
        Statement::Call(name, tail) => {
            word(text, name);
            let Some(tail) = tail else { return };
            if tail.name.is_none() && tail.at.is_none() {
                word(text, b"CODE");
            }
            if let Some(instance) = tail.name {
                word(text, b"AS");
                quoted(text, instance);
            }
            if let Some(at) = tail.at {
                word(text, b"AT");
                coordinates(text, at);
            }
        }
        _ => {}
    }
}

fn coordinates(text: &mut Vec<u8>, point: Point) {
    write(text, format_args!(" {} {}", point.x, point.y));
}

fn word(text: &mut Vec<u8>, word: &[u8]) {
    text.push(b' ');
    text.extend_from_slice(word);
}

/// A string between quotes, with what is not plain in base 16.
fn quoted(text: &mut Vec<u8>, string: &[u8]) {
    text.extend_from_slice(b" \"");
    for &byte in string {
        match byte {
            0..=31 | b'"' | b'\\' | 127..=255 => write(text, format_args!("\\x{byte:02x}")),
            _ => text.push(byte),
        }
    }
    text.push(b'"');
}

fn write(text: &mut Vec<u8>, parts: std::fmt::Arguments) {
    text.write_fmt(parts)
        .expect("memory takes all that is written");
}
