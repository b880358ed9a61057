//! Reading the statement at the front of some bytes.

use crate::page::Point;
use crate::refusal::Kind;
use crate::statement::{Manner, Standing, Statement, Stroke, Tail, Target};

/// The most bytes that a stream may have.
pub(crate) const LONGEST_STREAM: u32 = 16_777_216;
/// The most bytes that a statement has: a code, a value, a count of two bytes
/// and a string.
pub(crate) const LONGEST_STATEMENT: usize = 4 + LONGEST_STRING;
/// The most bytes of a string.
const LONGEST_STRING: usize = 512;
/// The most characters of a name.
const LONGEST_NAME: usize = 8;
/// The most bytes after the first byte of a tail.
const LONGEST_TAIL: usize = 14;

/// Why there is no statement.
#[derive(Clone, Copy, Debug, PartialEq, Eq)]
pub(crate) enum Stop {
    /// Nothing more can be told before so many bytes are there, counted from
    /// the code.
    More(usize),
    /// Refused; so many bytes were looked at, counted from the code.
    Refused(Kind, usize),
}

/// Reads the statement at the front of the bytes, and tells its length.
pub(crate) fn read(bytes: &[u8], standing: Standing) -> Result<(Statement<'_>, usize), Stop> {
    let mut front = Front { bytes, used: 0 };
    let code = front.byte()?;
    if code > 20 {
        return front.refuse(Kind::UnknownCode);
    }
    if !standing.allows(code) {
        return front.refuse(Kind::Misplaced);
    }
    let statement = match code {
        0 => Statement::Null,
        1 => Statement::Erase,
        2 => Statement::Stroke(Stroke::Move, front.absolute()?),
        3 => Statement::Stroke(Stroke::Move, front.delta()?),
        4 => Statement::Stroke(Stroke::Draw, front.absolute()?),
        5 => Statement::Stroke(Stroke::Draw, front.delta()?),
        6 => Statement::Stroke(Stroke::Dot, front.absolute()?),
        7 => Statement::Stroke(Stroke::Dot, front.delta()?),
        8 => Statement::Text(Manner::Plain, front.text()?),
        9 => Statement::Text(Manner::Back, front.text()?),
        10 => Statement::EndPicture,
        11 => Statement::Escape(front.byte()?, front.counted(LONGEST_STRING)?),
        12 => Statement::LineMode(front.byte()?),
        13 => Statement::Intensity(front.byte()?),
        14 => Statement::Text(Manner::Wrapped, front.text()?),
        15 => front.define()?,
        16 => Statement::EndDefinition,
        17 => front.call()?,
        18 => Statement::Mark,
        19 => Statement::MoveToMark,
        _ => Statement::DrawToMark,
    };
    Ok((statement, front.used))
}

/// The bytes of a statement, and how many of them were taken.
struct Front<'a> {
    bytes: &'a [u8],
    used: usize,
}

impl<'a> Front<'a> {
    fn refuse<T>(&self, kind: Kind) -> Result<T, Stop> {
        Err(Stop::Refused(kind, self.used))
    }

    fn take(&mut self, count: usize) -> Result<&'a [u8], Stop> {
        let end = self.used + count;
        let taken = self.bytes.get(self.used..end).ok_or(Stop::More(end))?;
        self.used = end;
        Ok(taken)
    }

    fn byte(&mut self) -> Result<u8, Stop> {
        Ok(self.take(1)?[0])
    }

    /// A count and that many bytes.
    fn counted(&mut self, most: usize) -> Result<&'a [u8], Stop> {
        let mut count = usize::from(self.byte()?);
        if count >= 128 {
            count = (count - 128) * 256 + usize::from(self.byte()?);
            if count < 128 {
                return self.refuse(Kind::ShortCount);
            }
        }
        if count > most {
            return self.refuse(Kind::TooLong);
        }
        self.take(count)
    }

    fn absolute(&mut self) -> Result<Target, Stop> {
        let at = point(self.take(4)?);
        if !on_screen(at) {
            return self.refuse(Kind::WrongCoordinate);
        }
        Ok(Target::At(at))
    }

    fn delta(&mut self) -> Result<Target, Stop> {
        let by = point(self.take(4)?);
        if by.x == -32_768 || by.y == -32_768 {
            return self.refuse(Kind::WrongCoordinate);
        }
        Ok(Target::By(by))
    }

    fn text(&mut self) -> Result<&'a [u8], Stop> {
        let codes = self.counted(LONGEST_STRING)?;
        if !codes.is_ascii() {
            return self.refuse(Kind::WrongCharacter);
        }
        Ok(codes)
    }

    /// What follows the code of SUBHED.
    fn define(&mut self) -> Result<Statement<'a>, Stop> {
        let name = self.counted(LONGEST_NAME)?;
        if self.byte()? != 1 {
            return self.refuse(Kind::WrongLayout);
        }
        let header = self.byte()?;
        if !matches!(header, 0x80 | 0x40 | 0xC0) {
            return self.refuse(Kind::WrongLayout);
        }
        if name.is_empty() || !is_name(name) {
            return self.refuse(Kind::WrongCharacter);
        }
        Ok(Statement::Define(name, header))
    }

    /// What follows the code of INSTS.
    fn call(&mut self) -> Result<Statement<'a>, Stop> {
        let name = self.counted(LONGEST_NAME)?;
        let length = usize::from(self.byte()?);
        if length > LONGEST_TAIL {
            return self.refuse(Kind::WrongLayout);
        }
        let bytes = self.take(length)?;
        let tail = match (bytes.is_empty(), tail(bytes)) {
            (true, _) => None,
            (false, Some(tail)) => Some(tail),
            (false, None) => return self.refuse(Kind::WrongLayout),
        };
        if tail
            .and_then(|tail| tail.at)
            .is_some_and(|at| !on_screen(at))
        {
            return self.refuse(Kind::WrongCoordinate);
        }
        let instance = tail.and_then(|tail| tail.name).unwrap_or_default();
        if name.is_empty() || !is_name(name) || !is_name(instance) {
            return self.refuse(Kind::WrongCharacter);
        }
        Ok(Statement::Call(name, tail))
    }
}

/// The parts of a tail that is not empty, if it is laid out well.
fn tail(bytes: &[u8]) -> Option<Tail<'_>> {
    let (&code, mut rest) = bytes.split_first()?;
    if code & 0x3F != 0 {
        return None;
    }
    let mut tail = Tail {
        name: None,
        at: None,
    };
    if code & 0x80 != 0 {
        let (&count, after) = rest.split_first()?;
        let count = usize::from(count);
        if count > LONGEST_NAME {
            return None;
        }
        let (name, after) = after.split_at_checked(count)?;
        tail.name = Some(name);
        rest = after;
    }
    if code & 0x40 != 0 {
        let (at, after) = rest.split_at_checked(4)?;
        tail.at = Some(point(at));
        rest = after;
    }
    rest.is_empty().then_some(tail)
}

/// The point of four bytes.
fn point(bytes: &[u8]) -> Point {
    let part = |at| i32::from(i16::from_be_bytes([bytes[at], bytes[at + 1]]));
    Point::new(part(0), part(2))
}

/// Whether an absolute point is lawful.
fn on_screen(at: Point) -> bool {
    let lawful = -16_384..=16_383;
    lawful.contains(&at.x) && lawful.contains(&at.y)
}

/// Whether all characters may stand in a name.
fn is_name(characters: &[u8]) -> bool {
    characters
        .iter()
        .all(|c| c.is_ascii_uppercase() || c.is_ascii_digit())
}
