//! The reader: a stream in pieces of any length.

use crate::machine::{Machine, Trouble};
use crate::page::{Page, Point};
use crate::parse::{LONGEST_STATEMENT, LONGEST_STREAM, Stop, read};
use crate::refusal::{Fault, Kind, Refusal};
use crate::statement::Standing;

/// Whether a reader still reads.
#[derive(Clone, Copy, Debug, PartialEq, Eq)]
pub enum State {
    /// It takes more bytes.
    Live,
    /// A finish has closed it.
    Closed,
    /// The stream was refused.
    Refused(Fault),
}

/// What a reader tells of its stream.
#[derive(Clone, Copy, Debug, PartialEq, Eq)]
pub struct Report {
    /// The bytes read.
    pub read: u32,
    /// The finished pictures.
    pub pictures: u32,
    /// The statements performed since the last picture began.
    pub statements: u32,
    /// The beam.
    pub beam: Point,
    /// Whether the reader is live, closed or refused.
    pub state: State,
}

/// A statement whose first bytes came in an earlier piece.
#[derive(Clone, Debug)]
struct Held {
    bytes: [u8; LONGEST_STATEMENT],
    length: usize,
    /// How many bytes it takes to tell more.
    wanted: usize,
}

impl Held {
    /// Takes bytes from the front of a piece, as many as are wanted and there.
    fn fill(&mut self, piece: &mut &[u8]) -> usize {
        let count = piece.len().min(self.wanted - self.length);
        let (taken, rest) = piece.split_at(count);
        self.bytes[self.length..][..count].copy_from_slice(taken);
        self.length += count;
        *piece = rest;
        count
    }
}

/// A reader of one stream. It draws on the page that it is given with each
/// piece, which should be the same page each time.
#[derive(Clone, Debug)]
pub struct Reader {
    machine: Machine,
    held: Held,
    /// The bytes read.
    read: u32,
    /// The place of the statement that is being read, or of the next one.
    place: u32,
    state: State,
}

impl Default for Reader {
    fn default() -> Self {
        Self::new()
    }
}

impl Reader {
    /// A reader at the start of a stream.
    pub fn new() -> Self {
        Self {
            machine: Machine::new(),
            held: Held {
                bytes: [0; LONGEST_STATEMENT],
                length: 0,
                wanted: 0,
            },
            read: 0,
            place: 0,
            state: State::Live,
        }
    }

    /// Reads a piece of the stream and draws what it says. A refused stream
    /// stays refused, and a closed reader refuses every piece.
    pub fn feed(&mut self, page: &mut Page, piece: &[u8]) -> Result<(), Refusal> {
        match self.state {
            State::Live => {}
            State::Closed => return Err(Refusal::Closed),
            State::Refused(fault) => return Err(Refusal::Stream(fault)),
        }
        let room = (LONGEST_STREAM - self.read) as usize;
        let answer = match piece.get(..room) {
            Some(lawful) if piece.len() > room => self
                .take(page, lawful)
                .and(Err(Trouble::from(Kind::StreamTooLong))),
            _ => self.take(page, piece),
        };
        answer.map_err(|trouble| self.refuse(trouble, self.place))
    }

    /// Ends the stream. It must stand outside between statements, or it is
    /// refused. A second finish changes nothing and answers as the first.
    pub fn finish(&mut self) -> Result<(), Refusal> {
        match self.state {
            State::Closed => Ok(()),
            State::Refused(fault) => Err(Refusal::Stream(fault)),
            State::Live if self.held.length == 0 && self.machine.standing == Standing::Outside => {
                self.state = State::Closed;
                Ok(())
            }
            State::Live => Err(self.refuse(Kind::Unfinished.into(), self.read)),
        }
    }

    /// What there is to tell of the stream so far.
    pub fn report(&self) -> Report {
        Report {
            read: self.read,
            pictures: self.machine.pictures,
            statements: self.machine.pen.statements,
            beam: self.machine.pen.beam,
            state: self.state,
        }
    }

    /// Notes a refusal.
    fn refuse(&mut self, trouble: Trouble, place: u32) -> Refusal {
        let fault = Fault {
            kind: trouble.kind,
            place,
            calls: trouble.calls,
            offset: trouble.offset,
        };
        self.state = State::Refused(fault);
        Refusal::Stream(fault)
    }

    /// Takes bytes that are not too many.
    fn take(&mut self, page: &mut Page, mut piece: &[u8]) -> Result<(), Trouble> {
        while self.held.length > 0 {
            self.read += self.held.fill(&mut piece) as u32;
            if self.held.length < self.held.wanted {
                return Ok(());
            }
            let bytes = &self.held.bytes[..self.held.length];
            match read(bytes, self.machine.standing) {
                Ok((statement, _)) => {
                    self.machine.take(page, statement, bytes)?;
                    self.held.length = 0;
                    self.place = self.read;
                }
                Err(Stop::More(wanted)) => self.held.wanted = wanted,
                Err(Stop::Refused(kind, _)) => return Err(kind.into()),
            }
        }
        while !piece.is_empty() {
            match read(piece, self.machine.standing) {
                Ok((statement, length)) => {
                    let (bytes, rest) = piece.split_at(length);
                    self.read += length as u32;
                    self.machine.take(page, statement, bytes)?;
                    self.place = self.read;
                    piece = rest;
                }
                Err(Stop::More(wanted)) => {
                    self.held.wanted = wanted;
                    self.read += self.held.fill(&mut piece) as u32;
                }
                Err(Stop::Refused(kind, length)) => {
                    self.read += length as u32;
                    return Err(kind.into());
                }
            }
        }
        Ok(())
    }
}
