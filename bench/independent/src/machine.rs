//! What statements do: pictures, definitions and calls.

use crate::library::Library;
use crate::page::Page;
use crate::parse::read;
use crate::pen::Pen;
use crate::refusal::Kind;
use crate::statement::{Standing, Statement};

/// How many calls may be open.
const MOST_CALLS: usize = 8;

/// A refusal, with the spot of the faulty statement in called bodies.
#[derive(Clone, Copy, Debug)]
pub(crate) struct Trouble {
    pub(crate) kind: Kind,
    pub(crate) calls: u8,
    pub(crate) offset: u16,
}

impl From<Kind> for Trouble {
    /// A refusal outside calls.
    fn from(kind: Kind) -> Self {
        Self {
            kind,
            calls: 0,
            offset: 0,
        }
    }
}

/// The state of a stream between its statements.
#[derive(Clone, Debug)]
pub(crate) struct Machine {
    pub(crate) standing: Standing,
    pub(crate) pictures: u32,
    pub(crate) pen: Pen,
    library: Library,
}

impl Machine {
    /// The state in which a stream begins.
    pub(crate) fn new() -> Self {
        Self {
            standing: Standing::Outside,
            pictures: 0,
            pen: Pen::new(),
            library: Library::new(),
        }
    }

    /// Takes a statement that may come here, with its own bytes.
    pub(crate) fn take(
        &mut self,
        page: &mut Page,
        statement: Statement,
        bytes: &[u8],
    ) -> Result<(), Trouble> {
        match statement {
            Statement::Define(name, header) => self.library.begin(name, header)?,
            Statement::EndDefinition => self.library.end(),
            _ if self.standing.in_definition() => self.library.record(bytes)?,
            Statement::Erase => {
                page.clear();
                self.pen.reset();
            }
            Statement::EndPicture => self.pictures += 1,
            _ => perform(&mut self.pen, &self.library, page, statement)?,
        }
        self.standing = self.standing.after(&statement);
        Ok(())
    }
}

/// A call that is open: its entry, and how much of the body is performed.
#[derive(Clone, Copy, Default)]
struct Call {
    entry: usize,
    done: usize,
}

/// The calls that are open, the outermost first.
#[derive(Default)]
struct Calls {
    stack: [Call; MOST_CALLS],
    open: usize,
}

impl Calls {
    /// Opens a call of an entry.
    fn open(&mut self, library: &Library, entry: usize) -> Result<(), Kind> {
        if !library.is_simple(entry) {
            return Err(Kind::NotCallable);
        }
        if self.stack[..self.open]
            .iter()
            .any(|call| call.entry == entry)
        {
            return Err(Kind::AlreadyOpen);
        }
        if self.open == MOST_CALLS {
            return Err(Kind::TooDeep);
        }
        self.stack[self.open] = Call { entry, done: 0 };
        self.open += 1;
        Ok(())
    }

    /// The next statement of the innermost body that has one, and its offset.
    /// Calls that are over are closed.
    fn next<'a>(&mut self, library: &'a Library) -> Option<(Statement<'a>, usize)> {
        while let Some(call) = self.stack[..self.open].last_mut() {
            let offset = call.done;
            let rest = &library.body(call.entry)[offset..];
            if let Ok((statement, length)) = read(rest, Standing::Definition) {
                call.done += length;
                return Some((statement, offset));
            }
            // A body is made of whole statements, so nothing is left of it.
            self.open -= 1;
        }
        None
    }
}

/// Performs a statement of the stream, and what it calls.
fn perform(
    pen: &mut Pen,
    library: &Library,
    page: &mut Page,
    statement: Statement,
) -> Result<(), Trouble> {
    let Statement::Call(..) = statement else {
        pen.count()?;
        return Ok(pen.perform(page, statement)?);
    };
    let mut calls = Calls::default();
    let mut next = Some((statement, 0));
    while let Some((statement, offset)) = next {
        let spot = calls.open;
        step(pen, library, page, &mut calls, statement).map_err(|kind| Trouble {
            kind,
            calls: spot as u8,
            offset: offset as u16,
        })?;
        next = calls.next(library);
    }
    Ok(())
}

/// Performs a statement, or opens the call that it makes.
fn step(
    pen: &mut Pen,
    library: &Library,
    page: &mut Page,
    calls: &mut Calls,
    statement: Statement,
) -> Result<(), Kind> {
    pen.count()?;
    let Statement::Call(name, tail) = statement else {
        return pen.perform(page, statement);
    };
    if let Some(at) = tail.and_then(|tail| tail.at) {
        pen.beam = at;
    }
    match library.find(name) {
        Some(entry) => calls.open(library, entry),
        None => Ok(()),
    }
}
