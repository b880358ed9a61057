//! The definitions that a stream has made, and the one that it is making.

use crate::refusal::Kind;

/// How many names may have a definition.
const ENTRIES: usize = 32;
/// The most bytes of a body.
const LONGEST_BODY: usize = 1_024;

/// A name of up to eight characters in one number. No character is 0, so two
/// names are the same exactly if their numbers are.
type Key = u64;

fn key(name: &[u8]) -> Key {
    name.iter().fold(0, |key, &c| key << 8 | Key::from(c))
}

/// A definition.
#[derive(Clone, Debug, Default)]
struct Entry {
    key: Key,
    header: u8,
    body: Vec<u8>,
}

/// All definitions so far. Memory is wanted at the making and for a new name,
/// and never by a statement alone.
#[derive(Clone, Debug)]
pub(crate) struct Library {
    entries: Vec<Entry>,
    /// The definition that is being recorded.
    draft: Entry,
}

impl Library {
    /// A library without any definition.
    pub(crate) fn new() -> Self {
        Self {
            entries: Vec::with_capacity(ENTRIES),
            draft: Entry {
                body: Vec::with_capacity(LONGEST_BODY),
                ..Entry::default()
            },
        }
    }

    /// The number of a name's entry.
    pub(crate) fn find(&self, name: &[u8]) -> Option<usize> {
        let key = key(name);
        self.entries.iter().position(|entry| entry.key == key)
    }

    /// Whether an entry is for simple calls.
    pub(crate) fn is_simple(&self, entry: usize) -> bool {
        self.entries[entry].header & 0x80 != 0
    }

    /// The body of an entry.
    pub(crate) fn body(&self, entry: usize) -> &[u8] {
        &self.entries[entry].body
    }

    /// Begins to record a definition.
    pub(crate) fn begin(&mut self, name: &[u8], header: u8) -> Result<(), Kind> {
        if self.entries.len() == ENTRIES && self.find(name).is_none() {
            return Err(Kind::NoRoom);
        }
        self.draft.key = key(name);
        self.draft.header = header;
        self.draft.body.clear();
        Ok(())
    }

    /// Records the bytes of a statement.
    pub(crate) fn record(&mut self, statement: &[u8]) -> Result<(), Kind> {
        if self.draft.body.len() + statement.len() > LONGEST_BODY {
            return Err(Kind::NoRoom);
        }
        self.draft.body.extend_from_slice(statement);
        Ok(())
    }

    /// Gives the recorded body and header to their name.
    pub(crate) fn end(&mut self) {
        let draft = &mut self.draft;
        match self.entries.iter_mut().find(|entry| entry.key == draft.key) {
            Some(entry) => std::mem::swap(entry, draft),
            None => {
                let next = Entry {
                    body: Vec::with_capacity(LONGEST_BODY),
                    ..Entry::default()
                };
                self.entries.push(std::mem::replace(draft, next));
            }
        }
    }
}
