//! Statements, as parts of the bytes that they were read from, and where they
//! may stand.

use crate::page::Point;

/// The names of the codes, in their order.
pub(crate) const NAMES: [&str; 21] = [
    "NULL", "ERASE", "MOVEA", "MOVER", "DRAWA", "DRAWR", "DOTA", "DOTR", "TEXT", "TEXTR", "ENDPIC",
    "ESCDEV", "LINMOD", "SETINT", "TEXTO", "SUBHED", "SUBEND", "INSTS", "MARK", "MOVEMK", "DRAWMK",
];

/// What happens on the way to a point.
#[derive(Clone, Copy, Debug, PartialEq, Eq)]
pub(crate) enum Stroke {
    /// Nothing.
    Move,
    /// A line from the beam to the point.
    Draw,
    /// A dot at the point.
    Dot,
}

/// Where a stroke ends.
#[derive(Clone, Copy, Debug, PartialEq, Eq)]
pub(crate) enum Target {
    /// At this point.
    At(Point),
    /// At the beam plus this.
    By(Point),
}

/// The three texts.
#[derive(Clone, Copy, Debug, PartialEq, Eq)]
pub(crate) enum Manner {
    /// The beam stays behind the text.
    Plain,
    /// The beam goes back to where it was.
    Back,
    /// A new line is begun at the right margin.
    Wrapped,
}

/// The tail of a call that has one.
#[derive(Clone, Copy, Debug, PartialEq, Eq)]
pub(crate) struct Tail<'a> {
    /// The name of the instance.
    pub(crate) name: Option<&'a [u8]>,
    /// Where the beam is moved before the call.
    pub(crate) at: Option<Point>,
}

/// A statement.
#[derive(Clone, Copy, Debug, PartialEq, Eq)]
pub(crate) enum Statement<'a> {
    /// NULL.
    Null,
    /// ERASE.
    Erase,
    /// MOVEA, MOVER, DRAWA, DRAWR, DOTA or DOTR.
    Stroke(Stroke, Target),
    /// TEXT, TEXTR or TEXTO.
    Text(Manner, &'a [u8]),
    /// ENDPIC.
    EndPicture,
    /// ESCDEV: a device and a string for it.
    Escape(u8, &'a [u8]),
    /// LINMOD.
    LineMode(u8),
    /// SETINT.
    Intensity(u8),
    /// SUBHED: a name and a header.
    Define(&'a [u8], u8),
    /// SUBEND.
    EndDefinition,
    /// INSTS: a name and a tail.
    Call(&'a [u8], Option<Tail<'a>>),
    /// MARK.
    Mark,
    /// MOVEMK.
    MoveToMark,
    /// DRAWMK.
    DrawToMark,
}

/// Where one stands between two statements.
#[derive(Clone, Copy, Debug, Default, PartialEq, Eq)]
pub(crate) enum Standing {
    /// Neither in a picture nor in a definition.
    #[default]
    Outside,
    /// In a picture.
    Picture,
    /// In a definition that was begun outside.
    Definition,
    /// In a definition that was begun in a picture.
    PictureDefinition,
}

impl Standing {
    /// Whether one stands in a definition.
    pub(crate) fn in_definition(self) -> bool {
        matches!(self, Standing::Definition | Standing::PictureDefinition)
    }

    /// Whether a code up to 20 may come here.
    pub(crate) fn allows(self, code: u8) -> bool {
        const ERASE: u8 = 1;
        const ENDPIC: u8 = 10;
        const SUBHED: u8 = 15;
        const SUBEND: u8 = 16;
        match self {
            Standing::Outside => matches!(code, ERASE | SUBHED),
            Standing::Picture => !matches!(code, ERASE | SUBEND),
            Standing::Definition | Standing::PictureDefinition => {
                !matches!(code, ERASE | ENDPIC | SUBHED)
            }
        }
    }

    /// Where one stands after a statement that may come here.
    pub(crate) fn after(self, statement: &Statement<'_>) -> Self {
        match (statement, self) {
            (Statement::Erase, _) => Standing::Picture,
            (Statement::EndPicture, _) => Standing::Outside,
            (Statement::Define(..), Standing::Picture) => Standing::PictureDefinition,
            (Statement::Define(..), _) => Standing::Definition,
            (Statement::EndDefinition, Standing::PictureDefinition) => Standing::Picture,
            (Statement::EndDefinition, _) => Standing::Outside,
            _ => self,
        }
    }
}
