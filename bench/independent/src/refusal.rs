//! Refusals: their numbers, their layers and where they point.

/// What is wrong, one case for each number.
#[derive(Clone, Copy, Debug, PartialEq, Eq)]
#[repr(u8)]
pub enum Kind {
    /// A code above 20.
    UnknownCode = 1,
    /// A code that may not come here.
    Misplaced = 2,
    /// A count of two bytes below 128.
    ShortCount = 3,
    /// A string over 512 bytes or a name over 8.
    TooLong = 4,
    /// A text code above 127, or a wrong or missing character of a name.
    WrongCharacter = 5,
    /// A coordinate that is not lawful.
    WrongCoordinate = 6,
    /// A wrong header, tail, or byte after the name of a definition.
    WrongLayout = 7,
    /// A body over 1,024 bytes or a 33rd name.
    NoRoom = 8,
    /// The beam would leave the field.
    OffTheField = 9,
    /// A 65th point on the mark stack.
    MarkStackFull = 10,
    /// A call of an entry that is not for simple calls.
    NotCallable = 11,
    /// A call of a name that is open.
    AlreadyOpen = 12,
    /// A ninth open call.
    TooDeep = 13,
    /// Statement 65,537 since the picture began.
    TooManyStatements = 14,
    /// A byte at place 16,777,216.
    StreamTooLong = 15,
    /// A finish elsewhere than outside between statements.
    Unfinished = 16,
    /// A mark on a page whose stock is used up.
    SheetFull = 17,
}

impl Kind {
    /// The number of the refusal.
    pub const fn number(self) -> u8 {
        self as u8
    }

    /// The layer that refuses.
    pub const fn layer(self) -> Layer {
        match self {
            Kind::UnknownCode
            | Kind::ShortCount
            | Kind::TooLong
            | Kind::StreamTooLong
            | Kind::Unfinished => Layer::Bytes,
            Kind::Misplaced
            | Kind::WrongCharacter
            | Kind::WrongCoordinate
            | Kind::WrongLayout
            | Kind::NoRoom => Layer::Statement,
            Kind::OffTheField
            | Kind::MarkStackFull
            | Kind::NotCallable
            | Kind::AlreadyOpen
            | Kind::TooDeep
            | Kind::TooManyStatements => Layer::Performance,
            Kind::SheetFull => Layer::Sheet,
        }
    }
}

/// The layer of the reader that refuses a stream.
#[derive(Clone, Copy, Debug, PartialEq, Eq)]
pub enum Layer {
    /// Single bytes and counts.
    Bytes,
    /// Statements and where they stand.
    Statement,
    /// What statements do.
    Performance,
    /// The page that is drawn on.
    Sheet,
}

/// The refusal of a stream.
#[derive(Clone, Copy, Debug, PartialEq, Eq)]
pub struct Fault {
    /// What is wrong.
    pub kind: Kind,
    /// The place of the code of the stream's own statement; for an unfinished
    /// stream the number of bytes read.
    pub place: u32,
    /// How many calls are open where the faulty statement stands.
    pub calls: u8,
    /// The offset of the faulty statement in the innermost called body, or 0.
    pub offset: u16,
}

impl Fault {
    /// The number of the refusal.
    pub const fn number(&self) -> u8 {
        self.kind.number()
    }

    /// The layer that refuses.
    pub const fn layer(&self) -> Layer {
        self.kind.layer()
    }
}

/// Any refusal of this crate.
#[derive(Clone, Copy, Debug, PartialEq, Eq)]
pub enum Refusal {
    /// A stream is refused, under 1 to 17.
    Stream(Fault),
    /// A page or a job with a side that it may not have.
    Side,
    /// A feed of a closed reader.
    Closed,
    /// A job that is too short or too long.
    Job,
}

impl Refusal {
    /// The number of the refusal.
    pub const fn number(&self) -> u8 {
        match self {
            Refusal::Stream(fault) => fault.number(),
            Refusal::Side => 18,
            Refusal::Closed => 20,
            Refusal::Job => 22,
        }
    }
}
