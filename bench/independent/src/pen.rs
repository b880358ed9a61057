//! The beam, its modes and its marks: every statement but calls.

use crate::page::{Mode, Page, Point, SheetFull};
use crate::refusal::Kind;
use crate::statement::{Manner, Statement, Stroke, Target};

/// How many statements of a picture may be performed.
const MOST_STATEMENTS: u32 = 65_536;
/// How many points the mark stack holds.
const MOST_MARKS: usize = 64;
/// The left margin of texts.
const MARGIN: i32 = -16_384;
/// Where a wrapped line ends.
const RIGHT: i32 = 16_384;
/// The width of a letter.
const ADVANCE: i32 = 450;
/// The height of a line of text.
const LINE_FEED: i32 = 600;

impl From<SheetFull> for Kind {
    fn from(_: SheetFull) -> Self {
        Kind::SheetFull
    }
}

/// What a picture's statements work with.
#[derive(Clone, Debug)]
pub(crate) struct Pen {
    pub(crate) beam: Point,
    pub(crate) statements: u32,
    intensity: u8,
    mode: Mode,
    marks: Vec<Point>,
}

impl Pen {
    /// The pen at the start of a stream.
    pub(crate) fn new() -> Self {
        Self {
            beam: Point::default(),
            statements: 0,
            intensity: 128,
            mode: Mode::Solid,
            marks: Vec::with_capacity(MOST_MARKS),
        }
    }

    /// Makes the pen as it is at the start of a picture.
    pub(crate) fn reset(&mut self) {
        self.beam = Point::default();
        self.statements = 0;
        self.intensity = 128;
        self.mode = Mode::Solid;
        self.marks.clear();
    }

    /// Counts a statement that is to be performed.
    pub(crate) fn count(&mut self) -> Result<(), Kind> {
        if self.statements == MOST_STATEMENTS {
            return Err(Kind::TooManyStatements);
        }
        self.statements += 1;
        Ok(())
    }

    /// Performs a statement that is no call and neither opens nor closes.
    pub(crate) fn perform(&mut self, page: &mut Page, statement: Statement) -> Result<(), Kind> {
        match statement {
            Statement::Stroke(stroke, Target::At(at)) => self.stroke(page, stroke, at)?,
            Statement::Stroke(stroke, Target::By(by)) => {
                let at = in_field(self.beam.x + by.x, self.beam.y + by.y)?;
                self.stroke(page, stroke, at)?;
            }
            Statement::Text(manner, codes) => self.text(page, manner, codes)?,
            Statement::LineMode(value) => {
                self.mode = match value {
                    1 => Mode::Dashed,
                    2 => Mode::Dotted,
                    _ => Mode::Solid,
                }
            }
            Statement::Intensity(value) => self.intensity = value,
            Statement::Mark if self.marks.len() == MOST_MARKS => {
                return Err(Kind::MarkStackFull);
            }
            Statement::Mark => self.marks.push(self.beam),
            Statement::MoveToMark => {
                let at = self.marks.pop().unwrap_or_default();
                self.stroke(page, Stroke::Move, at)?;
            }
            Statement::DrawToMark => {
                let at = self.marks.pop().unwrap_or_default();
                self.stroke(page, Stroke::Draw, at)?;
            }
            _ => {}
        }
        Ok(())
    }

    /// Puts the mark of a stroke, then moves the beam.
    fn stroke(&mut self, page: &mut Page, stroke: Stroke, at: Point) -> Result<(), Kind> {
        if self.intensity != 0 {
            match stroke {
                Stroke::Move => {}
                Stroke::Draw => page.line(self.beam, at, self.mode)?,
                Stroke::Dot => page.dot(at)?,
            }
        }
        self.beam = at;
        Ok(())
    }

    /// Performs a text.
    fn text(&mut self, page: &mut Page, manner: Manner, codes: &[u8]) -> Result<(), Kind> {
        let start = self.beam;
        let answer = codes
            .iter()
            .try_for_each(|&code| self.text_code(page, manner, code));
        if manner == Manner::Back {
            self.beam = start;
        }
        answer
    }

    /// Performs one code of a text.
    fn text_code(&mut self, page: &mut Page, manner: Manner, code: u8) -> Result<(), Kind> {
        let Point { x, y } = self.beam;
        match code {
            32..=126 => {
                if manner == Manner::Wrapped && x + ADVANCE > RIGHT {
                    self.beam = in_field(MARGIN, y - LINE_FEED)?;
                }
                let next = in_field(self.beam.x + ADVANCE, self.beam.y)?;
                if code != b' ' && self.intensity != 0 {
                    page.letter(self.beam, code)?;
                }
                self.beam = next;
            }
            13 => self.beam.x = MARGIN,
            10 => self.beam = in_field(x, y - LINE_FEED)?,
            8 => self.beam = in_field(x - ADVANCE, y)?,
            _ => {}
        }
        Ok(())
    }
}

/// The point of two coordinates, if it is in the field.
fn in_field(x: i32, y: i32) -> Result<Point, Kind> {
    let field = -32_768..=32_767;
    if field.contains(&x) && field.contains(&y) {
        Ok(Point::new(x, y))
    } else {
        Err(Kind::OffTheField)
    }
}
