//! The page: a square of bits, with dots and letters. Lines have a file of
//! their own.

use crate::font;
use crate::refusal::Refusal;

/// The smallest side of a page.
const LEAST_SIDE: u32 = 8;
/// The largest side of a page.
const LARGEST_SIDE: u32 = 2_048;
/// The distance of two neighbouring dots of a letter.
const DOT_STEP: i64 = 75;

/// A point: x goes to the right and y goes up.
#[derive(Clone, Copy, Debug, Default, PartialEq, Eq)]
pub struct Point {
    /// To the right.
    pub x: i32,
    /// Up.
    pub y: i32,
}

impl Point {
    /// The point of two coordinates.
    pub const fn new(x: i32, y: i32) -> Self {
        Self { x, y }
    }
}

/// Which points of a line are inked.
#[derive(Clone, Copy, Debug, Default, PartialEq, Eq)]
pub enum Mode {
    /// Every point.
    #[default]
    Solid,
    /// Eight of twelve.
    Dashed,
    /// One of four.
    Dotted,
}

/// The answer of a page whose stock of marks is used up.
#[derive(Clone, Copy, Debug, PartialEq, Eq)]
pub struct SheetFull;

/// A square of pixels, each inked or not. Rows take whole bytes, the top row
/// first; the leftmost pixel is the high bit of its row's first byte.
#[derive(Clone, Debug, PartialEq, Eq)]
pub struct Page {
    pub(crate) side: i64,
    pub(crate) stride: usize,
    pub(crate) rows: Vec<u8>,
    stock: Option<u32>,
    full_stock: Option<u32>,
}

impl Page {
    /// A clear page that never fills. The side is 8 to 2,048 pixels.
    pub fn new(side: u32) -> Result<Self, Refusal> {
        Self::with_stock(side, None)
    }

    /// A clear page that takes so many marks, or any number without a stock.
    pub fn with_stock(side: u32, stock: Option<u32>) -> Result<Self, Refusal> {
        if !(LEAST_SIDE..=LARGEST_SIDE).contains(&side) {
            return Err(Refusal::Side);
        }
        let stride = side.div_ceil(8) as usize;
        Ok(Self {
            side: i64::from(side),
            stride,
            rows: vec![0; side as usize * stride],
            stock,
            full_stock: stock,
        })
    }

    /// The number of pixels of a row, and of rows.
    pub fn side(&self) -> u32 {
        self.side as u32
    }

    /// How many marks the page still takes, if it ever fills.
    pub fn stock(&self) -> Option<u32> {
        self.stock
    }

    /// The bytes of all rows. Bits past the last pixel of a row are 0.
    pub fn rows(&self) -> &[u8] {
        &self.rows
    }

    /// The number of bytes of a row.
    pub fn stride(&self) -> usize {
        self.stride
    }

    /// Whether a pixel is inked. One off the page never is.
    pub fn inked(&self, column: i64, row: i64) -> bool {
        self.holds(column)
            && self.holds(row)
            && self.rows[row as usize * self.stride + column as usize / 8] & bit(column) != 0
    }

    /// Empties the page and fills its stock.
    pub fn clear(&mut self) {
        self.rows.fill(0);
        self.stock = self.full_stock;
    }

    /// Inks the pixel of a point.
    pub fn dot(&mut self, at: Point) -> Result<(), SheetFull> {
        self.take_mark()?;
        let (column, row) = self.pixel(at);
        self.ink(column, row);
        Ok(())
    }

    /// Inks the dots of a code's glyph. The point is that of the glyph's left
    /// column in row 6.
    pub fn letter(&mut self, at: Point, code: u8) -> Result<(), SheetFull> {
        self.take_mark()?;
        let mut columns = [(0, 0); 5];
        for (place, step) in columns.iter_mut().zip(0..) {
            let column = self.scale(i64::from(at.x) + DOT_STEP * step);
            if self.holds(column) {
                *place = (column as usize / 8, bit(column));
            }
        }
        for (&dots, up) in font::glyph(code).iter().zip((-1..=6).rev()) {
            let row = self.side - 1 - self.scale(i64::from(at.y) + DOT_STEP * up);
            if dots == 0 || !self.holds(row) {
                continue;
            }
            let row = &mut self.rows[row as usize * self.stride..][..self.stride];
            for (column, &(byte, mask)) in columns.iter().enumerate() {
                if dots & (16 >> column) != 0 {
                    row[byte] |= mask;
                }
            }
        }
        Ok(())
    }

    /// Takes one mark of the stock, if there is a stock.
    pub(crate) fn take_mark(&mut self) -> Result<(), SheetFull> {
        match &mut self.stock {
            None => Ok(()),
            Some(0) => Err(SheetFull),
            Some(left) => {
                *left -= 1;
                Ok(())
            }
        }
    }

    /// The column and the row of a point, on the page or not.
    pub(crate) fn pixel(&self, at: Point) -> (i64, i64) {
        let column = self.scale(i64::from(at.x));
        let row = self.side - 1 - self.scale(i64::from(at.y));
        (column, row)
    }

    /// Inks a pixel, if it is on the page.
    pub(crate) fn ink(&mut self, column: i64, row: i64) {
        if self.holds(column) && self.holds(row) {
            self.rows[row as usize * self.stride + column as usize / 8] |= bit(column);
        }
    }

    /// Whether a column or a row is on the page.
    pub(crate) fn holds(&self, part: i64) -> bool {
        (0..self.side).contains(&part)
    }

    /// From a coordinate to pixels, rounded down.
    fn scale(&self, v: i64) -> i64 {
        ((v + 16_384) * self.side) >> 15
    }
}

/// The bit of a column in its byte.
fn bit(column: i64) -> u8 {
    0x80 >> (column & 7)
}
