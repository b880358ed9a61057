//! Lines on a page.
//!
//! Point `k` of a line from pixel `(a, b)` is `(a + R(dx * k), b + R(dy * k))`
//! with `R(m) = floor((2m + n) / 2n)` and `n` the larger of `|dx|` and `|dy|`.
//! The points on the page are one run of `k`, which is found first; then the
//! run is walked, with a remainder in place of the division.

use crate::page::{Mode, Page, Point, SheetFull};

impl Page {
    /// Inks the line between the pixels of two points.
    pub fn line(&mut self, from: Point, to: Point, mode: Mode) -> Result<(), SheetFull> {
        self.take_mark()?;
        let (a, b) = self.pixel(from);
        let (c, d) = self.pixel(to);
        let (dx, dy) = (c - a, d - b);
        let n = dx.abs().max(dy.abs());
        if n == 0 {
            self.ink(a, b);
            return Ok(());
        }
        let mut run = (0, n);
        if ![a, b, c, d].into_iter().all(|part| self.holds(part)) {
            run = both(
                run,
                both(on_page(a, dx, n, self.side), on_page(b, dy, n, self.side)),
            );
            if run.0 > run.1 {
                return Ok(());
            }
        }
        if dy == 0 && mode == Mode::Solid {
            let ends = (a + dx.signum() * run.0, a + dx.signum() * run.1);
            self.fill(
                b as usize,
                ends.0.min(ends.1) as usize,
                ends.0.max(ends.1) as usize,
            );
            return Ok(());
        }
        let walk = Walk::new((a, b), (dx, dy), n, run, self.stride);
        match mode {
            Mode::Solid => walk.ink(&mut self.rows, |_| true),
            Mode::Dashed => walk.ink(&mut self.rows, |k| k % 12 < 8),
            Mode::Dotted => walk.ink(&mut self.rows, |k| k % 4 == 0),
        }
        Ok(())
    }

    /// Inks a part of a row, both ends included.
    fn fill(&mut self, row: usize, first: usize, last: usize) {
        let row = &mut self.rows[row * self.stride..][..self.stride];
        let head = 0xFF_u8 >> (first % 8);
        let tail = 0xFF_u8 << (7 - last % 8);
        if first / 8 == last / 8 {
            row[first / 8] |= head & tail;
        } else {
            row[first / 8] |= head;
            row[first / 8 + 1..last / 8].fill(0xFF);
            row[last / 8] |= tail;
        }
    }
}

/// The run of numbers that lie in two runs.
fn both(one: (i64, i64), other: (i64, i64)) -> (i64, i64) {
    (one.0.max(other.0), one.1.min(other.1))
}

/// The `k` for which `start + R(delta * k)` is from 0 to `side - 1`, as a run
/// that is empty if its first is above its last.
fn on_page(start: i64, delta: i64, n: i64, side: i64) -> (i64, i64) {
    // The two bounds of 2 * delta * k, both lawful themselves.
    let low = -n * (2 * start + 1);
    let high = n * (2 * (side - start) - 1) - 1;
    let by = 2 * delta.abs();
    match delta.signum() {
        0 if low <= 0 && 0 <= high => (0, n),
        0 => (1, 0),
        1 => (-(-low).div_euclid(by), high.div_euclid(by)),
        _ => (-high.div_euclid(by), (-low).div_euclid(by)),
    }
}

/// `floor((2m + n) / 2n)`.
fn rounded(m: i64, n: i64) -> i64 {
    (2 * m + n).div_euclid(2 * n)
}

/// A run of a line's points that lie on the page.
struct Walk {
    /// The first and the last point's number.
    run: (i64, i64),
    /// The first point's column and the offset of its row.
    column: isize,
    row: isize,
    /// What each step adds to column and row offset.
    step: (isize, isize),
    /// What a step adds besides, when the remainder runs over.
    side_step: (isize, isize),
    /// The remainder, what each step adds to it, and where it runs over.
    remainder: i64,
    add: i64,
    over: i64,
}

impl Walk {
    fn new(start: (i64, i64), delta: (i64, i64), n: i64, run: (i64, i64), stride: usize) -> Self {
        let (dx, dy) = delta;
        let sideways = (dx.signum() as isize, 0);
        let upright = (0, dy.signum() as isize * stride as isize);
        let (step, side_step, minor) = if dx.abs() == n {
            (sideways, upright, dy)
        } else {
            (upright, sideways, dx)
        };
        let over = 2 * n;
        let floor_rest = (2 * minor * run.0 + n).rem_euclid(over);
        Self {
            run,
            column: (start.0 + rounded(dx * run.0, n)) as isize,
            row: (start.1 + rounded(dy * run.0, n)) as isize * stride as isize,
            step,
            side_step,
            // Going down, what runs over is what is left below the remainder.
            remainder: if minor < 0 {
                over - 1 - floor_rest
            } else {
                floor_rest
            },
            add: 2 * minor.abs(),
            over,
        }
    }

    /// Inks the points whose numbers are wanted.
    fn ink(mut self, rows: &mut [u8], wanted: impl Fn(i64) -> bool) {
        for k in self.run.0..=self.run.1 {
            if wanted(k) {
                rows[(self.row + (self.column >> 3)) as usize] |= 0x80 >> (self.column & 7);
            }
            self.column += self.step.0;
            self.row += self.step.1;
            self.remainder += self.add;
            if self.remainder >= self.over {
                self.remainder -= self.over;
                self.column += self.side_step.0;
                self.row += self.side_step.1;
            }
        }
    }
}
