//! A plain Rust reader and rasteriser of the rules in docs/, for comparison; not an independent reading of them.

use crate::font::FONT;

/// The longest stream.
pub const LONGEST: usize = 16_777_216;

#[derive(Clone, Copy, PartialEq, Eq, Debug)]
pub struct Refusal {
    pub number: u8,
    pub place: usize,
    pub calls: usize,
    pub offset: usize,
}

#[derive(Clone, Copy, PartialEq, Eq, Debug)]
pub enum Life {
    Live,
    Closed,
    Refused(Refusal),
}

#[derive(Clone, Copy, PartialEq, Eq)]
enum Standing {
    Outside,
    Picture,
    Definition { in_picture: bool },
}

#[derive(Clone, Copy)]
enum Statement<'a> {
    Bare(u8),
    Pair(u8, i32, i32),
    Text(u8, &'a [u8]),
    Value(u8, u8),
    Heading(&'a [u8], u8),
    Call(&'a [u8], Option<(i32, i32)>),
}

enum Reading<'a> {
    More,
    Refused(u8),
    Whole(Statement<'a>),
}

/// Why reading an argument stops before its end.
enum Stop {
    More,
    Refused(u8),
}

struct Entry {
    name: Vec<u8>,
    header: u8,
    body: Vec<u8>,
}

/// The square page of bits.
pub struct Page {
    pub side: usize,
    pub rows: Vec<u8>,
}

impl Page {
    pub fn new(side: usize) -> Page {
        Page { side, rows: vec![0; side * side.div_ceil(8)] }
    }

    pub fn clear(&mut self) {
        self.rows.fill(0);
    }

    fn part(&self, v: i32) -> i32 {
        ((v + 16384) * self.side as i32).div_euclid(32768)
    }

    fn pixel(&self, x: i32, y: i32) -> (i32, i32) {
        (self.part(x), self.side as i32 - 1 - self.part(y))
    }

    fn ink(&mut self, (column, row): (i32, i32)) {
        let side = self.side as i32;
        if column >= 0 && column < side && row >= 0 && row < side {
            let width = self.side.div_ceil(8);
            self.rows[row as usize * width + column as usize / 8] |= 0x80 >> (column % 8);
        }
    }

    pub fn inked(&self, column: usize, row: usize) -> bool {
        let width = self.side.div_ceil(8);
        self.rows[row * width + column / 8] & (0x80 >> (column % 8)) != 0
    }

    fn dot(&mut self, x: i32, y: i32) {
        let z = self.pixel(x, y);
        self.ink(z);
    }

    fn line(&mut self, from: (i32, i32), to: (i32, i32), mode: u8) {
        let (a, b) = self.pixel(from.0, from.1);
        let (c, d) = self.pixel(to.0, to.1);
        let n = (c - a).abs().max((d - b).abs());
        if n == 0 {
            self.ink((a, b));
            return;
        }
        let round = |m: i32| (2 * m + n).div_euclid(2 * n);
        for k in 0..=n {
            let picked = match mode {
                1 => k % 12 < 8,
                2 => k % 4 == 0,
                _ => true,
            };
            if picked {
                self.ink((a + round((c - a) * k), b + round((d - b) * k)));
            }
        }
    }

    fn letter(&mut self, x: i32, y: i32, code: u8) {
        let glyph = &FONT[(code as usize - 32) * 8..][..8];
        for (r, row) in glyph.iter().enumerate() {
            for c in 0..5 {
                if row & (16 >> c) != 0 {
                    self.dot(x + 75 * c, y + 75 * (6 - r as i32));
                }
            }
        }
    }
}

fn may_come(standing: Standing, code: u8) -> bool {
    match standing {
        Standing::Outside => matches!(code, 1 | 15),
        Standing::Picture => !matches!(code, 1 | 16),
        Standing::Definition { .. } => !matches!(code, 1 | 10 | 15),
    }
}

fn string(bytes: &[u8], limit: usize) -> Result<(&[u8], &[u8]), Stop> {
    let (count, rest) = match bytes {
        [n, rest @ ..] if *n < 128 => (*n as usize, rest),
        [h, l, rest @ ..] => {
            let n = (*h as usize - 128) * 256 + *l as usize;
            if n < 128 {
                return Err(Stop::Refused(3));
            }
            (n, rest)
        }
        _ => return Err(Stop::More),
    };
    if count > limit {
        return Err(Stop::Refused(4));
    }
    if rest.len() < count {
        return Err(Stop::More);
    }
    Ok(rest.split_at(count))
}

fn coordinate(h: u8, l: u8) -> i32 {
    i16::from_be_bytes([h, l]) as i32
}

fn on_screen(v: i32) -> bool {
    (-16384..=16383).contains(&v)
}

fn name_codes(name: &[u8]) -> bool {
    name.iter().all(|c| c.is_ascii_uppercase() || c.is_ascii_digit())
}

type AtPoint = Option<(i32, i32)>;

/// The AS name and the AT point of a tail, or None where it does not fit.
fn tail(bytes: &[u8]) -> Option<(&[u8], AtPoint)> {
    let [code, rest @ ..] = bytes else {
        return Some((&[], None));
    };
    if code & 0x3F != 0 {
        return None;
    }
    let (as_name, rest) = if code & 0x80 != 0 {
        let [n, rest @ ..] = rest else { return None };
        if *n > 8 || *n as usize > rest.len() {
            return None;
        }
        rest.split_at(*n as usize)
    } else {
        (&rest[0..0], rest)
    };
    match (code & 0x40 != 0, rest) {
        (true, [a, b, c, d]) => Some((as_name, Some((coordinate(*a, *b), coordinate(*c, *d))))),
        (false, []) => Some((as_name, None)),
        _ => None,
    }
}

fn heading(bytes: &[u8]) -> Result<Statement<'_>, Stop> {
    let (name, rest) = string(bytes, 8)?;
    let [one, rest @ ..] = rest else { return Err(Stop::More) };
    if *one != 1 {
        return Err(Stop::Refused(7));
    }
    let [header, ..] = rest else { return Err(Stop::More) };
    if !matches!(header, 0x80 | 0x40 | 0xC0) {
        return Err(Stop::Refused(7));
    }
    if name.is_empty() || !name_codes(name) {
        return Err(Stop::Refused(5));
    }
    Ok(Statement::Heading(name, *header))
}

fn call(bytes: &[u8]) -> Result<Statement<'_>, Stop> {
    let (name, rest) = string(bytes, 8)?;
    let [t, rest @ ..] = rest else { return Err(Stop::More) };
    if *t > 14 {
        return Err(Stop::Refused(7));
    }
    if rest.len() < *t as usize {
        return Err(Stop::More);
    }
    let Some((as_name, at)) = tail(&rest[..*t as usize]) else {
        return Err(Stop::Refused(7));
    };
    if at.is_some_and(|(x, y)| !on_screen(x) || !on_screen(y)) {
        return Err(Stop::Refused(6));
    }
    if name.is_empty() || !name_codes(name) || !name_codes(as_name) {
        return Err(Stop::Refused(5));
    }
    Ok(Statement::Call(name, at))
}

fn arguments(code: u8, rest: &[u8]) -> Result<Statement<'_>, Stop> {
    match code {
        2..=7 => {
            let [a, b, c, d, ..] = rest else { return Err(Stop::More) };
            let (x, y) = (coordinate(*a, *b), coordinate(*c, *d));
            let lawful = |v| if code % 2 == 0 { on_screen(v) } else { v != -32768 };
            if !lawful(x) || !lawful(y) {
                return Err(Stop::Refused(6));
            }
            Ok(Statement::Pair(code, x, y))
        }
        8 | 9 | 14 => {
            let (text, _) = string(rest, 512)?;
            if text.iter().any(|c| *c > 127) {
                return Err(Stop::Refused(5));
            }
            Ok(Statement::Text(code, text))
        }
        11 => {
            let [_, rest @ ..] = rest else { return Err(Stop::More) };
            string(rest, 512)?;
            Ok(Statement::Bare(code))
        }
        12 | 13 => {
            let [value, ..] = rest else { return Err(Stop::More) };
            Ok(Statement::Value(code, *value))
        }
        15 => heading(rest),
        17 => call(rest),
        _ => Ok(Statement::Bare(code)),
    }
}

fn read(standing: Standing, bytes: &[u8]) -> Reading<'_> {
    let [code, rest @ ..] = bytes else { return Reading::More };
    if *code > 20 {
        return Reading::Refused(1);
    }
    if !may_come(standing, *code) {
        return Reading::Refused(2);
    }
    match arguments(*code, rest) {
        Ok(statement) => Reading::Whole(statement),
        Err(Stop::More) => Reading::More,
        Err(Stop::Refused(number)) => Reading::Refused(number),
    }
}

/// A fault of performing, with how many calls are open and the offset in the innermost body.
type Fault = (u8, usize, usize);

struct Pen {
    beam: (i32, i32),
    mode: u8,
    intensity: u8,
    marks: Vec<(i32, i32)>,
    count: usize,
}

impl Pen {
    fn go(&mut self, to: (i32, i32)) -> Result<(), u8> {
        let field = -32768..=32767;
        if !field.contains(&to.0) || !field.contains(&to.1) {
            return Err(9);
        }
        self.beam = to;
        Ok(())
    }

    fn travel(&mut self, page: &mut Page, code: u8, x: i32, y: i32) -> Result<(), u8> {
        let from = self.beam;
        let to = if code % 2 == 0 { (x, y) } else { (from.0 + x, from.1 + y) };
        self.go(to)?;
        if self.intensity != 0 {
            match code {
                4 | 5 => page.line(from, to, self.mode),
                6 | 7 => page.dot(to.0, to.1),
                _ => {}
            }
        }
        Ok(())
    }

    fn text(&mut self, page: &mut Page, text: &[u8], wrap: bool) -> Result<(), u8> {
        for code in text {
            match *code {
                32..=126 => {
                    if wrap && self.beam.0 + 450 > 16384 {
                        self.go((-16384, self.beam.1 - 600))?;
                    }
                    let (x, y) = self.beam;
                    self.go((x + 450, y))?;
                    if *code != 32 && self.intensity != 0 {
                        page.letter(x, y, *code);
                    }
                }
                13 => self.beam.0 = -16384,
                10 => self.go((self.beam.0, self.beam.1 - 600))?,
                8 => self.go((self.beam.0 - 450, self.beam.1))?,
                _ => {}
            }
        }
        Ok(())
    }

    fn recall(&mut self, page: &mut Page, draw: bool) {
        let to = self.marks.pop().unwrap_or((0, 0));
        if draw && self.intensity != 0 {
            page.line(self.beam, to, self.mode);
        }
        self.beam = to;
    }

    fn plain(&mut self, page: &mut Page, statement: Statement<'_>) -> Result<(), u8> {
        match statement {
            Statement::Pair(code, x, y) => self.travel(page, code, x, y),
            Statement::Text(9, text) => {
                let saved = self.beam;
                let answer = self.text(page, text, false);
                self.beam = saved;
                answer
            }
            Statement::Text(code, text) => self.text(page, text, code == 14),
            Statement::Value(12, value) => {
                self.mode = if value == 1 || value == 2 { value } else { 0 };
                Ok(())
            }
            Statement::Value(_, value) => {
                self.intensity = value;
                Ok(())
            }
            Statement::Bare(18) if self.marks.len() == 64 => Err(10),
            Statement::Bare(18) => {
                self.marks.push(self.beam);
                Ok(())
            }
            Statement::Bare(code @ (19 | 20)) => {
                self.recall(page, code == 20);
                Ok(())
            }
            _ => Ok(()),
        }
    }
}

fn perform(
    table: &[Entry],
    pen: &mut Pen,
    page: &mut Page,
    open: &mut Vec<usize>,
    offset: usize,
    statement: Statement<'_>,
) -> Result<(), Fault> {
    let calls = open.len();
    let fail = |number| (number, calls, offset);
    if pen.count == 65536 {
        return Err(fail(14));
    }
    pen.count += 1;
    let Statement::Call(name, at) = statement else {
        return pen.plain(page, statement).map_err(fail);
    };
    if let Some(point) = at {
        pen.beam = point;
    }
    let Some(found) = table.iter().position(|e| e.name == name) else {
        return Ok(());
    };
    if table[found].header & 0x80 == 0 {
        return Err(fail(11));
    }
    if open.contains(&found) {
        return Err(fail(12));
    }
    if open.len() == 8 {
        return Err(fail(13));
    }
    open.push(found);
    let body = &table[found].body;
    let (mut start, mut end) = (0, 0);
    while end < body.len() {
        end += 1;
        if let Reading::Whole(inner) = read(Standing::Definition { in_picture: true }, &body[start..end]) {
            perform(table, pen, page, open, start, inner)?;
            start = end;
        }
    }
    open.pop();
    Ok(())
}

/// A reader of a stream onto a page.
pub struct Reader {
    held: Vec<u8>,
    pub read: usize,
    pub pictures: usize,
    pub life: Life,
    standing: Standing,
    pen: Pen,
    table: Vec<Entry>,
    recording: Entry,
}

impl Default for Reader {
    fn default() -> Reader {
        Reader::new()
    }
}

impl Reader {
    pub fn new() -> Reader {
        Reader {
            held: Vec::with_capacity(516),
            read: 0,
            pictures: 0,
            life: Life::Live,
            standing: Standing::Outside,
            pen: Pen { beam: (0, 0), mode: 0, intensity: 128, marks: Vec::with_capacity(64), count: 0 },
            table: Vec::with_capacity(32),
            recording: Entry { name: Vec::new(), header: 0, body: Vec::new() },
        }
    }

    pub fn statements(&self) -> usize {
        self.pen.count
    }

    pub fn beam(&self) -> (i32, i32) {
        self.pen.beam
    }

    fn refuse(&mut self, number: u8, place: usize, calls: usize, offset: usize) {
        self.life = Life::Refused(Refusal { number, place, calls, offset });
    }

    fn record(&mut self, held: &[u8]) -> Result<(), Fault> {
        if self.recording.body.len() + held.len() > 1024 {
            return Err((8, 0, 0));
        }
        self.recording.body.extend_from_slice(held);
        Ok(())
    }

    fn begin(&mut self, name: &[u8], header: u8) -> Result<(), Fault> {
        if self.table.len() == 32 && !self.table.iter().any(|e| e.name == name) {
            return Err((8, 0, 0));
        }
        self.recording = Entry { name: name.to_vec(), header, body: Vec::new() };
        self.standing = Standing::Definition { in_picture: self.standing == Standing::Picture };
        Ok(())
    }

    fn store(&mut self, in_picture: bool) {
        let entry = std::mem::replace(
            &mut self.recording,
            Entry { name: Vec::new(), header: 0, body: Vec::new() },
        );
        match self.table.iter_mut().find(|e| e.name == entry.name) {
            Some(old) => *old = entry,
            None => self.table.push(entry),
        }
        self.standing = if in_picture { Standing::Picture } else { Standing::Outside };
    }

    fn take_statement(&mut self, page: &mut Page, held: &[u8], statement: Statement<'_>) -> Result<(), Fault> {
        match (self.standing, statement) {
            (_, Statement::Bare(1)) => {
                page.clear();
                self.pen.beam = (0, 0);
                self.pen.mode = 0;
                self.pen.intensity = 128;
                self.pen.marks.clear();
                self.pen.count = 0;
                self.standing = Standing::Picture;
                Ok(())
            }
            (_, Statement::Bare(10)) => {
                self.pictures += 1;
                self.standing = Standing::Outside;
                Ok(())
            }
            (_, Statement::Heading(name, header)) => self.begin(name, header),
            (Standing::Definition { in_picture }, Statement::Bare(16)) => {
                self.store(in_picture);
                Ok(())
            }
            (Standing::Definition { .. }, _) => self.record(held),
            _ => perform(&self.table, &mut self.pen, page, &mut Vec::new(), 0, statement),
        }
    }

    fn take(&mut self, page: &mut Page, byte: u8) {
        let place = self.read - self.held.len();
        if self.read == LONGEST {
            self.refuse(15, place, 0, 0);
            return;
        }
        self.read += 1;
        self.held.push(byte);
        let held = std::mem::take(&mut self.held);
        match read(self.standing, &held) {
            Reading::More => {
                self.held = held;
                return;
            }
            Reading::Refused(number) => self.refuse(number, place, 0, 0),
            Reading::Whole(statement) => {
                if let Err((number, calls, offset)) = self.take_statement(page, &held, statement) {
                    self.refuse(number, place, calls, offset);
                }
            }
        }
        self.held = held;
        self.held.clear();
    }

    pub fn feed(&mut self, page: &mut Page, piece: &[u8]) {
        for byte in piece {
            if self.life != Life::Live {
                return;
            }
            self.take(page, *byte);
        }
    }

    pub fn finish(&mut self) {
        if self.life == Life::Live {
            if self.standing == Standing::Outside && self.held.is_empty() {
                self.life = Life::Closed;
            } else {
                let read = self.read;
                self.refuse(16, read, 0, 0);
            }
        }
    }
}

/// What the queue program prints for a job.
pub fn job(job: &[u8]) -> Vec<u8> {
    if job.len() < 2 || job.len() > 65538 {
        return b"job 22\n".to_vec();
    }
    let side = job[0] as usize * 256 + job[1] as usize;
    if !(8..=512).contains(&side) {
        return b"job 18\n".to_vec();
    }
    let mut page = Page::new(side);
    let mut reader = Reader::new();
    reader.feed(&mut page, &job[2..]);
    reader.finish();
    printed(&page, &reader)
}

/// The rows of the page and the report line.
pub fn printed(page: &Page, reader: &Reader) -> Vec<u8> {
    let mut out = Vec::new();
    for row in 0..page.side {
        out.extend((0..page.side).map(|column| if page.inked(column, row) { b'#' } else { b'.' }));
        out.push(b'\n');
    }
    let none = Refusal { number: 0, place: 0, calls: 0, offset: 0 };
    let r = if let Life::Refused(r) = reader.life { r } else { none };
    let (x, y) = reader.beam();
    let line = format!(
        "read {} pictures {} statements {} beam {x} {y} fault {} at {} in {} {}\n",
        reader.read,
        reader.pictures,
        reader.statements(),
        r.number,
        r.place,
        r.calls,
        r.offset
    );
    out.extend_from_slice(line.as_bytes());
    out
}
