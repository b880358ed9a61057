//! Random and damaged streams, drawn by both readers, whole and cut.

use crate::jobs;
use crate::other;
use crate::proved;
use crate::random::Random;
use crate::special;
use independent::Page;

/// What fills a buffer before a call, so that every byte that a call alters shows.
const FILLER: u8 = 0x5A;

/// How often each number was seen, and how many calls were compared.
struct Tally {
    numbers: [usize; 23],
    calls: usize,
}

/// Two answers that should be the same.
struct Difference {
    what: String,
    proved: Vec<u8>,
    other: Vec<u8>,
}

/// What the proved reader prints of a job into a buffer with so many bytes to spare, and whether the rest stayed.
fn print(job: &[u8], lengths: &[u8], room: usize) -> Vec<u8> {
    let mut out = vec![FILLER; room];
    let (mut told, kept) = match proved::draw_job(job, lengths, &mut out) {
        Ok(n) => (out[..n.min(room)].to_vec(), n),
        Err(number) => (format!("job {number}\n").into_bytes(), 0),
    };
    if out[kept.min(room)..].iter().any(|b| *b != FILLER) {
        told.extend_from_slice(b"altered bytes that it should not\n");
    }
    told
}

fn same(what: &str, proved: Vec<u8>, other: &[u8], tally: &mut Tally) -> Result<(), Difference> {
    tally.calls += 1;
    if proved == other {
        return Ok(());
    }
    Err(Difference { what: what.to_string(), proved, other: other.to_vec() })
}

/// The number that an answer tells.
fn number(answer: &[u8]) -> usize {
    let tail = String::from_utf8_lossy(&answer[answer.len().saturating_sub(200)..]).into_owned();
    let words: Vec<&str> = tail.split_whitespace().collect();
    let at = words.iter().rposition(|w| *w == "fault" || *w == "job");
    at.and_then(|i| words.get(i + 1)).and_then(|w| w.parse().ok()).unwrap_or(0)
}

/// A job: whole, byte by byte and cut at random, by both; now and then with too little room.
fn try_job(job: &[u8], r: &mut Random, tally: &mut Tally) -> Result<(), Difference> {
    let expected = independent::draw_job(job);
    tally.numbers[number(&expected)] += 1;
    let room = expected.len() + r.below(40);
    same("whole", print(job, &[], room), &expected, tally)?;
    same("byte by byte", print(job, &vec![1; job.len()], room), &expected, tally)?;
    for _ in 0..2 {
        let lengths = jobs::cutting(r, job.len());
        same(&format!("cut {lengths:?}"), print(job, &lengths, room), &expected, tally)?;
    }
    let lengths = jobs::cutting(r, job.len());
    same(&format!("the independent one cut {lengths:?}"), other::print_cut(job, &lengths), &expected, tally)?;
    if r.one_in(8) && !expected.starts_with(b"job ") {
        let short = r.below(expected.len());
        tally.numbers[21] += 1;
        same("too little room", print(job, &[], short), b"job 21\n", tally)?;
    }
    Ok(())
}

/// A page and a fault as bytes.
fn page_answer(memory: &[u8], number: u8) -> Vec<u8> {
    let mut all = memory.to_vec();
    all.push(number);
    all
}

/// A stream on a page of a side, in pieces of some lengths.
fn try_page(stream: &[u8], side: u16, pieces: &[usize], tally: &mut Tally) -> Result<u8, Difference> {
    let mut page = Page::new(u32::from(side)).expect("a side of a page");
    let fault = other::number(&other::draw_even(&mut page, stream, 0));
    let expected = page_answer(page.rows(), fault);
    for piece in pieces {
        let mut memory = vec![FILLER; page.rows().len()];
        let number = proved::draw_page(side, &mut memory, stream, *piece);
        same(&format!("page of {side} in pieces of {piece}"), page_answer(&memory, number), &expected, tally)?;
    }
    Ok(fault)
}

/// A wrong asking for a page: its number, and no byte altered.
fn try_unfit(stream: &[u8], r: &mut Random, tally: &mut Tally) -> Result<(), Difference> {
    let (side, len, number) = match r.below(3) {
        0 => (r.pick(&[0u16, 7, 2049, 65535]), r.below(64), 18u8),
        1 => (8, 9 + r.below(9), 19),
        _ => (9, r.below(18), 19),
    };
    let mut memory = vec![FILLER; len];
    let told = proved::draw_page(side, &mut memory, stream, 0);
    tally.numbers[usize::from(number)] += 1;
    same("unfit", page_answer(&memory, told), &page_answer(&vec![FILLER; len], number), tally)
}

fn try_one(job: &[u8], r: &mut Random, tally: &mut Tally) -> Result<(), Difference> {
    try_job(job, r, tally)?;
    if r.one_in(4) && job.len() > 2 {
        let side = if r.one_in(24) { 513 + r.below(1536) } else { 8 + r.below(80) };
        try_page(&job[2..], side as u16, &[0, 1, 1 + r.below(600)], tally)?;
        try_unfit(&job[2..], r, tally)?;
    }
    Ok(())
}

fn shown(answer: &[u8]) -> String {
    if answer.len() <= 6000 && answer.is_ascii() {
        return String::from_utf8_lossy(answer).into_owned();
    }
    let tail = &answer[answer.len().saturating_sub(160)..];
    format!("{} bytes, ending {}", answer.len(), String::from_utf8_lossy(tail))
}

fn tell(bytes: &[u8], d: &Difference) {
    let hex: String = bytes.iter().take(70_000).map(|b| format!("{b:02X} ")).collect();
    let at = d.proved.iter().zip(&d.other).position(|(a, b)| a != b);
    println!("differs: {}, first at {at:?}\n{hex}\nproved:\n{}\nindependent:\n{}", d.what, shown(&d.proved), shown(&d.other));
}

/// Streams about as long as a stream may be, on a page of 8 pixels.
fn longest_streams(r: &mut Random, tally: &mut Tally) -> bool {
    for _ in 0..4 {
        let stream = special::longest_or_longer(r);
        match try_page(&stream, 8, &[0, 1, 65521], tally) {
            Ok(fault) => tally.numbers[usize::from(fault)] += 1,
            Err(d) => {
                tell(&stream[stream.len() - 64..], &d);
                return false;
            }
        }
    }
    true
}

/// Draws so many jobs of a seed by both readers, and stops at the first difference.
pub fn storm(count: usize, seed: u64) -> bool {
    let mut r = Random::new(seed);
    let mut tally = Tally { numbers: [0; 23], calls: 0 };
    for tried in 0..count {
        let job = jobs::job(&mut r);
        if let Err(d) = try_one(&job, &mut r, &mut tally) {
            println!("job {tried} of seed {seed}");
            tell(&job, &d);
            return false;
        }
    }
    if !longest_streams(&mut r, &mut tally) {
        return false;
    }
    println!("{count} jobs and 4 longest streams of seed {seed} agree, in {} comparisons; by number:", tally.calls);
    let seen: Vec<String> = tally.numbers.iter().enumerate().filter(|(_, k)| **k > 0).map(|(n, k)| format!("{n}: {k}")).collect();
    println!("{}", seen.join(", "));
    true
}
