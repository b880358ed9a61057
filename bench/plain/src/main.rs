//! Compares the proved queue program with a plain Rust reader of the same rules.
//!
//!     compare storm PROGRAM COUNT SEED   random and damaged jobs; stops at the first that differs
//!     compare job                        prints what the plain reader says of a job on standard input

mod font;
mod jobs;
mod reference;

use std::io::{Read, Write};
use std::process::{Command, ExitCode, Stdio};

/// What the program prints for a job.
fn ask(program: &str, job: &[u8]) -> std::io::Result<Vec<u8>> {
    let mut child = Command::new(program).stdin(Stdio::piped()).stdout(Stdio::piped()).spawn()?;
    child.stdin.take().expect("a pipe").write_all(job)?;
    Ok(child.wait_with_output()?.stdout)
}

/// Feeds a job's stream to the plain reader in pieces of random lengths.
fn cut(job: &[u8], random: &mut jobs::Random) -> Option<Vec<u8>> {
    let side = usize::from(*job.first()?) * 256 + usize::from(*job.get(1)?);
    if !(8..=512).contains(&side) || job.len() > 65538 {
        return None;
    }
    let mut page = reference::Page::new(side);
    let mut reader = reference::Reader::new();
    let mut rest = &job[2..];
    while !rest.is_empty() {
        let (piece, after) = rest.split_at(1 + random.below(rest.len()));
        reader.feed(&mut page, piece);
        rest = after;
    }
    reader.finish();
    Some(reference::printed(&page, &reader))
}

fn storm(program: &str, count: usize, seed: u64) -> std::io::Result<bool> {
    let mut random = jobs::Random::new(seed);
    let mut faults = [0usize; 23];
    for tried in 0..count {
        let job = jobs::job(&mut random);
        let expected = reference::job(&job);
        let got = ask(program, &job)?;
        let in_pieces = cut(&job, &mut random);
        if got != expected || in_pieces.is_some_and(|p| p != expected) {
            println!("job {tried} of seed {seed} differs: {}", hex(&job));
            return Ok(false);
        }
        faults[number(&expected)] += 1;
    }
    println!("{count} jobs of seed {seed} agree; by number: {faults:?}");
    Ok(true)
}

/// The fault that an answer tells.
fn number(answer: &[u8]) -> usize {
    let text = String::from_utf8_lossy(answer);
    let words: Vec<&str> = text.split_whitespace().collect();
    let at = words.iter().position(|w| *w == "fault" || *w == "job");
    at.and_then(|i| words.get(i + 1)).and_then(|w| w.parse().ok()).unwrap_or(0)
}

fn hex(bytes: &[u8]) -> String {
    bytes.iter().map(|b| format!("{b:02X} ")).collect()
}

fn main() -> ExitCode {
    let words: Vec<String> = std::env::args().collect();
    let words: Vec<&str> = words.iter().map(String::as_str).collect();
    match words[1..] {
        ["storm", program, count, seed] => {
            let (count, seed) = (count.parse().unwrap_or(1000), seed.parse().unwrap_or(1));
            match storm(program, count, seed) {
                Ok(true) => ExitCode::SUCCESS,
                _ => ExitCode::FAILURE,
            }
        }
        ["job"] => {
            let mut job = Vec::new();
            std::io::stdin().read_to_end(&mut job).expect("a job on standard input");
            std::io::stdout().write_all(&reference::job(&job)).expect("standard output");
            ExitCode::SUCCESS
        }
        _ => {
            println!("compare storm PROGRAM COUNT SEED, or compare job");
            ExitCode::FAILURE
        }
    }
}
