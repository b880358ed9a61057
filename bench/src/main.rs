//! Compares the proved reader with an independent one, written from the documents alone.
//!
//!     compare storm COUNT SEED   random and damaged jobs, whole and cut; stops at the first difference
//!     compare speed              a table of bytes and marks a second

mod jobs;
mod other;
mod proved;
mod random;
mod special;
mod speed;
mod statements;
mod storm;

use std::process::ExitCode;

fn main() -> ExitCode {
    let words: Vec<String> = std::env::args().skip(1).collect();
    let words: Vec<&str> = words.iter().map(String::as_str).collect();
    let fine = match words[..] {
        ["storm", count, seed] => match (count.parse(), seed.parse()) {
            (Ok(count), Ok(seed)) => storm::storm(count, seed),
            _ => false,
        },
        ["speed"] => speed::speed(),
        _ => {
            println!("compare storm COUNT SEED, or compare speed");
            false
        }
    };
    if fine { ExitCode::SUCCESS } else { ExitCode::FAILURE }
}
