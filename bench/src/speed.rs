//! Bytes and marks a second through both readers, onto a bit sheet.

use crate::other;
use crate::proved;
use crate::random::Random;
use crate::statements::*;
use independent::Page;
use std::time::Instant;

/// How often each draw is timed, in turn with the other reader's; the best time of each counts.
const REPETITIONS: usize = 60;

/// A stream of one kind, with how many lines, dots, letters or strings it has.
struct Load {
    name: &'static str,
    stream: Vec<u8>,
    items: usize,
}

/// Pictures of some items each.
fn load(name: &'static str, pictures: usize, items: usize, mut put: impl FnMut(&mut Vec<u8>) -> usize) -> Load {
    let mut stream = Vec::new();
    let mut made = 0;
    for _ in 0..pictures {
        stream.push(ERASE);
        for _ in 0..items {
            made += put(&mut stream);
        }
        stream.push(ENDPIC);
    }
    Load { name, stream, items: made }
}

fn loads(side: u16) -> Vec<Load> {
    let mut r = Random::new(7);
    let unit = 32768 / i32::from(side);
    let mut all = Vec::new();
    all.push(load("short lines", 1, 12000, |out| {
        put_pair(out, DRAWA, r.between(-16384, -16384 + 12 * unit), r.between(-16384, -16384 + 12 * unit));
        1
    }));
    all.push(load("long lines", 1, 300, |out| {
        put_pair(out, DRAWA, r.between(-16384, 16383), r.between(-16384, 16383));
        1
    }));
    all.push(load("dots", 1, 12000, |out| {
        put_pair(out, DOTA, r.between(-16384, 16383), r.between(-16384, 16383));
        1
    }));
    all.push(load("texts", 1, 40, |out| {
        put_pair(out, MOVEA, -16384, r.between(-8000, 15000));
        let codes: Vec<u8> = (0..512).map(|_| r.between(33, 126) as u8).collect();
        put_string(out, TEXTO, &codes);
        512
    }));
    all.push(load("ESCDEV of 512", 1, 300, |out| {
        out.extend_from_slice(&[ESCDEV, 9]);
        put_count(out, 512);
        out.extend((0..512).map(|_| r.byte()));
        1
    }));
    let mut body = Vec::new();
    begin_definition(&mut body, b"BODY", SIMPLE);
    for k in 0..100 {
        put_pair(&mut body, DRAWR, if k % 2 == 0 { 9 * unit } else { -9 * unit }, (k - 50) % 7 * unit);
    }
    put_pair(&mut body, MOVEA, 0, 0);
    body.push(SUBEND);
    let mut calls = load("calls of a body", 1, 150, |out| {
        put_call(out, b"BODY");
        100
    });
    calls.stream.splice(0..0, body);
    all.push(calls);
    all
}

/// How long a draw takes, in seconds.
fn timed(draw: impl FnOnce() -> u8) -> (f64, u8) {
    let start = Instant::now();
    let fault = draw();
    (start.elapsed().as_secs_f64(), fault)
}

/// Times one load on one side, fed in pieces of one length (0: whole), and prints a row.
fn row(load: &Load, side: u16, piece: usize) -> bool {
    let mut page = Page::new(u32::from(side)).expect("a side of a page");
    let mut memory = vec![0x5A; page.rows().len()];
    let (mut ours, mut theirs) = (f64::MAX, f64::MAX);
    for _ in 0..REPETITIONS {
        let (time, fault) = timed(|| proved::draw_page(side, &mut memory, &load.stream, piece));
        ours = ours.min(time);
        let (time, other_fault) = timed(|| {
            page.clear();
            other::number(&other::draw_even(&mut page, &load.stream, piece))
        });
        theirs = theirs.min(time);
        if fault != 0 || other_fault != 0 || memory != page.rows() {
            println!("{} on a side of {side}: the pages or faults differ, {fault} and {other_fault}", load.name);
            return false;
        }
    }
    let (bytes, items) = (load.stream.len() as f64, load.items as f64);
    println!(
        "| {} | {side} | {} | {:.1} | {:.1} | {:.2} | {:.2} | {:.2} |",
        load.name,
        if piece == 0 { "whole" } else { "by bytes" },
        bytes / ours / 1e6,
        bytes / theirs / 1e6,
        items / ours / 1e6,
        items / theirs / 1e6,
        ours / theirs
    );
    true
}

/// Prints a table: millions of bytes and of items a second, proved and independent, and the ratio of the times.
pub fn speed() -> bool {
    println!("| stream | side | fed | proved MB/s | independent MB/s | proved M items/s | independent M items/s | time, proved to independent |");
    println!("|---|---:|---|---:|---:|---:|---:|---:|");
    for side in [512, 2048] {
        for load in &loads(side) {
            for piece in [0, 1] {
                if !row(load, side, piece) {
                    return false;
                }
            }
        }
    }
    true
}
