//! Reads and builds the same blocks by the port and by the original, in one run, and prints tables for docs/BENCHMARKS.md.
//!
//!     bench [PART]                  times: nanoseconds a row, best of several rounds, and ratios
//!     bench instructions [PART]     instructions a row by the script `count`, whatever else the machine does
//!
//! A part is reading, building, copies, runs, texts, sheets, compare, salvage or row; without one, all are run.
use std::hint::black_box;
use std::process::Command;
use std::time::Instant;

use idzulgar::Value;

mod building;
mod by_hand;
mod compare;
mod copies;
mod reading;
mod row;
mod runs;
mod salvage;
mod sheets;
mod texts;

/// The five cases of the design.
const NAMES: [&str; 5] = ["i64 plain", "i32 nullable", "i32 run-length", "blob dictionary", "char 16 plain"];

/// The rows that instructions are counted of.
const COUNT_ROWS: usize = 20_000;

fn text(number: u64, len: usize) -> Value {
    let mut bytes = number.to_string().into_bytes();
    bytes.resize(len, b'x');
    Value::Bytes(bytes)
}

/// The best time of some rounds, in nanoseconds.
fn best(rounds: usize, mut run: impl FnMut()) -> f64 {
    let mut least = f64::MAX;
    for _ in 0..rounds {
        let start = Instant::now();
        run();
        least = least.min(start.elapsed().as_nanos() as f64);
    }
    least
}

/// What is counted: no more of the program.
#[no_mangle]
#[inline(never)]
fn counted_part(run: &mut dyn FnMut()) {
    run();
}

/// Runs something twice, and has the second time counted.
fn count_second(mut run: impl FnMut()) {
    run();
    counted_part(black_box(&mut run));
}

/// What is counted of this program with some arguments.
fn counted(part: &str, words: &[&str]) -> f64 {
    counted_in("counted_part", part, words)
}

/// What is counted of it inside a function: the script knows how on this machine.
fn counted_in(function: &str, part: &str, words: &[&str]) -> f64 {
    let me = std::env::current_exe().expect("this program has a path");
    let output = Command::new(concat!(env!("CARGO_MANIFEST_DIR"), "/count"))
        .arg(function)
        .arg(me)
        .args(["count", part])
        .args(words)
        .output()
        .expect("the script runs");
    let said = String::from_utf8_lossy(&output.stdout);
    said.trim().parse().unwrap_or_else(|_| panic!("nothing was counted: {}", String::from_utf8_lossy(&output.stderr)))
}

fn main() {
    let words: Vec<String> = std::env::args().skip(1).collect();
    let words: Vec<&str> = words.iter().map(String::as_str).collect();
    match words[..] {
        [] => {
            reading::times();
            building::times();
            copies::times();
            runs::times();
            texts::times();
            sheets::times();
            compare::times();
            salvage::times();
            row::times();
        }
        ["reading"] => reading::times(),
        ["building"] => building::times(),
        ["copies"] => copies::times(),
        ["runs"] => runs::times(),
        ["texts"] => texts::times(),
        ["sheets"] => sheets::times(),
        ["compare"] => compare::times(),
        ["salvage"] => salvage::times(),
        ["row"] => row::times(),
        ["instructions"] => {
            reading::instructions();
            building::instructions();
            copies::instructions();
            runs::instructions();
            texts::instructions();
            sheets::instructions();
            compare::instructions();
            salvage::instructions();
            row::instructions();
        }
        ["instructions", "reading"] => reading::instructions(),
        ["instructions", "building"] => building::instructions(),
        ["instructions", "copies"] => copies::instructions(),
        ["instructions", "runs"] => runs::instructions(),
        ["instructions", "texts"] => texts::instructions(),
        ["instructions", "sheets"] => sheets::instructions(),
        ["instructions", "compare"] => compare::instructions(),
        ["instructions", "salvage"] => salvage::instructions(),
        ["instructions", "row"] => row::instructions(),
        ["count", "reading", ref words @ ..] => reading::count(words),
        ["count", "building", ref words @ ..] => building::count(words),
        ["count", "copies", ref words @ ..] => copies::count(words),
        ["count", "runs", ref words @ ..] => runs::count(words),
        ["count", "texts", ref words @ ..] => texts::count(words),
        ["count", "sheets", ref words @ ..] => sheets::count(words),
        ["count", "compare", ref words @ ..] => compare::count(words),
        ["count", "salvage", ref words @ ..] => salvage::count(words),
        ["count", "row", ref words @ ..] => row::count(words),
        _ => panic!("bench [instructions] [reading|building|copies|runs|texts|sheets|compare|salvage|row]"),
    }
}
