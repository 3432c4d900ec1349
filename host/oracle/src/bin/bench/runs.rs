//! A block of 50,000 runs opened, skipped over and read, with run counts of one byte (short), of two (long), and of both.
use std::hint::black_box;

use bytes::Bytes;
use idzulgar::calls::{self, ReaderRecord};
use idzulgar::{Column, Encoding, Kind};
use oracle::model::Chance;
use oracle::padded;

use crate::{best, count_second, counted};

const RUNS: usize = 50_000;
const ROUNDS: usize = 15;
const MIXES: [&str; 3] = ["all short", "one in twenty long", "all long"];
const CALLS: [&str; 4] = ["opening", "one skip to the last row", "read whole", "read by 1,024"];

/// An i32 run-length block, and the memory that it is read into.
struct Case {
    rows: usize,
    block: Bytes,
    reader: ReaderRecord,
    values: Vec<i64>,
    flags: Vec<u8>,
}

const COLUMN: Column = Column { kind: Kind::I32, encoding: Encoding::RunLength };

fn open(rows: usize, block: &[u8]) -> ReaderRecord {
    let (kind, encoding, width) = COLUMN.numbers();
    let answer = calls::open(kind, encoding, width, rows, block);
    assert_eq!(answer.number, 0);
    answer.reader
}

impl Case {
    fn new(mix: &str) -> Case {
        let mut chance = Chance::new(7);
        let (mut rows, mut counts) = (0, Vec::new());
        for _ in 0..RUNS {
            let long = match mix {
                "all short" => false,
                "one in twenty long" => chance.one_in(20),
                _ => true,
            };
            let count = if long { 128 + chance.below(128) } else { 1 + chance.below(127) };
            rows += count as usize;
            if long {
                counts.extend([count as u8, 1]);
            } else {
                counts.push(count as u8);
            }
        }
        let mut block = (RUNS as u32).to_le_bytes().to_vec();
        block.extend((counts.len() as u32).to_le_bytes());
        block.extend(counts);
        (0..RUNS as u32).for_each(|run| block.extend(run.to_le_bytes()));
        let reader = open(rows, &block);
        Case { rows, block: padded(&block), reader, values: vec![1; rows], flags: vec![1; rows] }
    }

    fn read(&mut self, size: usize) -> usize {
        let (mut reader, mut given) = (self.reader, 0);
        loop {
            let answer = calls::read(reader, &self.block, 0, size, &mut self.values, &mut self.flags, &mut [], &mut []);
            assert_eq!(answer.number, 0);
            if answer.rows == 0 {
                return given;
            }
            given += answer.rows;
            reader = answer.reader;
        }
    }

    /// A call by the port; the block is opened before, but for opening itself.
    fn port(&mut self, call: &str) {
        match call {
            "opening" => _ = black_box(open(self.rows, &self.block)),
            "one skip to the last row" => pass(self.reader, &self.block, self.rows - 1),
            "read whole" => assert_eq!(self.read(self.rows), self.rows),
            _ => assert_eq!(self.read(1024), self.rows),
        }
    }

    /// The same by the original, opening included: it takes all counts apart when it opens.
    fn original(&mut self, call: &str) {
        let mut reader = oracle::reader(COLUMN, self.rows, self.block.clone());
        match call {
            "opening" => _ = black_box(&reader),
            "one skip to the last row" => reader.skip(self.rows - 1),
            _ => {
                let size = if call == "read whole" { self.rows } else { 1024 };
                let mut given = 0;
                while given < self.rows {
                    given += reader.batch_only(size);
                }
            }
        }
    }
}

pub fn times() {
    println!("| 50,000 runs | rows | call | port, microseconds | original, microseconds |\n|---|---|---|---|---|");
    for mix in MIXES {
        let mut case = Case::new(mix);
        for call in CALLS {
            let port = best(ROUNDS, || case.port(call)) / 1000.0;
            let original = best(ROUNDS, || case.original(call)) / 1000.0;
            println!("| {mix} | {} | {call} | {port:.1} | {original:.1} |", case.rows);
        }
    }
    let (reader, block) = longest();
    let all = best(ROUNDS, || pass_all(reader, &block)) / 1000.0;
    println!("\nskip over 281,474,976,710,655 rows in 65,537 runs: {all:.1} microseconds (the original can't read these counts)");
}

pub fn instructions() {
    println!("| 50,000 runs | call | port, instructions | a run |\n|---|---|---|---|");
    for mix in MIXES {
        for call in CALLS {
            let all = counted("runs", &[mix, call]);
            println!("| {mix} | {call} | {all} | {:.2} |", all / RUNS as f64);
        }
    }
    println!("\nskip over 281,474,976,710,655 rows in 65,537 runs: {} instructions", counted("runs", &["longest"]));
}

pub fn count(words: &[&str]) {
    if let [mix, call] = words {
        let mut case = Case::new(mix);
        count_second(|| case.port(call));
    } else {
        let (reader, block) = longest();
        count_second(|| pass_all(reader, &block));
    }
}

/// The most rows that a block can have: 65,536 runs of 4,294,967,295 and one of 65,535.
fn longest() -> (ReaderRecord, Vec<u8>) {
    let mut block = 65_537u32.to_le_bytes().to_vec();
    block.extend((5 * 65_536 + 3u32).to_le_bytes());
    (0..65_536).for_each(|_| block.extend([255, 255, 255, 255, 15]));
    block.extend([0xFF, 0xFF, 0x03]);
    block.extend((0..65_537).map(|run| (run % 2) as u8));
    (calls::open(0, 2, 0, 281_474_976_710_655, &block).reader, block)
}

/// A read that gives no rows.
fn pass(reader: ReaderRecord, block: &[u8], rows: usize) {
    assert_eq!(calls::read(reader, block, rows, 0, &mut [], &mut [], &mut [], &mut []).number, 0);
}

fn pass_all(reader: ReaderRecord, block: &[u8]) {
    pass(reader, block, 281_474_976_710_655);
}
