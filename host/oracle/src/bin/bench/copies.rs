//! A row appended 300 times: in one call, in 300, and by the original, which has no other way. And 281,474,976,710,655 times in one call, in
//! the encodings with runs: what it costs has to go by the runs.
use std::hint::black_box;

use idzulgar::calls::{self, BuilderRecord};
use idzulgar::{Column, Encoding, Kind, Value};

use crate::building::{parts, Memory};
use crate::{best, count_second, counted, text};

const ROUNDS: usize = 25;
const REPEATS: usize = 1_000;
const TIMES: usize = 300;
const SIDES: [&str; 3] = ["one call", "300 calls", "original"];
const KINDS: [&str; 2] = ["i64", "blob"];
const ENCODINGS: [&str; 5] = ["plain", "nullable", "run-length", "run-length nullable", "dictionary"];
const MOST_ROWS: usize = 281_474_976_710_655;
const MOST_RUNS: usize = 65_537;
const MOST_KINDS: [&str; 2] = ["bool", "i64"];

/// 300 equal rows, and memory for so many items or runs of them.
struct Case {
    column: Column,
    rows: Vec<Value>,
    empty: BuilderRecord,
    memory: Memory,
}

impl Case {
    fn new(kind: &str, encoding: &str, most: usize) -> Case {
        let (kind, row, len) = match kind {
            "bool" => (Kind::Bool, Value::Int(1), 1),
            "i64" => (Kind::I64, Value::Int(89_123), 8),
            _ => (Kind::Blob, text(89_123, 9), 9),
        };
        let encoding = match encoding {
            "plain" => Encoding::Plain,
            "nullable" => Encoding::Nullable,
            "run-length" => Encoding::RunLength,
            "run-length nullable" => Encoding::RunLengthNullable,
            _ => Encoding::Dictionary,
        };
        let column = Column::new(kind, encoding);
        let (kind, encoding, width) = column.numbers();
        let empty = calls::create(kind, encoding, width, 0).builder;
        Case { column, rows: vec![row; TIMES], empty, memory: Memory::new(column, most, most * len) }
    }

    /// The same from all sides: else other things would be measured.
    fn for_300(kind: &str, encoding: &str) -> Case {
        let mut case = Case::new(kind, encoding, TIMES);
        let (all, memory) = (case.append_times(TIMES), case.memory.clone());
        case.memory = Memory::new(case.column, TIMES, memory.items.len());
        assert_eq!((case.one_by_one(), &case.memory), (all, &memory));
        let mut builder = oracle::builder(case.column, 0);
        builder.append_all(&case.rows, false);
        let (mut block, Memory { items, ends, flags, counts, keys, lens }) = (vec![0; 1 << 14], &memory);
        let finished = calls::finish(all, items, ends, flags, counts, keys, lens, &mut block);
        assert_eq!((finished.number, &block[..finished.len]), (0, &builder.finish()[..]));
        case
    }

    fn append_times(&mut self, times: usize) -> BuilderRecord {
        let (present, value, item) = parts(&self.rows[0]);
        let answer = calls::append_times(black_box(self.empty), self.memory.areas(), present, value, item, times);
        assert_eq!(answer.number, 0);
        answer.builder
    }

    fn one_by_one(&mut self) -> BuilderRecord {
        let (present, value, item) = parts(&self.rows[0]);
        let mut record = black_box(self.empty);
        for _ in 0..TIMES {
            let answer = calls::append(record, self.memory.areas(), present, value, item);
            assert_eq!(answer.number, 0);
            record = answer.builder;
        }
        record
    }

    /// What is to be measured, so many times. The original's builder is made anew each time.
    fn run(&mut self, side: &str, repeats: usize) {
        for _ in 0..repeats {
            match side {
                "one call" => _ = black_box(self.append_times(TIMES)),
                "300 calls" => _ = black_box(self.one_by_one()),
                _ => {
                    let mut builder = oracle::builder(self.column, 1 << 14);
                    builder.append_all(black_box(&self.rows), false);
                    black_box(&builder);
                }
            }
        }
    }

    /// Appends the most rows that a block can have.
    fn most(&mut self) {
        let record = self.append_times(MOST_ROWS);
        assert_eq!((record.rows, record.runs), (MOST_ROWS, MOST_RUNS));
    }
}

/// A table of the sides for each column, by what one run of 300 rows takes.
fn table(unit: &str, mut of: impl FnMut(&str, &str, &str) -> f64) {
    println!(
        "\n| 300 equal rows | one call, {unit} | 300 calls | 300 calls / one call | original, 300 appends |\n|---|---|---|---|---|"
    );
    for kind in KINDS {
        for encoding in ENCODINGS {
            let [call, calls, original] = SIDES.map(|side| of(kind, encoding, side));
            println!("| {kind} {encoding} | {call:.0} | {calls:.0} | {:.1} | {original:.0} |", calls / call);
        }
    }
}

/// A table of the most rows for each column with runs; the units are those of the whole, of which one has so many of a run's.
fn most_table(units: [&str; 2], by: f64, mut of: impl FnMut(&str, &str) -> f64) {
    let [all, run] = units;
    println!("\n| 281,474,976,710,655 equal rows in one call | runs | {all} | {run} a run |\n|---|---|---|---|");
    for kind in MOST_KINDS {
        for encoding in &ENCODINGS[2..] {
            let all = of(kind, encoding);
            println!("| {kind} {encoding} | {MOST_RUNS} | {:.0} | {:.1} |", all / by, all / MOST_RUNS as f64);
        }
    }
}

pub fn times() {
    table("ns", |kind, encoding, side| {
        let mut case = Case::for_300(kind, encoding);
        best(ROUNDS, || case.run(side, REPEATS)) / REPEATS as f64
    });
    most_table(["microseconds", "ns"], 1000.0, |kind, encoding| {
        let mut case = Case::new(kind, encoding, MOST_RUNS);
        best(ROUNDS, || case.most())
    });
}

pub fn instructions() {
    table("instructions", |kind, encoding, side| counted("copies", &[kind, encoding, side]));
    most_table(["instructions"; 2], 1.0, |kind, encoding| counted("copies", &[kind, encoding]));
}

pub fn count(words: &[&str]) {
    match *words {
        [kind, encoding, side] => {
            let mut case = Case::for_300(kind, encoding);
            count_second(|| case.run(side, 1));
        }
        [kind, encoding] => {
            let mut case = Case::new(kind, encoding, MOST_RUNS);
            count_second(|| case.most());
        }
        _ => panic!("no such count"),
    }
}
