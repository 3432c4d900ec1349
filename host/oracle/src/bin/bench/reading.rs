//! Reading, with nothing passed over. Each side reads into memory of its own kind: the port into lent areas, made once; the original
//! into an array builder with room for the batch, made for each batch, as it has no way to empty one.
use std::hint::black_box;
use std::time::Instant;

use bytes::Bytes;
use idzulgar::calls::{self, ReaderRecord};
use idzulgar::{Column, Encoding, Kind, Value};
use oracle::model::Chance;
use oracle::padded;

use crate::{best, count_second, counted, text, COUNT_ROWS, NAMES};

const ROUNDS: usize = 15;

/// The rows of a case, at their number; dictionaries with a number of entries.
pub fn rows_of(name: &str, rows: usize, entries: u64) -> (Column, Vec<Value>) {
    let mut chance = Chance::new(7);
    let plain = |kind| Column::new(kind, Encoding::Plain);
    match name {
        "i64 plain" => (plain(Kind::I64), (0..rows).map(|_| Value::Int(chance.number() as i64)).collect()),
        "i32 nullable" => {
            let row = |chance: &mut Chance| if chance.one_in(10) { Value::Null } else { Value::Int(chance.number() as i32 as i64) };
            (Column::new(Kind::I32, Encoding::Nullable), (0..rows).map(|_| row(&mut chance)).collect())
        }
        "i32 run-length" => {
            (Column::new(Kind::I32, Encoding::RunLength), (0..rows).map(|place| Value::Int((place / 20) as i64)).collect())
        }
        "blob dictionary" => {
            (Column::new(Kind::Blob, Encoding::Dictionary), (0..rows).map(|_| text(chance.below(entries), 9)).collect())
        }
        "char 16 plain" => {
            let row = |chance: &mut Chance| text(chance.below(100_000), 5 + chance.below(12) as usize);
            (plain(Kind::Char(16)), (0..rows).map(|_| row(&mut chance)).collect())
        }
        "blob plain" => {
            let row = |chance: &mut Chance| text(chance.below(100_000), 5 + chance.below(6) as usize);
            (plain(Kind::Blob), (0..rows).map(|_| row(&mut chance)).collect())
        }
        _ => crate::texts::rows_of(name, rows),
    }
}

/// A block and what it takes to read it.
struct Case {
    name: String,
    column: Column,
    rows: usize,
    block: Bytes,
    values: Vec<i64>,
    flags: Vec<u8>,
    ends: Vec<u32>,
    bytes: Vec<u8>,
}

impl Case {
    fn new(name: &str, column: Column, list: Vec<Value>) -> Case {
        let rows = list.len();
        let block = padded(&oracle::build(column, 1 << 20, &list).block);
        let is_bytes = column.kind.is_bytes();
        let bytes = list.iter().map(|row| if let Value::Bytes(bytes) = row { bytes.len() } else { 0 }).sum();
        let (fixed, variable) = if is_bytes { (0, rows) } else { (rows, 0) };
        Case {
            name: name.to_string(),
            column,
            rows,
            block,
            values: vec![1; fixed],
            flags: vec![1; rows],
            ends: vec![1; variable],
            bytes: vec![1; bytes],
        }
    }

    fn named(name: &str, rows: usize, entries: u64) -> Case {
        let (column, list) = rows_of(name, rows, entries);
        Case::new(name, column, list)
    }

    fn open(&self) -> ReaderRecord {
        let (kind, encoding, width) = self.column.numbers();
        let answer = calls::open(kind, encoding, width, self.rows, &self.block);
        assert_eq!(answer.number, 0);
        answer.reader
    }

    fn port(&mut self, size: usize) -> usize {
        let mut reader = self.open();
        let mut given = 0;
        loop {
            let answer =
                calls::read(reader, &self.block, 0, size, &mut self.values, &mut self.flags, &mut self.ends, &mut self.bytes);
            assert_eq!(answer.number, 0);
            if answer.rows == 0 {
                return given;
            }
            given += answer.rows;
            reader = answer.reader;
        }
    }

    fn original(&mut self, size: usize) -> usize {
        let mut reader = oracle::reader(self.column, self.rows, self.block.clone());
        let mut given = 0;
        loop {
            let rows = reader.batch_only(size);
            if rows == 0 {
                return given;
            }
            given += rows;
        }
    }

    /// A plain loop over i64 items, with and without flags.
    fn by_hand(&mut self, flags: bool) -> usize {
        for (value, item) in self.values.iter_mut().zip(self.block.chunks_exact(8)) {
            *value = i64::from_le_bytes(item.try_into().expect("eight bytes"));
        }
        if flags {
            self.flags.fill(1);
        }
        black_box(&self.values);
        black_box(&self.flags);
        self.rows
    }
}

/// Nanoseconds a row of both sides, their rounds by turns.
fn both(case: &mut Case, size: usize) -> (f64, f64) {
    let rows = case.rows as f64;
    let (mut port, mut original) = (f64::MAX, f64::MAX);
    for _ in 0..ROUNDS {
        let start = Instant::now();
        assert_eq!(case.port(size), case.rows);
        port = port.min(start.elapsed().as_nanos() as f64 / rows);
        let start = Instant::now();
        assert_eq!(case.original(size), case.rows);
        original = original.min(start.elapsed().as_nanos() as f64 / rows);
    }
    (port, original)
}

pub fn times() {
    const ROWS: usize = 1_000_000;
    println!("| read, 1,000,000 rows, with opening | port, ns a row | original, ns a row | original / port |");
    println!("|---|---|---|---|");
    for name in NAMES {
        let mut case = Case::named(name, ROWS, 200);
        for (how, size) in [("whole", ROWS), ("by 1,024", 1024)] {
            let (port, original) = both(&mut case, size);
            println!("| {}, {how} | {port:.2} | {original:.2} | {:.1} |", case.name, original / port);
        }
    }

    println!("\n| i64 plain, whole | rows | ns a row | by hand / port |\n|---|---|---|---|");
    for rows in [10_000, ROWS] {
        let mut case = Case::named("i64 plain", rows, 0);
        let (mut port, mut bare, mut flagged) = (f64::MAX, f64::MAX, f64::MAX);
        for _ in 0..4 {
            port = port.min(best(ROUNDS, || _ = black_box(case.port(rows))) / rows as f64);
            bare = bare.min(best(ROUNDS, || _ = black_box(case.by_hand(false))) / rows as f64);
            flagged = flagged.min(best(ROUNDS, || _ = black_box(case.by_hand(true))) / rows as f64);
        }
        println!("| the port: values and flags | {rows} | {port:.2} | |");
        println!("| a plain loop over from_le_bytes, values and flags | {rows} | {flagged:.2} | {:.2} |", flagged / port);
        println!("| a plain loop over from_le_bytes, values alone | {rows} | {bare:.2} | {:.2} |", bare / port);
    }

    println!("\n| opening, 1,000,000 rows | block, bytes | opening, microseconds | a sum over the bytes, microseconds |\n|---|---|---|---|");
    for name in ["i64 plain", "i32 nullable", "i32 run-length", "blob dictionary", "char 16 plain", "blob plain"] {
        let case = Case::named(name, ROWS, 200);
        let open = best(ROUNDS, || _ = black_box(case.open())) / 1000.0;
        let pass = best(ROUNDS, || _ = black_box(case.block.iter().map(|byte| *byte as u64).sum::<u64>())) / 1000.0;
        println!("| {name} | {} | {open:.2} | {pass:.2} |", case.block.len());
    }

    println!("\n| growth, read whole | rows | entries | port, ns a row | original, ns a row |\n|---|---|---|---|---|");
    for name in NAMES {
        for rows in [1_000, 10_000, 100_000, ROWS] {
            let mut case = Case::named(name, rows, 200);
            let (port, original) = both(&mut case, rows);
            println!("| {name} | {rows} | {} | {port:.2} | {original:.2} |", if name == "blob dictionary" { "200" } else { "" });
        }
    }
    for entries in [16, 256, 4_096, 65_536] {
        let mut case = Case::named("blob dictionary", ROWS, entries);
        let (port, original) = both(&mut case, ROWS);
        println!("| blob dictionary | {ROWS} | {entries} | {port:.2} | {original:.2} |");
    }
}

pub fn instructions() {
    println!("| read, 20,000 rows, with opening | port, instructions a row | original, instructions a row | original / port |");
    println!("|---|---|---|---|");
    for name in NAMES {
        for (how, size) in [("whole", COUNT_ROWS), ("by 1,024", 1024)] {
            let each = |side| counted("reading", &[name, side, &size.to_string()]) / COUNT_ROWS as f64;
            let (port, original) = (each("port"), each("original"));
            println!("| {name}, {how} | {port:.1} | {original:.1} | {:.1} |", original / port);
        }
    }
}

pub fn count(words: &[&str]) {
    let [name, side, size] = words else { panic!("a case, a side and a size") };
    let size = size.parse().expect("a size");
    let mut case = Case::named(name, COUNT_ROWS, 200);
    count_second(|| _ = black_box(if *side == "port" { case.port(size) } else { case.original(size) }));
}
