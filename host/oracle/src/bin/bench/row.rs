//! A row asked of the second engine, the first and the last of blocks of ever more bytes, beside what the first engine takes for the last one:
//! one read by a reader that has given nothing yet, and the opening before it. In each call the second engine tests the whole block and goes
//! over the run counts up to the row, so what it costs has to go by what there is to test: of fixed kinds without runs the lengths alone, of all
//! others each item.
use std::hint::black_box;

use idzulgar::calls::{self, Descriptor, ReaderRecord};
use idzulgar::{Column, Encoding, Kind, Value};
use oracle::model::salvages::{block_by, key_of};
use oracle::model::{self, loose, Chance};

use crate::{best, count_second, counted, text};

const NAMES: [&str; 5] = ["i64 plain", "i32 nullable", "i32 run-length", "blob plain", "string dictionary"];
const SIZES: [usize; 5] = [1 << 10, 1 << 14, 1 << 18, 1 << 22, 1 << 24];
const SIDES: [&str; 4] = ["first", "last", "read", "opening"];
/// The most items of a block, and the most entries.
const MOST_ITEMS: usize = 1 << 20;
const MOST_ENTRIES: usize = 1 << 16;
const ROUNDS: usize = 15;
/// The rows of a run.
const RUN: u64 = 10;
/// The bytes of a blob, and of an entry and its runs in a small dictionary.
const BLOB: usize = 12;
const ENTRY: usize = 88;

/// A block, what it is opened by, its reader, and room for a row.
struct Case {
    descriptor: Descriptor,
    block: Vec<u8>,
    reader: ReaderRecord,
    bytes: Vec<u8>,
}

/// A dictionary of so many bytes: runs take a half of them, as far as there may be so many, and entries the rest. Runs name entries by chance.
fn dictionary(bytes: usize) -> (u64, Vec<u8>) {
    let mut chance = Chance::new(13);
    let (runs, entries) = ((bytes / 10).min(MOST_ITEMS), (bytes / ENTRY).min(MOST_ENTRIES));
    let len = (bytes - 20 - 5 * runs) / entries - 4;
    let all: Vec<Value> = (0..entries).map(|place| text(place as u64, len)).collect();
    let runs: Vec<(i32, u64)> = (0..runs).map(|_| (key_of(chance.below(entries as u64)), RUN)).collect();
    (RUN * runs.len() as u64, block_by(Kind::String, &all, &runs))
}

/// The column of a name, and its block of about so many bytes with the number of its rows; nothing where a block can't have as many.
fn block_of(name: &str, bytes: usize) -> Option<(Column, u64, Vec<u8>)> {
    let (kind, encoding, items) = match name {
        "i64 plain" => (Kind::I64, Encoding::Plain, bytes / 8),
        "i32 nullable" => (Kind::I32, Encoding::Nullable, (bytes - 4) * 8 / 33),
        "i32 run-length" => (Kind::I32, Encoding::RunLength, (bytes - 8) / 5),
        "blob plain" => (Kind::Blob, Encoding::Plain, bytes / (4 + BLOB)),
        _ => (Kind::String, Encoding::Dictionary, 0),
    };
    if items > MOST_ITEMS {
        return None;
    }
    let column = Column::new(kind, encoding);
    let value = |place: usize| match name {
        "i32 nullable" if place % 10 == 7 => Value::Null,
        "blob plain" => text(place as u64, BLOB),
        _ => Value::Int(place as i64),
    };
    let (rows, block) = match encoding {
        Encoding::Dictionary => dictionary(bytes),
        Encoding::RunLength => {
            let runs: Vec<(Value, u64)> = (0..items).map(|place| (value(place), RUN)).collect();
            (RUN * items as u64, loose::block_of_counted(column, &runs))
        }
        _ => (items as u64, model::block_of(column, &(0..items).map(value).collect::<Vec<Value>>())),
    };
    Some((column, rows, block))
}

impl Case {
    fn new(name: &str, bytes: usize) -> Option<Case> {
        let (column, rows, block) = block_of(name, bytes)?;
        let (kind, encoding, width) = column.numbers();
        let descriptor = Descriptor { kind, encoding, width, zero: 0, rows: rows as usize };
        let opening = calls::open(kind, encoding, width, rows as usize, &block);
        assert_eq!(opening.number, 0);
        Some(Case { descriptor, block, reader: opening.reader, bytes: vec![0; 1 << 10] })
    }

    /// The second engine's answer: the value, the flag and the bytes, by their number.
    fn row(&mut self, row: usize) -> (i64, u8, usize) {
        let (mut values, mut flags, mut ends) = ([0; 1], [0; 1], [0; 1]);
        let given = calls::row(
            self.descriptor,
            black_box(&self.block),
            black_box(row),
            &mut values,
            &mut flags,
            &mut ends,
            &mut self.bytes,
        );
        assert_eq!((given.number, ends[0] as usize), (0, given.bytes));
        (values[0], flags[0], given.bytes)
    }

    /// The first engine's.
    fn read(&mut self, row: usize) -> (i64, u8, usize) {
        let (mut values, mut flags, mut ends) = ([0; 1], [0; 1], [0; 1]);
        let given = calls::read(
            self.reader,
            black_box(&self.block),
            black_box(row),
            1,
            &mut values,
            &mut flags,
            &mut ends,
            &mut self.bytes,
        );
        assert_eq!((given.number, given.rows, ends[0] as usize), (0, 1, given.bytes));
        (values[0], flags[0], given.bytes)
    }

    fn open(&self) -> u8 {
        let Descriptor { kind, encoding, width, rows, .. } = self.descriptor;
        calls::open(kind, encoding, width, rows, black_box(&self.block)).number
    }

    fn run(&mut self, side: &str) {
        let last = self.descriptor.rows - 1;
        match side {
            "first" => _ = black_box(self.row(0)),
            "last" => _ = black_box(self.row(last)),
            "read" => _ = black_box(self.read(last)),
            _ => assert_eq!(self.open(), 0),
        }
    }
}

/// A table of the sides, a call each.
fn table(unit: &str, sizes: &[usize], mut of: impl FnMut(&str, usize, Case) -> [f64; 4]) {
    println!("\n| asking for a row | rows | bytes | first row, {unit} | last row | last row, {unit} a byte | first engine: reading the last row | opening | last row / both |");
    println!("|---|---|---|---|---|---|---|---|---|");
    for name in NAMES {
        for size in sizes {
            let Some(case) = Case::new(name, *size) else { continue };
            let (rows, bytes) = (case.descriptor.rows, case.block.len());
            let [first, last, read, opening] = of(name, *size, case);
            println!(
                "| {name} | {rows} | {bytes} | {first:.0} | {last:.0} | {:.2} | {read:.0} | {opening:.0} | {:.2} |",
                last / bytes as f64,
                last / (read + opening)
            );
        }
    }
}

pub fn times() {
    table("ns", &SIZES, |_, _, mut case| {
        let last = case.descriptor.rows - 1;
        assert_eq!(case.row(last), case.read(last));
        SIDES.map(|side| {
            // as often as goes into a millisecond: what takes nanoseconds can't be told once
            let repeat = (1e6 / best(ROUNDS, || case.run(side))).clamp(1.0, 1e3) as usize;
            best(ROUNDS, || (0..repeat).for_each(|_| case.run(side))) / repeat as f64
        })
    });
}

pub fn instructions() {
    // the longest take minutes to count, and are left to the times
    table("instructions", &SIZES[..4], |name, size, _| SIDES.map(|side| counted("row", &[name, side, &size.to_string()])));
}

pub fn count(words: &[&str]) {
    let [name, side, size] = words else { panic!("a column, a side and bytes") };
    let mut case = Case::new(name, size.parse().expect("a number")).expect("a block of as many bytes");
    count_second(|| case.run(side));
}
