//! Opening a small column of a sheet file, beside opening its block alone: in a file of a thousand bytes, and in one of the greatest length and
//! of 64 columns, where the column is the first, the middle one or the last. What the file adds has to be the same whatever else it holds.
use std::hint::black_box;

use idzulgar::{calls, write_sheet, Column, Encoding, Kind, Value};

use crate::{best, count_second, counted, text};

const ROUNDS: usize = 25;
const OPENINGS: usize = 2_000;
const KINDS: [&str; 2] = ["i64 plain", "string dictionary"];
/// The file's bytes, its columns, and which of them is opened.
const FILES: [(usize, usize, usize); 5] =
    [(1_024, 2, 0), (1_024, 2, 1), (16_777_216, 64, 0), (16_777_216, 64, 31), (16_777_216, 64, 63)];

struct Case {
    column: Column,
    rows: usize,
    block: Vec<u8>,
    file: Vec<u8>,
    place: usize,
}

/// Sixteen rows.
fn small(kind: &str) -> (Column, Vec<Value>) {
    match kind {
        "i64 plain" => (Column::new(Kind::I64, Encoding::Plain), (0..16).map(|row| Value::Int(row * 1001)).collect()),
        _ => (Column::new(Kind::String, Encoding::Dictionary), (0..16).map(|row| text(row / 4, 9)).collect()),
    }
}

impl Case {
    /// A file of so many bytes: the small column at its place, and blobs of one row that share the rest.
    fn new(kind: &str, (bytes, columns, place): (usize, usize, usize)) -> Case {
        let (column, list) = small(kind);
        let block = oracle::build(column, 4096, &list).block;
        let rest = bytes - 1 - 16 * columns - block.len();
        let others = columns - 1;
        let blobs: Vec<Vec<u8>> = (0..others)
            .map(|at| {
                let len = rest / others + usize::from(at < rest % others);
                let mut blob = (len as u32 - 4).to_le_bytes().to_vec();
                blob.resize(len, b'x');
                blob
            })
            .collect();
        let mut all: Vec<(Column, u64, &[u8])> =
            blobs.iter().map(|blob| (Column::new(Kind::Blob, Encoding::Plain), 1, &blob[..])).collect();
        all.insert(place, (column, list.len() as u64, &block));
        let file = write_sheet(&all).expect("sound blocks");
        assert_eq!(file.len(), bytes);
        let found = calls::sheet_open(&file, place);
        assert_eq!((found.number, &file[found.from..found.from + found.len]), (0, &block[..]));
        Case { column, rows: list.len(), block, file, place }
    }

    fn in_the_file(&self) {
        for _ in 0..OPENINGS {
            let found = calls::sheet_open(black_box(&self.file), black_box(self.place));
            assert_eq!(found.number, 0);
            black_box(&found);
        }
    }

    fn alone(&self) {
        let (kind, encoding, width) = self.column.numbers();
        for _ in 0..OPENINGS {
            let opening = calls::open(kind, encoding, width, self.rows, black_box(&self.block));
            assert_eq!(opening.number, 0);
            black_box(&opening);
        }
    }

    fn run(&self, side: &str) {
        match side {
            "in the file" => self.in_the_file(),
            _ => self.alone(),
        }
    }
}

/// A table of both sides and their difference, of one opening.
fn table(unit: &str, digits: usize, mut of: impl FnMut(&str, usize, &Case, &str) -> f64) {
    println!(
        "\n| opening a column of 16 rows | file, bytes | columns | which | in the file, {unit} | its block alone | difference |"
    );
    println!("|---|---|---|---|---|---|---|");
    for kind in KINDS {
        for (at, file) in FILES.into_iter().enumerate() {
            let case = Case::new(kind, file);
            let [inside, alone] = ["in the file", "alone"].map(|side| of(kind, at, &case, side) / OPENINGS as f64);
            let (bytes, columns, place) = file;
            println!(
                "| {kind} | {bytes} | {columns} | {place} | {inside:.digits$} | {alone:.digits$} | {:.digits$} |",
                inside - alone
            );
        }
    }
}

pub fn times() {
    table("ns", 1, |_, _, case, side| best(ROUNDS, || case.run(side)));
}

pub fn instructions() {
    table("instructions", 1, |kind, at, _, side| counted("sheets", &[kind, &at.to_string(), side]));
}

pub fn count(words: &[&str]) {
    let [kind, at, side] = words else { panic!("a kind, a file and a side") };
    let case = Case::new(kind, FILES[at.parse::<usize>().expect("a file")]);
    count_second(|| case.run(side));
}
