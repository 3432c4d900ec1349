//! Two columns compared by the port, and their rows as the original reads them compared here, one by one.
//!
//!     differences [PAIRS [SEED]]
//!
//! The original compares no columns. Each of PAIRS pairs of blocks is of one kind, in each pair of encodings in turn: a list of random rows, and
//! one that comes from it by rows changed, taken out, put in or put behind. The blocks are those that the original builds of them, or sound ones
//! that no builder makes. The port compares them in both orders, with a slot for each range and with one slot less, and tells the ranges. The
//! original reads all rows of both blocks; from these the ranges are worked out anew, floats by their bits. What differs is counted by class,
//! with the shortest block of each; a class that neither 01 nor 02 names as a departure fails the run.
use std::ops::RangeInclusive;

use idzulgar::{compare, Column, Kind, Refusal, Value};
use oracle::both::departure;
use oracle::classes::{hex, Classes};
use oracle::model::{self, differences, loose, Chance};
use oracle::{caught, padded};

/// A column, the number of its rows, and its block.
struct Given {
    column: Column,
    rows: u64,
    block: Vec<u8>,
}

impl Given {
    /// The block that the original builds of some rows, or a sound one that no builder makes.
    fn of(column: Column, rows: &[Value], chance: &mut Chance) -> Given {
        let block = if chance.one_in(3) {
            loose::block_of(column, rows, chance)
        } else {
            oracle::build(column, chance.below(300) as usize, rows).block
        };
        Given { column, rows: rows.len() as u64, block }
    }

    fn lent(&self) -> (Column, u64, &[u8]) {
        (self.column, self.rows, &self.block)
    }

    /// All rows as the original reads them, by batches; nothing if it panics.
    fn by_original(&self, chance: &mut Chance) -> Option<Vec<Value>> {
        caught(|| {
            let mut reader = oracle::reader(self.column, self.rows as usize, padded(&self.block));
            let (mut all, mut batch) = (Vec::new(), Vec::new());
            while reader.batch(1 + chance.below(40) as usize, &mut batch) > 0 {
                all.append(&mut batch);
            }
            all
        })
    }
}

/// Whether two rows of the original are the same: a null is the same as a null alone, floats are by their bits.
fn are_same(one: &Value, other: &Value) -> bool {
    match (one, other) {
        (Value::Null, Value::Null) => true,
        (Value::Int(one), Value::Int(other)) => one == other,
        (Value::Bytes(one), Value::Bytes(other)) => one == other,
        (Value::F64(one), Value::F64(other)) => one.to_bits() == other.to_bits(),
        _ => false,
    }
}

/// The ranges of rows that differ: each row that does is put to the range that ends before it, or begins one.
fn ranges(one: &[Value], other: &[Value]) -> Vec<RangeInclusive<u64>> {
    let mut ranges: Vec<RangeInclusive<u64>> = Vec::new();
    for row in 0..one.len().max(other.len()) {
        let is_same = one.get(row).zip(other.get(row)).is_some_and(|(one, other)| are_same(one, other));
        let row = row as u64;
        match ranges.last_mut() {
            _ if is_same => {}
            Some(range) if range.end() + 1 == row => *range = *range.start()..=row,
            _ => ranges.push(row..=row),
        }
    }
    ranges
}

#[derive(Default)]
struct Run {
    classes: Classes,
    rows: u64,
    nulls: u64,
    compared: u64,
    ranges: u64,
    differing: u64,
}

impl Run {
    /// The rows of a column by the original. Of a column of no rows it gives none, also where the original panics.
    fn rows_of(&mut self, given: &Given, chance: &mut Chance) -> Option<Vec<Value>> {
        let rows = given.by_original(chance);
        if rows.is_none() {
            let class = departure(given.column, given.rows, &given.block);
            self.classes.add(class, given.column, given.rows, &given.block, String::new);
        }
        let rows = rows.or(if given.rows == 0 { Some(Vec::new()) } else { None })?;
        if rows.len() as u64 != given.rows {
            let more = || format!(": {} rows by the original", rows.len());
            self.classes.add("DIFFERENCE: another number of rows", given.column, given.rows, &given.block, more);
        }
        self.rows += rows.len() as u64;
        self.nulls += rows.iter().filter(|row| **row == Value::Null).count() as u64;
        Some(rows)
    }

    /// Compares two columns by the port, and their rows by the original.
    fn compare(&mut self, one: &Given, other: &Given, chance: &mut Chance) {
        let (Some(rows), Some(others)) = (self.rows_of(one, chance), self.rows_of(other, chance)) else { return };
        let due = ranges(&rows, &others);
        let slots = due.len();
        self.compared += 1;
        self.ranges += slots as u64;
        self.differing += due.iter().map(|range| range.end() - range.start() + 1).sum::<u64>();
        let show = |what: String| {
            let Given { column, rows, block } = other;
            format!(" and {:?}, n = {rows}, block `{}`: {what}", column.encoding, hex(block))
        };
        let mut wrong = 0;
        for (a, b) in [(one, other), (other, one)] {
            // Just as many slots as are needed, and so many that any ranges of these rows have one.
            for lent in [slots, 1 + rows.len().max(others.len())] {
                let found = compare(a.lent(), b.lent(), lent);
                if found.as_ref() != Ok(&due) {
                    let more = || show(format!("{found:?} by {lent} slots, by the original's rows {due:?}"));
                    self.classes.add("DIFFERENCE: other ranges", one.column, one.rows, &one.block, more);
                    wrong += 1;
                }
            }
            if slots == 0 {
                continue;
            }
            let found = compare(a.lent(), b.lent(), slots - 1);
            if found != Err(Refusal::Room) {
                let more = || show(format!("{found:?} by {} slots", slots - 1));
                self.classes.add("DIFFERENCE: a slot too few isn't 4", one.column, one.rows, &one.block, more);
                wrong += 1;
            }
        }
        let class = match slots {
            _ if wrong > 0 => return,
            0 => "no ranges by both",
            1 => "one range, the same by both",
            _ => "some ranges, the same by both",
        };
        self.classes.add(class, one.column, one.rows, &one.block, || show(format!("{due:?}")));
    }
}

fn main() {
    oracle::quiet();
    let numbers: Vec<u64> = std::env::args().skip(1).map(|word| word.parse().expect("a number")).collect();
    let given = |place: usize, other: u64| numbers.get(place).copied().unwrap_or(other);
    let (pairs, seed) = (given(0, 100_000), given(1, 1));
    let mut run = Run::default();
    let mut chance = Chance::new(seed);
    for round in 0..pairs {
        let width = if chance.one_in(3) { 1 + chance.below(255) } else { 1 + chance.below(8) };
        // each kind in each encoding, against each encoding of the same kind
        let column = model::column(round % model::PAIRS, width);
        let encodings = differences::ENCODINGS;
        let other = Column::new(column.kind, encodings[(round / model::PAIRS) as usize % encodings.len()]);
        let most = match chance.below(100) {
            0 => 1000,
            1..=9 => 120,
            _ => 24,
        };
        let rows = model::some_rows(column.kind, most, &mut chance);
        let changed = differences::from(column.kind, &rows, &mut chance);
        let one = Given::of(column, &rows, &mut chance);
        let other = Given::of(other, &changed, &mut chance);
        run.compare(&one, &other, &mut chance);
    }
    println!(
        "{pairs} pairs of blocks, {} of them compared in both orders: {} rows by the original, {} of them null; {} rows differ, in {} ranges; seed {seed}",
        run.compared, run.rows, run.nulls, run.differing, run.ranges
    );
    if run.compared != pairs {
        let none = Column::new(Kind::Bool, differences::ENCODINGS[0]);
        run.classes.add("DIFFERENCE: pairs that weren't compared", none, pairs - run.compared, &[], String::new);
    }
    let wrong = run.classes.print();
    println!("{wrong} differences that documents 01 and 02 don't name");
    std::process::exit((wrong > 0) as i32);
}
