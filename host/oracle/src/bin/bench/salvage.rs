//! A dictionary column with some unknown keys given back, beside the builder's appends of the repaired rows run by run, which is what salvaging
//! is held against, and beside one opening of the block before it was damaged. Ever more runs of 200 entries; ever more entries with a run
//! each; and the same runs with ever more rows, which mustn't cost more.
use std::hint::black_box;

use idzulgar::calls::{self, BuilderRecord, Descriptor, Salvaged};
use idzulgar::{Column, Encoding, Kind, Value};
use oracle::model::salvages::{block_by, key_of};
use oracle::model::{self, Chance};

use crate::building::{parts, Memory};
use crate::{best, count_second, counted, text};

const KINDS: [(&str, Kind); 4] = [("i32", Kind::I32), ("i64", Kind::I64), ("char 16", Kind::Char(16)), ("blob", Kind::Blob)];
const ENTRIES: u64 = 200;
const MANY_RUNS: [u64; 4] = [1_000, 10_000, 100_000, 1_000_000];
const MANY_ENTRIES: [u64; 3] = [256, 4_096, 65_536];
/// A run has at most this many rows: so many runs of them are the most rows of a block.
const MOST_COUNT: u64 = 4_294_967_295;
const MOST_ROWS: u64 = 281_474_976_710_655;
const FEW_RUNS: u64 = 300;
const MOST_RUNS: u64 = 65_537;
/// Of so many runs one is lost.
const ONE_LOST_OF: u64 = 50;
const SIDES: [&str; 3] = ["salvage", "appends", "opening"];

/// A damaged block, memory for what is given back of it, the rows that are due, and memory to append them in.
struct Case {
    column: Column,
    descriptor: Descriptor,
    before: Vec<u8>,
    damaged: Vec<u8>,
    firsts: Vec<usize>,
    lasts: Vec<usize>,
    out: Vec<u8>,
    due: Salvaged,
    rows: Vec<(Value, usize)>,
    empty: BuilderRecord,
    memory: Memory,
}

fn entry(kind: Kind, place: u64) -> Value {
    if kind.is_bytes() {
        text(place, 9)
    } else {
        Value::Int(place as i64)
    }
}

impl Case {
    /// A block of some runs that name some entries: each in turn if there are as many of both, else by chance, and never one twice in a row.
    /// `rows` is the number of rows, spread over the runs, of which none but the last is shorter than the others.
    fn new(kind: Kind, rows: u64, runs: u64, entries: u64) -> Case {
        let mut chance = Chance::new(7);
        let all: Vec<Value> = (0..entries).map(|place| entry(kind, place)).collect();
        let (mut places, mut last) = (Vec::new(), entries - 1);
        for run in 0..runs {
            last = if runs == entries { run } else { (last + 1 + chance.below(entries - 1)) % entries };
            places.push(last);
        }
        let each = rows.div_ceil(runs);
        let counts: Vec<u64> = (0..runs).map(|run| if run + 1 < runs { each } else { rows - each * (runs - 1) }).collect();
        let is_lost = |run: usize| run as u64 % ONE_LOST_OF == ONE_LOST_OF - 1;
        let keys = |run: usize, spoiled: bool| key_of(if spoiled && is_lost(run) { entries + run as u64 } else { places[run] });
        let [before, damaged] = [false, true].map(|spoiled| {
            let runs: Vec<(i32, u64)> = counts.iter().enumerate().map(|(run, count)| (keys(run, spoiled), *count)).collect();
            block_by(kind, &all, &runs)
        });
        let repaired = |run: usize| if is_lost(run) { Value::Null } else { all[places[run] as usize].clone() };
        let rows_due = counts.iter().enumerate().map(|(run, count)| (repaired(run), *count as usize)).collect();
        let column = Column::new(kind, Encoding::Dictionary);
        let (number, encoding, width) = column.numbers();
        let slots = (runs / ONE_LOST_OF) as usize;
        let mut case = Case {
            column,
            descriptor: Descriptor { kind: number, encoding, width, zero: 0, rows: rows as usize },
            firsts: vec![1; slots],
            lasts: vec![1; slots],
            out: vec![1; damaged.len()],
            before,
            damaged,
            due: Salvaged { number: 0, len: 0, ranges: slots },
            rows: rows_due,
            empty: calls::create(number, encoding, width, 0).builder,
            memory: Memory::new(column, runs as usize, entries as usize * 16),
        };
        case.due.len = case.call().len;
        case
    }

    /// The same, held to the builder's block: else it would be held against something else.
    fn checked(kind: Kind, rows: u64, runs: u64, entries: u64) -> Case {
        let mut case = Case::new(kind, rows, runs, entries);
        assert_eq!(model::open_number(case.column, rows, &case.before), 0);
        assert_eq!(model::open_number(case.column, rows, &case.damaged), 15);
        let record = case.appends();
        let (mut block, Memory { items, ends, flags, counts, keys, lens }) = (vec![0; case.out.len()], &case.memory);
        let finished = calls::finish(record, items, ends, flags, counts, keys, lens, &mut block);
        assert_eq!((finished.number, finished.len), (0, case.due.len));
        assert!(block[..finished.len] == case.out[..finished.len]);
        case
    }

    fn call(&mut self) -> Salvaged {
        calls::salvage(self.descriptor, black_box(&self.damaged), &mut self.firsts, &mut self.lasts, &mut self.out)
    }

    fn salvage(&mut self) {
        assert_eq!(self.call(), self.due);
    }

    /// The repaired rows appended, run by run.
    fn appends(&mut self) -> BuilderRecord {
        let mut record = black_box(self.empty);
        for (row, times) in &self.rows {
            let (present, value, item) = parts(row);
            let answer = calls::append_times(record, self.memory.areas(), present, value, item, *times);
            assert_eq!(answer.number, 0);
            record = answer.builder;
        }
        record
    }

    fn open(&self) {
        let Descriptor { kind, encoding, width, rows, .. } = self.descriptor;
        assert_eq!(calls::open(kind, encoding, width, rows, black_box(&self.before)).number, 0);
    }

    fn run(&mut self, side: &str) {
        match side {
            "salvage" => self.salvage(),
            "appends" => _ = black_box(self.appends()),
            _ => self.open(),
        }
    }
}

/// Rows, runs and entries of the cases: ever more runs, ever more entries, ever more rows.
fn many_runs() -> Vec<[u64; 3]> {
    MANY_RUNS.map(|runs| [10 * runs, runs, ENTRIES]).to_vec()
}

fn many_entries() -> Vec<[u64; 3]> {
    MANY_ENTRIES.map(|entries| [entries, entries, entries]).to_vec()
}

fn many_rows() -> Vec<[u64; 3]> {
    let few = [FEW_RUNS, FEW_RUNS * MOST_COUNT].map(|rows| [rows, FEW_RUNS, ENTRIES]);
    let most = [MOST_RUNS, MOST_ROWS].map(|rows| [rows, MOST_RUNS, ENTRIES]);
    [few, most].concat()
}

/// A table of the sides, a run of the block each.
fn table(unit: &str, kinds: &[(&str, Kind)], sizes: &[[u64; 3]], mut of: impl FnMut(&str, Kind, [u64; 3]) -> [f64; 3]) {
    println!("\n| salvage, one run of {ONE_LOST_OF} lost | rows | runs | entries | salvage, {unit} a run | appends of the repaired rows, run by run | salvage / appends | one opening |");
    println!("|---|---|---|---|---|---|---|---|");
    for (name, kind) in kinds {
        for [rows, runs, entries] in sizes {
            let [salvage, appends, opening] = of(name, *kind, [*rows, *runs, *entries]).map(|all| all / *runs as f64);
            println!(
                "| {name} | {rows} | {runs} | {entries} | {salvage:.1} | {appends:.1} | {:.2} | {opening:.1} |",
                salvage / appends
            );
        }
    }
}

pub fn times() {
    let of = |_: &str, kind: Kind, [rows, runs, entries]: [u64; 3]| {
        let mut case = Case::checked(kind, rows, runs, entries);
        // what takes seconds is run less often
        let rounds = if runs * entries > 1 << 30 { 3 } else { 15 };
        let repeat = (100_000 / (runs * entries / 100)).clamp(1, 1_000) as usize;
        SIDES.map(|side| best(rounds, || (0..repeat).for_each(|_| case.run(side))) / repeat as f64)
    };
    table("ns", &KINDS, &many_runs(), of);
    table("ns", &KINDS, &many_entries(), of);
    table("ns", &KINDS[1..2], &many_rows(), of);
}

pub fn instructions() {
    let of = |name: &str, _: Kind, [rows, runs, entries]: [u64; 3]| {
        let words = [rows, runs, entries].map(|number| number.to_string());
        SIDES.map(|side| counted("salvage", &[name, side, &words[0], &words[1], &words[2]]))
    };
    // a million runs and 65,536 entries take many minutes to count, and are left to the times
    table("instructions", &KINDS, &many_runs()[..3], of);
    table("instructions", &KINDS, &many_entries()[..2], of);
    table("instructions", &KINDS[1..2], &many_rows(), of);
}

pub fn count(words: &[&str]) {
    let [name, side, rows, runs, entries] = words else { panic!("a kind, a side, rows, runs and entries") };
    let number = |word: &str| word.parse::<u64>().expect("a number");
    let kind = KINDS.iter().find(|kind| kind.0 == *name).expect("a kind").1;
    let mut case = Case::new(kind, number(rows), number(runs), number(entries));
    count_second(|| case.run(side));
}
