//! Dictionary blocks with damaged keys, given back by the port and judged by the original.
//!
//!     salvage [BLOCKS [SEED]]
//!
//! The original gives nothing back, but it reads a key that names no entry as null: its rows of the damaged block are the rows that are due, and
//! its builder's block of them is the block. Each of BLOCKS dictionary blocks, of each kind in turn, is built of random rows by the port or by the
//! original, or is a sound one that no builder makes. Then the keys of some runs come to name no entry: of none, of one, of some apart or side by
//! side, of all. The port salvages the block into just as much memory as is due, into more and into less. It has to give the original's block, no
//! longer than the damaged one, and the ranges of the runs whose keys were damaged, by the keys before and after; the block has to be opened, and
//! read by both alike. What differs is counted by class, with the shortest block of each; a class that neither 01 nor 02 names as a departure
//! fails the run.
//!
//! The original has a builder for each kind. Floats lack NaN and don't hold both zeros, as it takes these for equal.
use std::ops::RangeInclusive;

use idzulgar::calls::{self, Descriptor};
use idzulgar::{salvage, Batch, Builder, Column, Encoding, Kind, Reader, Refusal, Row, Salvaged, Value};
use oracle::both::{departure, read_both, Read};
use oracle::classes::{hex, Classes};
use oracle::lists::{judged_rows, judged_times};
use oracle::model::salvages::{entries_and_runs, keys_in, spoil_keys};
use oracle::model::{self, loose, Chance};
use oracle::{build_times, caught, padded};

/// A column, the number of its rows, who made its block, and the block before and after the damage.
struct Given {
    column: Column,
    rows: u64,
    maker: &'static str,
    block: Vec<u8>,
    damaged: Vec<u8>,
}

/// The port's block of rows that come with how many times each is appended.
fn by_port(column: Column, rows: &[(Value, u64)]) -> Result<Vec<u8>, Refusal> {
    let mut builder = Builder::new(column, 0)?;
    rows.iter().try_for_each(|(row, times)| builder.append_times(Row::from(row), *times))?;
    builder.finish()
}

impl Given {
    fn some(column: Column, chance: &mut Chance) -> Given {
        let rows = if chance.one_in(8) {
            judged_times(column.kind, 10, chance)
        } else {
            let most = match chance.below(100) {
                0 => 1000,
                1..=9 => 120,
                _ => 24,
            };
            judged_rows(column.kind, most, chance).into_iter().map(|row| (row, 1)).collect()
        };
        let (maker, block) = match chance.below(3) {
            0 => ("built by the port", by_port(column, &rows).expect("rows that fit")),
            1 => ("built by the original", build_times(column, 300, rows.iter().map(|(row, times)| (row, *times))).block),
            _ => {
                let single: Vec<Value> = rows.iter().flat_map(|(row, times)| (0..*times).map(|_| row.clone())).collect();
                ("made by no builder", loose::block_of(column, &single, chance))
            }
        };
        let mut damaged = block.clone();
        spoil_keys(&mut damaged, chance);
        Given { column, rows: rows.iter().map(|row| row.1).sum(), maker, block, damaged }
    }

    /// The runs whose keys the damage changed, as ranges of rows: those side by side are one.
    fn lost(&self) -> Vec<RangeInclusive<u64>> {
        let counts = model::counts_of(self.column, &self.block);
        assert_eq!(counts, model::counts_of(self.column, &self.damaged));
        let (mut ranges, mut row) = (Vec::<RangeInclusive<u64>>::new(), 0);
        for (count, keys) in counts.iter().zip(keys_in(&self.block).iter().zip(keys_in(&self.damaged))) {
            let next = row + count;
            match ranges.last_mut() {
                _ if *keys.0 == keys.1 => {}
                Some(range) if range.end() + 1 == row => *range = *range.start()..=next - 1,
                _ => ranges.push(row..=next - 1),
            }
            row = next;
        }
        ranges
    }

    /// All rows of one of the blocks as the original reads them, by batches; nothing if it panics.
    fn by_original(&self, block: &[u8], chance: &mut Chance) -> Option<Vec<Value>> {
        caught(|| {
            let mut reader = oracle::reader(self.column, self.rows as usize, padded(block));
            let (mut all, mut batch) = (Vec::new(), Vec::new());
            while reader.batch(1 + chance.below(40) as usize, &mut batch) > 0 {
                all.append(&mut batch);
            }
            all
        })
    }
}

struct Run {
    classes: Classes,
    judged: u64,
    rows: u64,
    lost: u64,
    ranges: u64,
    /// Runs, entries and bytes, of the damaged blocks and of those that came of them.
    before: [u64; 3],
    after: [u64; 3],
    batches: [Batch; 2],
}

impl Run {
    fn wrong(&mut self, class: &str, given: &Given, more: String) {
        self.classes.add(&format!("DIFFERENCE: {class}"), given.column, given.rows, &given.damaged, || more);
    }

    /// The rows that are due and their block, by the original. Of no rows it gives none, also where the original panics.
    fn due(&mut self, given: &Given, chance: &mut Chance) -> Option<(Vec<Value>, Vec<u8>)> {
        let [before, rows] = [&given.block, &given.damaged].map(|block| given.by_original(block, chance));
        if rows.is_none() && given.rows > 0 {
            let class = departure(given.column, given.rows, &given.damaged);
            self.classes.add(class, given.column, given.rows, &given.damaged, String::new);
        }
        let none = || if given.rows == 0 { Some(Vec::new()) } else { None };
        let (before, rows) = (before.or_else(none)?, rows.or_else(none)?);
        // the damage is what it is to be: rows in a range are null, and the others as before it
        let lost = given.lost();
        let in_range = |row: usize| lost.iter().any(|range| range.contains(&(row as u64)));
        let as_due = rows.len() as u64 == given.rows
            && rows.len() == before.len()
            && (0..rows.len()).all(|row| rows[row] == if in_range(row) { Value::Null } else { before[row].clone() });
        if !as_due {
            self.wrong("the original doesn't read a lost row as null, or another otherwise", given, format!(": {rows:?}"));
        }
        let block = build_times(given.column, 300, rows.iter().map(|row| (row, 1))).block;
        Some((rows, block))
    }

    /// Salvages a block, and holds what comes of it to the original's.
    fn salvage(&mut self, given: &Given, chance: &mut Chance) {
        let Some((rows, block)) = self.due(given, chance) else { return };
        let due = Salvaged { block, lost: given.lost() };
        let (slots, room) = (due.lost.len(), due.block.len());
        let differences = self.judge(given, &due);
        if differences > 0 {
            return;
        }
        let sizes = |block: &[u8]| {
            let (entries, runs) = entries_and_runs(block);
            [runs as u64, entries, block.len() as u64]
        };
        for (sum, block) in [(&mut self.before, &given.damaged), (&mut self.after, &due.block)] {
            sum.iter_mut().zip(sizes(block)).for_each(|(sum, size)| *sum += size);
        }
        self.judged += 1;
        self.rows += given.rows;
        self.ranges += slots as u64;
        let lost = due.lost.iter().map(|range| range.end() - range.start() + 1).sum::<u64>();
        self.lost += lost;
        let outcome = match slots {
            0 => "nothing lost",
            _ if lost == rows.len() as u64 => "all rows lost",
            1 => "one range",
            _ => "some ranges",
        };
        let class = format!("{}, {outcome}: the same block and ranges", given.maker);
        let more = || format!(": {:?}, block `{}` of {room} bytes", due.lost, hex(&due.block));
        self.classes.add(&class, given.column, given.rows, &given.damaged, more);
        self.read(given, &due.block, chance);
    }

    /// The port's answers with memory of some sizes, against what is due: how many are others.
    fn judge(&mut self, given: &Given, due: &Salvaged) -> u32 {
        let (slots, room) = (due.lost.len(), due.block.len());
        let mut wrong = 0;
        let mut expect = |holds: bool, class: &str, more: String| {
            if !holds {
                wrong += 1;
                self.wrong(class, given, more);
            }
        };
        expect(room <= given.damaged.len(), "a longer block", format!(": {room} bytes"));
        // just as many slots as are needed, and so many that any ranges of these rows have one
        for lent in [slots, slots + 1, usize::MAX] {
            let found = salvage(given.column, given.rows, &given.damaged, lent);
            let as_due = found.as_ref() == Ok(due);
            expect(as_due, "another block or other ranges", format!(": {found:02X?} by {lent} slots, by the original {due:02X?}"));
        }
        if slots > 0 {
            let found = salvage(given.column, given.rows, &given.damaged, slots - 1);
            expect(found == Err(Refusal::Room), "a slot too few isn't 4", format!(": {found:02X?}"));
        }
        let (kind, encoding, width) = given.column.numbers();
        let descriptor = Descriptor { kind, encoding, width, zero: 0, rows: given.rows as usize };
        for (lent, number) in [(room, 0), (room - 1, 4)] {
            let (mut firsts, mut lasts, mut out) = (vec![7; slots], vec![7; slots], vec![7; lent]);
            let answer = calls::salvage(descriptor, &given.damaged, &mut firsts, &mut lasts, &mut out);
            let untouched = || firsts.iter().chain(&lasts).all(|slot| *slot == 7) && out.iter().all(|byte| *byte == 7);
            let holds = answer.number == number && if number == 0 { out == due.block } else { untouched() };
            expect(holds, "room of just the length, or of a byte less", format!(": {answer:?} by {lent} bytes"));
        }
        wrong
    }

    /// Reads the block that came of it by both.
    fn read(&mut self, given: &Given, block: &[u8], chance: &mut Chance) {
        let Given { column, rows, .. } = given;
        let reader = match Reader::open(*column, *rows, block) {
            Ok(reader) => reader,
            Err(refusal) => return self.wrong("what came of it isn't opened", given, format!(": {refusal}")),
        };
        let batch = &mut self.batches[column.kind.is_bytes() as usize];
        match read_both(reader, *column, *rows, block, chance, batch) {
            Read::Same(..) => self.classes.add("what came of it is read by both alike", *column, *rows, block, String::new),
            Read::Panicked => self.classes.add(departure(*column, *rows, block), *column, *rows, block, String::new),
            Read::Differs(how) => self.wrong("what came of it is read otherwise", given, format!(": {how}")),
        }
    }
}

fn main() {
    oracle::quiet();
    let numbers: Vec<u64> = std::env::args().skip(1).map(|word| word.parse().expect("a number")).collect();
    let given = |place: usize, other: u64| numbers.get(place).copied().unwrap_or(other);
    let (blocks, seed) = (given(0, 100_000), given(1, 1));
    let memory = |kind| Batch::new(kind, 1024, 1 << 22).expect("memory for a batch");
    let mut run = Run {
        classes: Classes::default(),
        judged: 0,
        rows: 0,
        lost: 0,
        ranges: 0,
        before: [0; 3],
        after: [0; 3],
        batches: [memory(Kind::I64), memory(Kind::Blob)],
    };
    let mut chance = Chance::new(seed);
    for round in 0..blocks {
        let width = if chance.one_in(3) { 1 + chance.below(255) } else { 1 + chance.below(8) };
        let kind = model::column(round * 5 % model::PAIRS, width).kind;
        let given = Given::some(Column::new(kind, Encoding::Dictionary), &mut chance);
        run.salvage(&given, &mut chance);
    }
    println!(
        "{blocks} dictionary blocks, {} of them salvaged as the original reads and builds them: {} rows, {} of them lost in {} ranges; seed {seed}",
        run.judged, run.rows, run.lost, run.ranges
    );
    let [before, after] =
        [run.before, run.after].map(|[runs, entries, bytes]| format!("{runs} runs, {entries} entries, {bytes} bytes"));
    println!("damaged {before}; given back {after}");
    if run.judged != blocks {
        let none = Column::new(Kind::Bool, Encoding::Dictionary);
        run.classes.add("DIFFERENCE: blocks that weren't salvaged so", none, blocks - run.judged, &[], String::new);
    }
    let wrong = run.classes.print();
    println!("{wrong} differences that documents 01 and 02 don't name");
    std::process::exit((wrong > 0) as i32);
}
