//! The original's blocks in sheet files. It has no such file, so the port writes it and opens the columns, and the original reads the same
//! blocks by themselves.
//!
//!     sheets [FILES [SEED]]
//!
//! Each of FILES sheet files has up to 64 columns: blocks that the original built from random rows, and sound blocks that no builder makes.
//! The file has to be the one that 02 describes, and each column of it the block that went in; port and original read it through the same
//! random calls. Then one column is damaged, in its entry or in its block: it has to get the number that 02 gives it or, if it is sound all
//! the same, to be read by both alike; and every other column has to be read as before. What differs is counted by class, with the shortest
//! block of each; a class that neither 01 nor 02 names as a departure fails the run.
use idzulgar::{write_sheet, Batch, Column, Encoding, Kind, Sheet};
use oracle::both::{departure, read_both, Read};
use oracle::classes::Classes;
use oracle::lists::{crafted, judged_rows, Spelling};
use oracle::model::sheets::{self, directory_end, Entry, Filed};
use oracle::model::{self, Chance};

struct Run {
    classes: Classes,
    reads: u64,
    calls: u64,
    batches: [Batch; 2],
}

/// A column of rows that the original built, or a sound block that no builder makes.
fn some_filed(chance: &mut Chance) -> Filed {
    let column = model::column(chance.below(model::PAIRS), 1 + chance.below(8));
    if chance.one_in(4) {
        let (block, rows) = crafted(column, Spelling::Shortest, chance);
        return Filed { column, rows, block };
    }
    let rows = judged_rows(column.kind, if chance.one_in(10) { 120 } else { 16 }, chance);
    let block = oracle::build(column, chance.below(300) as usize, &rows).block;
    Filed { column, rows: rows.len() as u64, block }
}

impl Run {
    /// Opens a column of a file by the port and reads it by both; the block is what the original is given.
    fn read_column(&mut self, file: &[u8], j: usize, filed: &Filed, chance: &mut Chance) {
        let Filed { column, rows, block } = filed;
        let sheet = Sheet::new(file);
        let reader = match sheet.column(j) {
            Ok(reader) => reader,
            Err(refusal) => {
                let more = || format!(": column {j} of {}, {refusal}", file[0]);
                return self.classes.add("DIFFERENCE: the port refuses a sound column", *column, *rows, block, more);
            }
        };
        if reader.block() != block {
            self.classes.add("DIFFERENCE: another block than went in", *column, *rows, block, String::new);
        }
        self.reads += 1;
        let batch = &mut self.batches[column.kind.is_bytes() as usize];
        match read_both(reader, *column, *rows, block, chance, batch) {
            Read::Same(calls, _) => {
                self.calls += calls;
                self.classes.add("the same rows from both", *column, *rows, block, String::new);
            }
            Read::Panicked => self.classes.add(departure(*column, *rows, block), *column, *rows, block, String::new),
            Read::Differs(how) => self.classes.add("DIFFERENCE: other answers", *column, *rows, block, || format!(": {how}")),
        }
    }

    /// Opens a column that was damaged, and reads it if it is sound all the same.
    fn read_damaged(&mut self, file: &[u8], j: usize, filed: &Filed, chance: &mut Chance) {
        let found = Sheet::new(file).column(j).map(|_| ()).map_err(|refusal| refusal.number());
        match (sheets::found(file, j), found) {
            (Ok((entry, block)), Ok(())) => {
                let column = entry.column().expect("a pair");
                self.read_column(file, j, &Filed { column, rows: entry.rows, block: block.to_vec() }, chance);
            }
            (Err(due), Err(number)) if due == number => {
                self.classes.add(&format!("refused {number:2} here"), filed.column, filed.rows, &filed.block, String::new);
            }
            (due, found) => {
                let more = || format!(": {found:?}, by the model {:?}", due.map(|_| ()));
                self.classes.add("DIFFERENCE: the model gives another number", filed.column, filed.rows, &filed.block, more);
            }
        }
    }
}

/// Changes a byte or two of one column's entry or of its block.
fn damage(file: &mut [u8], j: usize, chance: &mut Chance) {
    let entry = Entry::at(file, j);
    let in_entry = entry.length == 0 || chance.one_in(3);
    let (from, len) = if in_entry { (directory_end(j), 16) } else { (entry.offset as usize, entry.length) };
    for _ in 0..1 + chance.below(2) {
        let at = from + chance.below(len) as usize;
        file[at] = match chance.below(3) {
            0 => chance.number() as u8,
            1 => file[at] ^ 1 << chance.below(8),
            _ => file[at].wrapping_add(1),
        };
    }
}

fn main() {
    oracle::quiet();
    let numbers: Vec<u64> = std::env::args().skip(1).map(|word| word.parse().expect("a number")).collect();
    let given = |place: usize, other: u64| numbers.get(place).copied().unwrap_or(other);
    let (files, seed) = (given(0, 2_000), given(1, 1));
    let memory = |kind| Batch::new(kind, 1024, 1 << 22).expect("memory for a batch");
    let mut run = Run { classes: Classes::default(), reads: 0, calls: 0, batches: [memory(Kind::I64), memory(Kind::Blob)] };
    let mut chance = Chance::new(seed);
    let none = Column::new(Kind::Bool, Encoding::Plain);
    let (mut columns, mut bytes) = (0, 0);
    for _ in 0..files {
        let count = if chance.one_in(8) { 64 } else { chance.below(20) };
        let filed: Vec<Filed> = (0..count).map(|_| some_filed(&mut chance)).collect();
        let lent: Vec<_> = filed.iter().map(|filed| (filed.column, filed.rows, &filed.block[..])).collect();
        let mut file = match write_sheet(&lent) {
            Ok(file) => file,
            Err(refusal) => {
                run.classes.add("DIFFERENCE: the port refuses to write", none, count, &[], || format!(": {refusal}"));
                continue;
            }
        };
        if file != sheets::file_of(&filed) || Sheet::new(&file).columns() != Ok(filed.len()) {
            run.classes.add("DIFFERENCE: the file isn't 02's", none, count, &file, String::new);
        }
        columns += filed.len();
        bytes += file.len();
        for (j, filed) in filed.iter().enumerate() {
            run.read_column(&file, j, filed, &mut chance);
        }
        if count == 0 {
            continue;
        }
        let bad = chance.below(count) as usize;
        damage(&mut file, bad, &mut chance);
        for (j, filed) in filed.iter().enumerate() {
            if j == bad {
                run.read_damaged(&file, j, filed, &mut chance);
            } else {
                run.read_column(&file, j, filed, &mut chance);
            }
        }
    }
    println!(
        "{files} sheet files of {columns} columns and {bytes} bytes, each once more with a damaged column: {} columns read by {} calls, seed {seed}",
        run.reads, run.calls
    );
    let wrong = run.classes.print();
    println!("{wrong} differences that documents 01 and 02 don't name");
    std::process::exit((wrong > 0) as i32);
}
