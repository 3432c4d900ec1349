//! Stores answers of the original for the program `try_replay`, which runs the same commands on the port with no Rust at hand.
//!
//!     replay FOLDER [SEED]
//!
//! Writes FOLDER/stdin, the commands as crates/try_replay/src/main.rt takes them, and FOLDER/stdout, what the original answers: before each
//! row and after the last whether to finish and the estimated size, the block, and the rows that reads give: a skip and then a batch, where
//! the port has one call. Behind those are lists that the original cuts into blocks where its `should_finish` says so, as the importer
//! does. Nothing of the port is run here. Where the original panics nothing is stored.
use std::fmt::Write;

use idzulgar::{Column, Encoding, Kind, Value};
use oracle::lists::{alphabet, crafted, judged_rows, Spelling};
use oracle::model::{self, Chance};
use oracle::{caught, padded};

/// The rows that a read of the program has room for, and the bytes of a block and of the rows that it gives.
const MOST_ROWS: u64 = 300;
const MOST_BYTES: usize = 4000;

/// The lists that are cut into blocks, and the bytes of the rows of each: a row of a dictionary comes to a block of its own.
const LISTS: u64 = 300;
const MOST_CUT: usize = 100;

#[derive(Default)]
struct Script {
    commands: Vec<u8>,
    answers: String,
    blocks: usize,
    rows: usize,
    calls: usize,
}

impl Script {
    /// A number below 255 is one byte; any other is the byte 255 and eight bytes, lowest first.
    fn number(&mut self, number: u64) {
        match u8::try_from(number) {
            Ok(byte) if byte < 255 => self.commands.push(byte),
            _ => {
                self.commands.push(255);
                self.commands.extend(number.to_le_bytes());
            }
        }
    }

    fn bytes(&mut self, bytes: &[u8]) {
        self.number(bytes.len() as u64);
        self.commands.extend(bytes);
    }

    fn column(&mut self, column: Column) {
        let (kind, encoding, width) = column.numbers();
        for number in [kind, encoding, width] {
            self.number(number as u64);
            self.say(format_args!(" {number:x}"));
        }
    }

    fn say(&mut self, words: std::fmt::Arguments<'_>) {
        self.answers.write_fmt(words).expect("a string takes all");
    }

    fn say_bytes(&mut self, bytes: &[u8]) {
        for byte in bytes {
            self.say(format_args!("{byte:02x}"));
        }
    }

    fn say_row(&mut self, row: &Value) {
        match row {
            Value::Null => self.say(format_args!(" null")),
            Value::Int(value) => self.say(format_args!(" {value:x}")),
            Value::F64(value) => self.say(format_args!(" {:x}", value.to_bits())),
            Value::Bytes(bytes) => {
                self.say(format_args!(" ="));
                self.say_bytes(bytes);
            }
        }
    }

    fn fixed(&mut self, bits: u64) {
        self.number(1);
        self.number(bits);
        self.number(0);
    }

    /// Rows that are equal: how many, and one of them.
    fn equal(&mut self, rows: &[Value]) {
        self.number(rows.len() as u64);
        match &rows[0] {
            Value::Null => self.commands.extend([0, 0, 0]),
            Value::Int(value) => self.fixed(*value as u64),
            Value::F64(value) => self.fixed(value.to_bits()),
            Value::Bytes(bytes) => {
                self.commands.extend([1, 0]);
                self.bytes(bytes);
            }
        }
    }

    /// What a builder is made by.
    fn plan(&mut self, column: Column, target: usize) {
        self.column(column);
        self.number(target as u64);
        self.say(format_args!(" {target:x}\n"));
    }

    /// The commands that build rows, of which equal ones are one command, and the answers.
    fn build(&mut self, column: Column, target: usize, rows: &[Value]) -> Vec<u8> {
        let built = oracle::build(column, target, rows);
        self.number(0);
        self.say(format_args!("column"));
        self.plan(column, target);
        let mut place = 0;
        for equal in rows.chunk_by(|a, b| a == b) {
            self.number(1);
            self.equal(equal);
            self.say(format_args!("row"));
            for _ in equal {
                self.say(format_args!(" {} {:x}", built.full[place] as u8, built.estimates[place]));
                place += 1;
            }
            self.say(format_args!("\n"));
        }
        self.number(2);
        self.say(format_args!("end {} {:x}\nblock ", built.full[place] as u8, built.estimates[place]));
        self.say_bytes(&built.block);
        self.say(format_args!("\n"));
        self.blocks += 1;
        self.rows += rows.len();
        built.block
    }

    /// The command that cuts rows into blocks, and the blocks, each behind the number of its rows.
    fn cut(&mut self, column: Column, target: usize, rows: &[Value]) {
        self.number(6);
        self.say(format_args!("list"));
        self.plan(column, target);
        self.number(rows.len() as u64);
        for equal in rows.chunk_by(|a, b| a == b) {
            self.equal(equal);
        }
        for (n, block) in oracle::cut(column, target, rows) {
            self.say(format_args!("cut {n:x} "));
            self.say_bytes(&block);
            self.say(format_args!("\n"));
            self.blocks += 1;
        }
        self.rows += rows.len();
    }

    /// A block that no builder makes.
    fn give(&mut self, block: &[u8]) {
        self.number(5);
        self.bytes(block);
        self.say(format_args!("given {:x}\n", block.len()));
        self.blocks += 1;
    }

    /// The commands that read a block to its end, at its end once more or for some calls, and the answers. The original panics on some
    /// blocks that are sound (docs/DIFFERENCES.md): then nothing is stored, nor where the program has no room for the rows.
    fn read(&mut self, column: Column, n: u64, block: &[u8], chance: &mut Chance) {
        let before = (self.commands.len(), self.answers.len(), self.calls);
        if caught(|| self.read_on(column, n, block, chance)) != Some(true) {
            self.commands.truncate(before.0);
            self.answers.truncate(before.1);
            self.calls = before.2;
        }
    }

    /// Whether the program has room for all that was read.
    fn read_on(&mut self, column: Column, n: u64, block: &[u8], chance: &mut Chance) -> bool {
        let mut original = oracle::reader(column, n as usize, padded(block));
        let mut rows = Vec::new();
        self.number(3);
        self.say(format_args!("open"));
        self.column(column);
        self.number(n);
        self.say(format_args!(" {n:x} left {:x}\n", original.remaining()));
        for _ in 0..3 + chance.below(4) {
            let left = original.remaining() as u64;
            if left == 0 && !chance.one_in(3) {
                return true;
            }
            // rows to pass over, rows to give, or both
            let skip = match chance.below(10) {
                0 => chance.below(left + 1),
                1..=4 => chance.below(left.min(6) + 1),
                _ => 0,
            };
            let size = match chance.below(6) {
                0 | 1 if skip > 0 => 0,
                2 => 1 + chance.below(MOST_ROWS),
                _ => 1 + chance.below(6),
            };
            let given = original.read(skip as usize, size as usize, &mut rows);
            if weight(&rows) > MOST_BYTES {
                return false;
            }
            self.number(4);
            self.number(skip);
            self.number(size);
            self.say(format_args!("read {given:x}:"));
            for row in &rows {
                self.say_row(row);
            }
            self.say(format_args!(" left {:x}\n", original.remaining()));
            self.calls += 1;
        }
        true
    }
}

/// The bytes of the rows, when all are read.
fn weight(rows: &[Value]) -> usize {
    rows.iter().map(|row| if let Value::Bytes(bytes) = row { bytes.len() } else { 8 }).sum()
}

/// Whether a char row is no longer than the width.
fn fits(kind: Kind, row: &Value) -> bool {
    match (kind, row) {
        (Kind::Char(width), Value::Bytes(bytes)) => bytes.len() <= width as usize,
        _ => true,
    }
}

/// The rows of a small alphabet that a kind has.
fn letters_of(kind: Kind) -> Vec<Value> {
    alphabet(kind).into_iter().filter(|row| fits(kind, row)).collect()
}

/// A list over letters, of one row at least.
fn some_letters(letters: &[Value], most: u64, chance: &mut Chance) -> Vec<Value> {
    (0..1 + chance.below(most)).map(|_| letters[chance.below(letters.len() as u64) as usize].clone()).collect()
}

/// Lists of every kind, two in three for dictionaries, the others for the other encodings in turn: over letters, or by chance.
fn cut_lists(script: &mut Script, chance: &mut Chance) {
    let kinds = model::PAIRS / 5;
    for round in 0..LISTS {
        let (kind, turn) = (round % kinds, round / kinds);
        let encoding = if turn % 3 == 2 { turn / 3 % 4 } else { 4 };
        let column = model::column(5 * kind + encoding, 1 + chance.below(8));
        let most = if column.encoding == Encoding::Dictionary { 10 } else { 24 };
        let target = if chance.one_in(6) { chance.below(5000) } else { chance.below(50) } as usize;
        let mut rows = some_letters(&letters_of(column.kind), most, chance);
        if chance.one_in(2) {
            rows = judged_rows(column.kind, most, chance);
        }
        while weight(&rows) > MOST_CUT {
            rows.pop();
        }
        script.cut(column, target, &rows);
    }
}

fn main() {
    oracle::quiet();
    let words: Vec<String> = std::env::args().skip(1).collect();
    let folder = words.first().expect("replay FOLDER [SEED]");
    let seed = words.get(1).map_or(1, |word| word.parse().expect("a seed"));
    let mut chance = Chance::new(seed);
    let mut script = Script::default();
    for pair in 0..model::PAIRS {
        for round in 0..24 {
            let column = model::column(pair, if chance.one_in(12) { 9 + chance.below(40) } else { 1 + chance.below(8) });
            let letters = letters_of(column.kind);
            // short lists over few letters; lists by chance; one with a long run; sound blocks that no builder makes
            let rows = match round {
                0 => vec![],
                1..=8 => some_letters(&letters, 6, &mut chance),
                9..=18 => judged_rows(column.kind, 14, &mut chance),
                19 => {
                    let mut rows = vec![letters[1].clone(); 120 + chance.below(12) as usize];
                    rows.extend([letters[0].clone(), letters[letters.len() - 1].clone(), letters[0].clone()]);
                    rows
                }
                _ => {
                    let (block, n) = crafted(column, Spelling::Shortest, &mut chance);
                    if block.len() <= MOST_BYTES {
                        script.give(&block);
                        script.read(column, n, &block, &mut chance);
                    }
                    continue;
                }
            };
            if weight(&rows) > MOST_BYTES {
                continue;
            }
            let target = if chance.one_in(4) { chance.below(5000) } else { chance.below(80) } as usize;
            let block = script.build(column, target, &rows);
            if !rows.is_empty() || matches!(column.encoding, Encoding::Plain | Encoding::Nullable) {
                script.read(column, rows.len() as u64, &block, &mut chance);
            }
        }
    }
    // by a chance of their own: what stands before them is as it would be without them
    cut_lists(&mut script, &mut Chance::new(!seed));
    std::fs::write(format!("{folder}/stdin"), &script.commands).expect("stdin is written");
    std::fs::write(format!("{folder}/stdout"), &script.answers).expect("stdout is written");
    println!(
        "{} blocks, {} rows appended, {} reads; {} bytes of commands, {} of answers",
        script.blocks,
        script.rows,
        script.calls,
        script.commands.len(),
        script.answers.len()
    );
}
