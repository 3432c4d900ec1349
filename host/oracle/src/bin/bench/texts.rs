//! Text: what its test costs at opening and in an append, of char 16 and of string, all ASCII, with one item in a hundred that isn't, and with
//! all characters of two bytes. Opening stands beside one sum over the block's bytes, and beside Rust's own test of the same items one by one.
use std::hint::black_box;

use idzulgar::{calls, Column, Encoding, Kind, Value};
use oracle::model::Chance;

use crate::{best, building, count_second, counted, text, COUNT_ROWS};

const ROUNDS: usize = 15;
const MIXES: [&str; 3] = ["all ASCII", "one item in a hundred not", "all of two bytes"];
const KINDS: [&str; 2] = ["char 16", "string"];
const SIDES: [&str; 3] = ["opening", "a sum over the bytes", "from_utf8 item by item"];

fn names() -> impl Iterator<Item = String> {
    KINDS.into_iter().flat_map(|kind| MIXES.map(|mix| format!("{kind}, {mix}")))
}

/// The rows of a case: of a kind and a mix, in a plain block.
pub fn rows_of(name: &str, rows: usize) -> (Column, Vec<Value>) {
    let (kind, mix) = name.split_once(", ").unwrap_or_else(|| panic!("no case {name}"));
    let (kind, longer) = if kind == "string" { (Kind::String, 6) } else { (Kind::Char(16), 12) };
    let mut chance = Chance::new(7);
    let mut row = |_| {
        let ascii = text(chance.below(100_000), 5 + chance.below(longer) as usize);
        let Value::Bytes(mut bytes) = ascii else { return ascii };
        let two = match mix {
            "all ASCII" => 0,
            "one item in a hundred not" => chance.one_in(100) as usize,
            _ => bytes.len() / 2,
        };
        bytes.chunks_exact_mut(2).take(two).for_each(|pair| pair.copy_from_slice("é".as_bytes()));
        Value::Bytes(bytes)
    };
    (Column::new(kind, Encoding::Plain), (0..rows).map(&mut row).collect())
}

struct Case {
    column: Column,
    rows: usize,
    block: Vec<u8>,
}

impl Case {
    fn new(name: &str, rows: usize) -> Case {
        let (column, list) = rows_of(name, rows);
        let case = Case { column, rows, block: oracle::build(column, 1 << 20, &list).block };
        assert!(case.items_are_text());
        case
    }

    fn open(&self) -> bool {
        let (kind, encoding, width) = self.column.numbers();
        calls::open(kind, encoding, width, self.rows, &self.block).number == 0
    }

    fn sum(&self) -> u64 {
        self.block.iter().map(|byte| *byte as u64).sum()
    }

    /// Each item by itself; that of char up to its first NUL.
    fn items_are_text(&self) -> bool {
        if let Kind::Char(width) = self.column.kind {
            let cut = |item: &[u8]| item.iter().position(|byte| *byte == 0).unwrap_or(item.len());
            return self.block.chunks_exact(width as usize).all(|item| std::str::from_utf8(&item[..cut(item)]).is_ok());
        }
        let (ends, data) = self.block.split_at(4 * self.rows);
        let mut from = 0;
        ends.chunks_exact(4).all(|end| {
            let to = u32::from_le_bytes(end.try_into().expect("four bytes")) as usize;
            let item = &data[from..to];
            from = to;
            std::str::from_utf8(item).is_ok()
        })
    }

    fn run(&self, side: &str) {
        match side {
            "opening" => assert!(self.open()),
            "a sum over the bytes" => _ = black_box(self.sum()),
            _ => assert!(self.items_are_text()),
        }
    }
}

pub fn times() {
    const ROWS: usize = 1_000_000;
    println!("\n| opening of text, 1,000,000 rows | block, bytes | opening, microseconds | a sum over the bytes | from_utf8 item by item |");
    println!("|---|---|---|---|---|");
    for name in names() {
        let case = Case::new(&name, ROWS);
        let [open, sum, std] = SIDES.map(|side| best(ROUNDS, || case.run(side)) / 1000.0);
        println!("| {name} | {} | {open:.1} | {sum:.1} | {std:.1} |", case.block.len());
    }
    println!("\n| one append with the loop around it, 20,000 rows | port, ns | by hand, ns | by hand / port |\n|---|---|---|---|");
    for name in names().chain(["blob plain".to_string()]) {
        let (port, hand) = building::append_times(&name);
        println!("| {name} | {port:.1} | {hand:.1} | {:.2} |", hand / port);
    }
}

pub fn instructions() {
    println!("\n| opening of text, 20,000 rows | block, bytes | opening, instructions a byte | a sum over the bytes | from_utf8 item by item |");
    println!("|---|---|---|---|---|");
    for name in names() {
        let bytes = Case::new(&name, COUNT_ROWS).block.len();
        let [open, sum, std] = SIDES.map(|side| counted("texts", &[&name, side]) / bytes as f64);
        println!("| {name} | {bytes} | {open:.2} | {sum:.2} | {std:.2} |");
    }
    println!("\n| one append, 20,000 rows | port, instructions | by hand | by hand / port |\n|---|---|---|---|");
    for name in names().chain(["blob plain".to_string()]) {
        let (port, hand) = building::append_counts(&name);
        println!("| {name} | {port:.1} | {hand:.1} | {:.2} |", hand / port);
    }
}

pub fn count(words: &[&str]) {
    let [name, side] = words else { panic!("a case and a side") };
    let case = Case::new(name, COUNT_ROWS);
    count_second(|| case.run(side));
}
