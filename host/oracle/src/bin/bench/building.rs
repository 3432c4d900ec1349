//! Building. The port builds over areas with room for all rows, made once, and finishes into room made once; the original makes
//! memory of its own for each block, with room for a block of the finished length from the start.
use std::hint::black_box;

use idzulgar::calls::{self, Appended, Areas, BuilderRecord};
use idzulgar::{Column, Encoding, Kind, Value};
use oracle::model::{self, Chance};

use crate::reading::rows_of;
use crate::{best, by_hand, count_second, counted, counted_in, text, COUNT_ROWS, NAMES};

const ROUNDS: usize = 7;

/// An append, by the port or by hand; as a pointer, so that neither is inlined.
type Append = fn(BuilderRecord, Areas<'_>, bool, i64, &[u8]) -> Appended;

const PORT: Append = calls::append;
const BY_HAND: Append = by_hand::append;

/// A row as the calls take it.
pub fn parts(row: &Value) -> (bool, i64, &[u8]) {
    match row {
        Value::Null => (false, 0, &[]),
        Value::Int(value) => (true, *value, &[]),
        Value::Bytes(bytes) => (true, 0, bytes),
        Value::F64(value) => (true, value.to_bits() as i64, &[]),
    }
}

/// The six areas.
#[derive(Clone, PartialEq, Debug)]
pub struct Memory {
    pub items: Vec<u8>,
    pub ends: Vec<u32>,
    pub flags: Vec<u8>,
    pub counts: Vec<u32>,
    pub keys: Vec<i32>,
    pub lens: Vec<u8>,
}

impl Memory {
    /// Room for some rows of a column, with items of a length in all.
    pub fn new(column: Column, rows: usize, len: usize) -> Memory {
        let when = |used: bool, len: usize| if used { len } else { 0 };
        let coded = !matches!(column.encoding, Encoding::Plain | Encoding::Nullable);
        let flagged = matches!(column.encoding, Encoding::Nullable | Encoding::RunLengthNullable);
        Memory {
            items: vec![1; len],
            ends: vec![1; when(matches!(column.kind, Kind::Blob | Kind::String), rows)],
            flags: vec![1; when(flagged, rows.div_ceil(8))],
            counts: vec![1; when(coded, rows)],
            keys: vec![1; when(column.encoding == Encoding::Dictionary, rows)],
            lens: vec![1; when(matches!(column.kind, Kind::Char(_)), rows)],
        }
    }

    #[inline]
    pub fn areas(&mut self) -> Areas<'_> {
        Areas {
            items: &mut self.items,
            ends: &mut self.ends,
            flags: &mut self.flags,
            counts: &mut self.counts,
            keys: &mut self.keys,
            lens: &mut self.lens,
        }
    }
}

/// The length of the items of all rows.
fn items_len(column: Column, rows: &[Value]) -> usize {
    match column.kind {
        Kind::Char(width) => rows.len() * width as usize,
        Kind::Blob | Kind::String => rows.iter().map(|row| parts(row).2.len()).sum(),
        _ => 8 * rows.len(),
    }
}

/// Rows, and memory to build their block in.
struct Case {
    column: Column,
    rows: Vec<Value>,
    target: usize,
    memory: Memory,
    out: Vec<u8>,
}

impl Case {
    fn new(column: Column, rows: Vec<Value>) -> Case {
        let block = oracle::build(column, 1 << 20, &rows).block;
        let memory = Memory::new(column, rows.len(), items_len(column, &rows));
        let mut case = Case { column, rows, target: block.len(), memory, out: vec![1; block.len()] };
        let len = case.port(false);
        assert_eq!((len, &case.out), (block.len(), &block));
        case
    }

    fn named(name: &str, rows: usize, entries: u64) -> Case {
        let (column, rows) = rows_of(name, rows, entries);
        Case::new(column, rows)
    }

    fn create(&self) -> BuilderRecord {
        let (kind, encoding, width) = self.column.numbers();
        calls::create(kind, encoding, width, self.target).builder
    }

    /// Appends all rows.
    fn append_all(&mut self, mut record: BuilderRecord, append: Append, ask: bool) -> BuilderRecord {
        for row in &self.rows {
            let (present, value, item) = parts(row);
            if ask {
                black_box(calls::should_finish(record, present, item.len()));
            }
            let answer = append(record, self.memory.areas(), present, value, item);
            assert_eq!(answer.number, 0);
            record = answer.builder;
        }
        record
    }

    fn finish(&mut self, record: BuilderRecord) -> usize {
        let Memory { items, ends, flags, counts, keys, lens } = &self.memory;
        let answer = calls::finish(record, items, ends, flags, counts, keys, lens, &mut self.out);
        assert_eq!(answer.number, 0);
        answer.len
    }

    fn port(&mut self, ask: bool) -> usize {
        let record = self.append_all(self.create(), black_box(PORT), ask);
        self.finish(record)
    }

    fn original(&mut self, ask: bool) -> usize {
        let mut builder = oracle::builder(self.column, self.target);
        builder.append_all(&self.rows, ask);
        black_box(builder.finish()).len()
    }
}

/// A dictionary that holds all its entries, each used once, as appends would have left it.
fn dictionary(kind: Kind, entries: usize, more: usize) -> (Case, BuilderRecord, Vec<Value>) {
    let entry = |place: usize| match kind {
        Kind::Char(_) | Kind::Blob | Kind::String => text(place as u64, 9),
        _ => Value::Int(place as i64),
    };
    let column = Column::new(kind, Encoding::Dictionary);
    let all: Vec<Value> = (0..entries).map(entry).collect();
    let mut memory = Memory::new(column, entries + more, items_len(column, &all));
    let plain = model::block_of(Column::new(kind, Encoding::Plain), &all);
    let ends = memory.ends.len().min(entries);
    let items = &plain[4 * ends..];
    memory.items[..items.len()].copy_from_slice(items);
    for (end, bytes) in memory.ends.iter_mut().zip(plain.chunks_exact(4)).take(ends) {
        *end = u32::from_le_bytes(bytes.try_into().expect("four bytes"));
    }
    memory.lens.iter_mut().for_each(|len| *len = 9);
    memory.counts.iter_mut().for_each(|count| *count = 1);
    memory.keys.iter_mut().enumerate().for_each(|(place, key)| *key = place as i32 - i32::MAX);
    let (number, encoding, width) = column.numbers();
    let record = BuilderRecord {
        rows: entries,
        runs: entries,
        entries,
        bytes: items.len(),
        last: 1,
        counts: entries,
        ..calls::create(number, encoding, width, 0).builder
    };
    let case = Case { column, rows: Vec::new(), target: 0, memory, out: vec![1; plain.len() + 9 * (entries + more) + 20] };
    (case, record, all)
}

/// The call by hand gives the port's answers, and leaves the areas as it does: else it would be held against something else.
fn check_by_hand() {
    let mut chance = Chance::new(3);
    for round in 0..20_000 {
        let column = model::column(round % model::PAIRS, 1 + chance.below(20));
        let rows = model::some_rows(column.kind, 30, &mut chance);
        // areas that are too short at times
        let room = if chance.one_in(3) { chance.below(30) as usize } else { rows.len() };
        let mut port = Memory::new(column, room, items_len(column, &rows));
        let mut hand = port.clone();
        let (kind, encoding, width) = column.numbers();
        let mut record = calls::create(kind, encoding, width, 0).builder;
        for row in &rows {
            let (present, value, item) = parts(row);
            let value = if chance.one_in(20) { chance.number() as i64 } else { value };
            // a field changed at times, and put back
            let before = record;
            if chance.one_in(10) {
                let field = match chance.below(8) {
                    0 => &mut record.rows,
                    1 => &mut record.runs,
                    2 => &mut record.entries,
                    3 => &mut record.bytes,
                    4 => &mut record.last,
                    5 => &mut record.counts,
                    6 => &mut record.encoding,
                    _ => &mut record.kind,
                };
                *field = if chance.one_in(2) { chance.below(12) as usize } else { chance.number() as usize >> chance.below(64) };
            }
            let answer = calls::append(record, port.areas(), present, value, item);
            assert_eq!(by_hand::append(record, hand.areas(), present, value, item), answer, "{column:?}");
            assert_eq!(hand, port, "{column:?}");
            record = if record == before { answer.builder } else { before };
        }
    }
}

/// Nanoseconds of an append with the loop around it, by the port and by hand.
pub fn append_times(name: &str) -> (f64, f64) {
    let mut case = Case::named(name, COUNT_ROWS, 200);
    let record = case.create();
    let (mut port, mut hand) = (f64::MAX, f64::MAX);
    for _ in 0..5 * ROUNDS {
        port = port.min(best(1, || _ = black_box(case.append_all(record, black_box(PORT), false))) / COUNT_ROWS as f64);
        hand = hand.min(best(1, || _ = black_box(case.append_all(record, black_box(BY_HAND), false))) / COUNT_ROWS as f64);
    }
    (port, hand)
}

/// Instructions of an append, by the port and by hand. The port appends all rows three times in that run, the call by hand twice. A single
/// append of the port is its call for equal rows, with 1.
pub fn append_counts(name: &str) -> (f64, f64) {
    let rows = COUNT_ROWS.to_string();
    let each =
        |function, side, times| counted_in(function, "building", &["append", name, side, &rows]) / (times * COUNT_ROWS) as f64;
    (each("idz_append_times", "port", 3), each("hand_append", "by hand", 2))
}

/// The kinds whose lookup is measured.
const LOOKUPS: [(&str, Kind); 4] = [("i32", Kind::I32), ("i64", Kind::I64), ("char 16", Kind::Char(16)), ("blob", Kind::Blob)];
const LOOKUP_ENTRIES: usize = 4_096;
const LOOKUP_ROWS: usize = 200;

pub fn times() {
    const ROWS: usize = 1_000_000;
    check_by_hand();
    println!("\n| build, 1,000,000 rows | port, ns a row | original, ns a row | original / port |\n|---|---|---|---|");
    for name in NAMES {
        let mut case = Case::named(name, ROWS, 200);
        for (how, ask) in [("", false), (", should_finish before each row", true)] {
            let (mut port, mut original) = (f64::MAX, f64::MAX);
            for _ in 0..ROUNDS {
                port = port.min(best(1, || _ = black_box(case.port(ask))) / ROWS as f64);
                original = original.min(best(1, || _ = black_box(case.original(ask))) / ROWS as f64);
            }
            println!("| {name}{how} | {port:.1} | {original:.1} | {:.2} |", original / port);
        }
    }

    println!("\n| one append with the loop around it, 20,000 rows | port, ns | by hand, ns | by hand / port |\n|---|---|---|---|");
    for name in NAMES {
        let (port, hand) = append_times(name);
        println!("| {name} | {port:.1} | {hand:.1} | {:.2} |", hand / port);
    }

    println!("\n| growth, build | rows | port, ns a row | original, ns a row |\n|---|---|---|---|");
    for name in NAMES {
        for rows in [1_000, 10_000, 100_000, ROWS] {
            let mut case = Case::named(name, rows, 200);
            let (mut port, mut original) = (f64::MAX, f64::MAX);
            for _ in 0..ROUNDS {
                port = port.min(best(1, || _ = black_box(case.port(false))) / rows as f64);
                original = original.min(best(1, || _ = black_box(case.original(false))) / rows as f64);
            }
            println!("| {name} | {rows} | {port:.1} | {original:.1} |");
        }
    }

    println!(
        "\n| append to a dictionary, random entries | entries | port, ns | by hand, ns | original, ns |\n|---|---|---|---|---|"
    );
    for (name, kind) in LOOKUPS {
        for entries in [16, 256, 4_096, 65_536] {
            let time = |side| {
                let (mut run, rows) = entries_case(kind, entries, side);
                best(ROUNDS, &mut run) / rows as f64
            };
            println!("| {name} | {entries} | {:.0} | {:.0} | {:.0} |", time("port"), time("by hand"), time("original"));
        }
    }
}

/// Appends of random entries to a dictionary that holds them all.
fn entries_case(kind: Kind, entries: usize, side: &str) -> (Box<dyn FnMut()>, usize) {
    let rows = 400;
    let (mut case, record, all) = dictionary(kind, entries, rows);
    let mut chance = Chance::new(7);
    case.rows = (0..rows).map(|_| all[chance.below(entries as u64) as usize].clone()).collect();
    if side == "original" {
        let mut builder = oracle::builder(case.column, 0);
        builder.append_all(&all, false);
        let rows = std::mem::take(&mut case.rows);
        let len = rows.len();
        return (Box::new(move || builder.append_all(&rows, false)), len);
    }
    let append = black_box(if side == "port" { PORT } else { BY_HAND });
    (Box::new(move || _ = black_box(case.append_all(record, append, false))), rows)
}

pub fn instructions() {
    check_by_hand();
    let row = |words: &[&str], rows: usize| counted("building", words) / rows as f64;
    let rows = COUNT_ROWS.to_string();
    println!("\n| build, 20,000 rows | port, instructions a row | of it finish | original, instructions a row | original / port |");
    println!("|---|---|---|---|---|");
    for name in NAMES {
        for (how, ask) in [("", "plain"), (", should_finish before each row", "asked")] {
            let port = row(&["build", name, "port", &rows, ask], COUNT_ROWS);
            let finish = row(&["finish", name, &rows], COUNT_ROWS);
            let original = row(&["build", name, "original", &rows, ask], COUNT_ROWS);
            println!("| {name}{how} | {port:.1} | {finish:.1} | {original:.1} | {:.2} |", original / port);
        }
    }

    println!("\n| one append, 20,000 rows | port, instructions | by hand | by hand / port |\n|---|---|---|---|");
    for name in NAMES {
        let (port, hand) = append_counts(name);
        println!("| {name} | {port:.1} | {hand:.1} | {:.2} |", hand / port);
    }

    println!("\n| one append with the loop around it | port, instructions | by hand | by hand / port | original | original / port |\n|---|---|---|---|---|---|");
    for name in NAMES {
        let each = |side| row(&["append", name, side, &rows], COUNT_ROWS);
        let (port, hand, original) = (each("port"), each("by hand"), each("original"));
        println!("| {name} | {port:.1} | {hand:.1} | {:.2} | {original:.1} | {:.2} |", hand / port, original / port);
    }

    println!(
        "\n| lookup over {LOOKUP_ENTRIES} entries, instructions an entry | port | by hand | port / by hand |\n|---|---|---|---|"
    );
    for (name, _) in LOOKUPS {
        let each = |side| {
            let all = counted("building", &["lookup", name, side, "last"]) - counted("building", &["lookup", name, side, "first"]);
            all / (LOOKUP_ROWS * (LOOKUP_ENTRIES - 1)) as f64
        };
        let (port, hand) = (each("port"), each("by hand"));
        println!("| {name} | {port:.2} | {hand:.2} | {:.2} |", port / hand);
    }

    println!("\n| growth, build | rows | port, instructions a row | original, instructions a row |\n|---|---|---|---|");
    for name in NAMES {
        // a million rows of a dictionary take minutes to count
        let most = if name == "blob dictionary" { 100_000 } else { 1_000_000 };
        for rows in [1_000, 10_000, 100_000, 1_000_000].into_iter().filter(|rows| *rows <= most) {
            let each = |side| row(&["build", name, side, &rows.to_string(), "plain"], rows);
            println!("| {name} | {rows} | {:.1} | {:.1} |", each("port"), each("original"));
        }
    }

    println!(
        "\n| append to a dictionary, random entries | entries | port, instructions | by hand | original |\n|---|---|---|---|---|"
    );
    for (name, _) in LOOKUPS {
        for entries in [16, 256, 4_096, 65_536] {
            let each = |side| row(&["entries", name, side, &entries.to_string()], 400);
            println!("| {name} | {entries} | {:.0} | {:.0} | {:.0} |", each("port"), each("by hand"), each("original"));
        }
    }
}

fn kind_of(name: &str) -> Kind {
    LOOKUPS.iter().find(|lookup| lookup.0 == name).expect("a kind").1
}

pub fn count(words: &[&str]) {
    let number = |word: &str| word.parse::<usize>().expect("a number");
    match *words {
        ["build", name, side, rows, ask] => {
            let mut case = Case::named(name, number(rows), 200);
            let ask = ask == "asked";
            count_second(|| _ = black_box(if side == "port" { case.port(ask) } else { case.original(ask) }));
        }
        ["finish", name, rows] => {
            let mut case = Case::named(name, number(rows), 200);
            let record = case.append_all(case.create(), PORT, false);
            count_second(|| _ = black_box(case.finish(record)));
        }
        ["append", name, "original", rows] => {
            let case = Case::named(name, number(rows), 200);
            let mut builder = oracle::builder(case.column, 4 * case.target);
            count_second(|| builder.append_all(&case.rows, false));
        }
        ["append", name, side, rows] => {
            let mut case = Case::named(name, number(rows), 200);
            let record = case.create();
            let append = black_box(if side == "port" { PORT } else { BY_HAND });
            count_second(|| _ = black_box(case.append_all(record, append, false)));
        }
        ["lookup", name, side, place] => {
            let (mut case, record, all) = dictionary(kind_of(name), LOOKUP_ENTRIES, LOOKUP_ROWS);
            let entry = if place == "last" { all.last() } else { all.first() }.expect("an entry").clone();
            case.rows = vec![entry; LOOKUP_ROWS];
            let append = black_box(if side == "port" { PORT } else { BY_HAND });
            count_second(|| _ = black_box(case.append_all(record, append, false)));
        }
        ["entries", name, side, entries] => {
            let (run, _) = entries_case(kind_of(name), number(entries), side);
            count_second(run);
        }
        _ => panic!("no such count"),
    }
}
