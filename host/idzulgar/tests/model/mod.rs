//! A reading of documents 01 and 02 in plain Rust, for the tests: the block of a list of rows, opening's number, the rows of a sound
//! block, a read's answer on any record and any bytes, one row by its number, sheet files, the rows in which two blocks differ, and what is
//! given back of a dictionary block with unknown keys. It is written from the documents' words, takes no care for speed, and shares no code
//! with the library.
#![allow(dead_code)]

pub mod differences;
pub mod held;
pub mod loose;
pub mod memory;
pub mod reads;
pub mod salvages;
pub mod sheets;

use idzulgar::{Column, Encoding, Kind, Value};

fn u32_at(b: &[u8], at: usize) -> u64 {
    u32::from_le_bytes([b[at], b[at + 1], b[at + 2], b[at + 3]]) as u64
}

/// The bytes of a fixed kind's or char's item.
fn width(kind: Kind) -> usize {
    match kind {
        Kind::Bool => 1,
        Kind::I16 => 2,
        Kind::I32 | Kind::Date => 4,
        Kind::I64 | Kind::Timestamp | Kind::TimestampTz | Kind::Interval | Kind::F64 => 8,
        Kind::Char(width) => width as usize,
        Kind::Blob | Kind::String => 0,
    }
}

/// Whether items are laid out with ends.
fn by_ends(kind: Kind) -> bool {
    matches!(kind, Kind::Blob | Kind::String)
}

fn is_big(kind: Kind) -> bool {
    matches!(kind, Kind::Date | Kind::Timestamp | Kind::TimestampTz | Kind::Interval)
}

// ---- text

/// The number of the character at the start of some bytes, and the bytes behind it: its shortest spelling, no surrogate, none above the
/// last. Nothing where there is none.
fn character(b: &[u8]) -> Option<(u32, &[u8])> {
    let (first, rest) = b.split_first()?;
    let (mut number, more, least) = match first {
        0x00..=0x7F => (*first as u32, 0, 0),
        0xC0..=0xDF => (*first as u32 & 0x1F, 1, 0x80),
        0xE0..=0xEF => (*first as u32 & 0x0F, 2, 0x800),
        0xF0..=0xF7 => (*first as u32 & 0x07, 3, 0x10000),
        _ => return None,
    };
    for byte in rest.get(..more)? {
        if byte & 0xC0 != 0x80 {
            return None;
        }
        number = number << 6 | (byte & 0x3F) as u32;
    }
    let good = number >= least && number <= 0x10FFFF && !(0xD800..=0xDFFF).contains(&number);
    good.then_some((number, &rest[more..]))
}

/// Whether bytes are text.
pub fn is_text(mut b: &[u8]) -> bool {
    while let Some((_, rest)) = character(b) {
        b = rest;
    }
    b.is_empty()
}

// ---- the block of a list of rows

fn item(kind: Kind, row: &Value) -> Vec<u8> {
    match (kind, row) {
        (Kind::Char(width), Value::Bytes(bytes)) => {
            let mut item = bytes.clone();
            item.resize(width as usize, 0);
            item
        }
        (Kind::Blob | Kind::String, Value::Bytes(bytes)) => bytes.clone(),
        (Kind::Blob | Kind::String, _) => Vec::new(),
        (_, Value::Int(value)) if is_big(kind) => value.to_be_bytes()[8 - width(kind)..].to_vec(),
        (_, Value::Int(value)) => value.to_le_bytes()[..width(kind)].to_vec(),
        (_, Value::F64(value)) => value.to_bits().to_le_bytes().to_vec(),
        _ => vec![0; width(kind)],
    }
}

fn plain_of(kind: Kind, rows: &[Value]) -> Vec<u8> {
    let data: Vec<Vec<u8>> = rows.iter().map(|row| item(kind, row)).collect();
    let mut block = Vec::new();
    if by_ends(kind) {
        let mut end = 0;
        for bytes in &data {
            end += bytes.len() as u32;
            block.extend(end.to_le_bytes());
        }
    }
    block.extend(data.concat());
    block
}

fn nullable_of(kind: Kind, rows: &[Value]) -> Vec<u8> {
    let mut bitmap = vec![0u8; rows.len().div_ceil(8)];
    for (place, row) in rows.iter().enumerate() {
        bitmap[place / 8] |= ((*row != Value::Null) as u8) << (place % 8);
    }
    let mut block = plain_of(kind, rows);
    block.extend(&bitmap);
    block.extend((bitmap.len() as u32).to_le_bytes());
    block
}

/// The block of some runs, of which there is one at least: how many rows each has, and the block of their items.
fn block_of_runs(counts: &[u64], inner: &[u8]) -> Vec<u8> {
    let mut spelled = Vec::new();
    for count in counts {
        let mut rest = *count;
        while rest >= 128 {
            spelled.push((rest % 128 + 128) as u8);
            rest /= 128;
        }
        spelled.push(rest as u8);
    }
    let mut block = (counts.len() as u32).to_le_bytes().to_vec();
    block.extend((spelled.len() as u32).to_le_bytes());
    block.extend(spelled);
    block.extend(inner);
    block
}

fn run_length_of(rows: &[Value], inner: impl Fn(&[Value]) -> Vec<u8>) -> Vec<u8> {
    if rows.is_empty() {
        return Vec::new();
    }
    let mut runs: Vec<(Value, u64)> = Vec::new();
    for row in rows {
        match runs.last_mut() {
            Some((last, count)) if last == row && *count < 4294967295 => *count += 1,
            _ => runs.push((row.clone(), 1)),
        }
    }
    let (items, counts): (Vec<Value>, Vec<u64>) = runs.into_iter().unzip();
    block_of_runs(&counts, &inner(&items))
}

fn dictionary_of(kind: Kind, rows: &[Value]) -> Vec<u8> {
    let mut entries: Vec<Value> = Vec::new();
    let mut keys = Vec::new();
    for row in rows {
        if *row == Value::Null {
            keys.push(Value::Int(-2147483648));
            continue;
        }
        let place = entries.iter().position(|entry| entry == row).unwrap_or_else(|| {
            entries.push(row.clone());
            entries.len() - 1
        });
        keys.push(Value::Int(-2147483647 + place as i64));
    }
    let keys = run_length_of(&keys, |items| plain_of(Kind::I32, items));
    block_of_keys(&keys, entries.len(), &plain_of(kind, &entries))
}

/// The dictionary block of a key block, and of the entries' number and block.
fn block_of_keys(keys: &[u8], entries: usize, inner: &[u8]) -> Vec<u8> {
    let mut block = (keys.len() as u64).to_be_bytes().to_vec();
    block.extend((entries as u32).to_be_bytes());
    block.extend(keys);
    block.extend(inner);
    block
}

/// The block of a list of rows.
pub fn block_of(column: Column, rows: &[Value]) -> Vec<u8> {
    let kind = column.kind;
    match column.encoding {
        Encoding::Plain => plain_of(kind, rows),
        Encoding::Nullable => nullable_of(kind, rows),
        Encoding::RunLength => run_length_of(rows, |items| plain_of(kind, items)),
        Encoding::RunLengthNullable => run_length_of(rows, |items| nullable_of(kind, items)),
        Encoding::Dictionary => dictionary_of(kind, rows),
    }
}

// ---- opening's number

/// Whether item `place` is text, where it has to be: of char up to its first NUL, of string whole.
fn is_text_at(kind: Kind, n: u64, b: &[u8], place: usize) -> bool {
    match plain_row(kind, n, b, place) {
        Value::Bytes(bytes) => kind == Kind::Blob || is_text(&bytes),
        _ => true,
    }
}

fn plain_number(kind: Kind, n: u64, b: &[u8]) -> u8 {
    match lengths_number(kind, n, b) {
        0 if (0..n as usize).all(|place| is_text_at(kind, n, b, place)) => 0,
        0 => 17,
        number => number,
    }
}

fn lengths_number(kind: Kind, n: u64, b: &[u8]) -> u8 {
    let len = b.len() as u64;
    if !by_ends(kind) {
        return if len == n * width(kind) as u64 { 0 } else { 11 };
    }
    if len < 4 * n {
        return 10;
    }
    let data = len - 4 * n;
    let mut last = 0;
    for place in 0..n as usize {
        let end = u32_at(b, 4 * place);
        if end < last || end > data {
            return 14;
        }
        last = end;
    }
    if last == data {
        0
    } else {
        11
    }
}

fn nullable_number(kind: Kind, n: u64, b: &[u8]) -> u8 {
    if b.len() < 4 {
        return 10;
    }
    let bitmap = u32_at(b, b.len() - 4);
    if bitmap != n.div_ceil(8) {
        return 11;
    }
    if (b.len() as u64) < bitmap + 4 {
        return 10;
    }
    plain_number(kind, n, &b[..b.len() - 4 - bitmap as usize])
}

/// A count, and the bytes after it; nothing for a bad one.
fn count(b: &[u8]) -> Option<(u64, &[u8])> {
    let mut value = 0;
    for (place, byte) in b.iter().take(5).enumerate() {
        if place == 4 && *byte > 15 {
            return None;
        }
        value += (*byte as u64 % 128) << (7 * place);
        if *byte < 128 {
            // behind other bytes a last one of 0 is one more than needed
            let needed = *byte > 0 || place == 0;
            return needed.then_some((value, &b[place + 1..]));
        }
    }
    None
}

fn run_length_number(n: u64, b: &[u8], inner: impl Fn(u64, &[u8]) -> u8) -> u8 {
    if b.is_empty() {
        return if n == 0 { 0 } else { 16 };
    }
    if b.len() < 8 {
        return 10;
    }
    let (runs, len) = (u32_at(b, 0), u32_at(b, 4));
    if runs > 1048576 {
        return 3;
    }
    if runs == 0 {
        return 13;
    }
    if len > b.len() as u64 - 8 {
        return 10;
    }
    let (mut counts, rest) = b[8..].split_at(len as usize);
    let mut sum = 0;
    for _ in 0..runs {
        if counts.is_empty() {
            return 13;
        }
        let Some((value, after)) = count(counts) else { return 12 };
        if value == 0 {
            return 13;
        }
        sum += value;
        counts = after;
    }
    if !counts.is_empty() {
        return 13;
    }
    if sum != n {
        return 16;
    }
    inner(runs, rest)
}

/// The key block and the entries' block, their lengths having been tested.
fn dictionary_parts(b: &[u8]) -> (&[u8], u64, &[u8]) {
    let len = u64::from_be_bytes(b[..8].try_into().unwrap()) as usize;
    let entries = u32::from_be_bytes(b[8..12].try_into().unwrap()) as u64;
    (&b[12..12 + len], entries, &b[12 + len..])
}

/// The stored items of a sound run-length block, and of each how often it comes.
fn runs_of(b: &[u8]) -> (Vec<u64>, &[u8]) {
    if b.is_empty() {
        return (Vec::new(), b);
    }
    let (mut counts, rest) = b[8..].split_at(u32_at(b, 4) as usize);
    let mut all = Vec::new();
    while let Some((value, after)) = count(counts) {
        all.push(value);
        counts = after;
    }
    (all, rest)
}

/// Whether a key is neither null's nor an entry's.
fn is_unknown(key: i32, entries: u64) -> bool {
    key != -2147483648 && key as i64 + 2147483647 >= entries as i64
}

/// The keys of a sound run-length block of them, one a run.
fn keys_of(keys: &[u8]) -> Vec<i32> {
    runs_of(keys).1.chunks(4).map(|key| i32::from_le_bytes(key.try_into().unwrap())).collect()
}

/// What the rules on keys give: 15, or 0 if they are taken for good.
#[derive(Clone, Copy, PartialEq)]
enum Keys {
    Asked,
    TakenForGood,
}

fn dictionary_number(kind: Kind, n: u64, b: &[u8], rule: Keys) -> u8 {
    if b.len() < 12 {
        return 10;
    }
    if u32::from_be_bytes(b[8..12].try_into().unwrap()) > 65536 {
        return 3;
    }
    if u64::from_be_bytes(b[..8].try_into().unwrap()) > b.len() as u64 - 12 {
        return 10;
    }
    let (keys, entries, rest) = dictionary_parts(b);
    let number = run_length_number(n, keys, |runs, inner| plain_number(Kind::I32, runs, inner));
    if number != 0 {
        return number;
    }
    if rule == Keys::Asked && keys_of(keys).iter().any(|key| is_unknown(*key, entries)) {
        return 15;
    }
    plain_number(kind, entries, rest)
}

/// Opening's number for a column that is one of the pairs.
pub fn open_number(column: Column, n: u64, b: &[u8]) -> u8 {
    let kind = column.kind;
    if kind == Kind::Char(0) {
        return 1;
    }
    let most = match column.encoding {
        Encoding::Plain | Encoding::Nullable => 1048576,
        _ => 281474976710655,
    };
    if b.len() > 16777216 || n > most {
        return 3;
    }
    match column.encoding {
        Encoding::Plain => plain_number(kind, n, b),
        Encoding::Nullable => nullable_number(kind, n, b),
        Encoding::RunLength => run_length_number(n, b, |runs, inner| plain_number(kind, runs, inner)),
        Encoding::RunLengthNullable => run_length_number(n, b, |runs, inner| nullable_number(kind, runs, inner)),
        Encoding::Dictionary => dictionary_number(kind, n, b, Keys::Asked),
    }
}

// ---- the rows of a sound block

fn plain_row(kind: Kind, n: u64, b: &[u8], place: usize) -> Value {
    let w = width(kind);
    match kind {
        Kind::Blob | Kind::String => {
            let from = if place == 0 { 0 } else { u32_at(b, 4 * place - 4) as usize };
            let data = &b[4 * n as usize..];
            Value::Bytes(data[from..u32_at(b, 4 * place) as usize].to_vec())
        }
        Kind::Char(_) => Value::Bytes(b[place * w..][..w].iter().copied().take_while(|byte| *byte != 0).collect()),
        Kind::Bool => Value::Int((b[place] != 0) as i64),
        Kind::F64 => Value::F64(f64::from_le_bytes(b[place * w..][..w].try_into().unwrap())),
        _ => {
            let item = &b[place * w..][..w];
            let bits = if is_big(kind) {
                item.iter().fold(0, |all, byte| all << 8 | *byte as i64)
            } else {
                item.iter().rev().fold(0, |all, byte| all << 8 | *byte as i64)
            };
            Value::Int(bits << (64 - 8 * w) >> (64 - 8 * w))
        }
    }
}

fn nullable_row(kind: Kind, n: u64, b: &[u8], place: usize) -> Value {
    let bitmap = b.len() - 4 - n.div_ceil(8) as usize;
    if b[bitmap + place / 8] >> (place % 8) & 1 == 0 {
        return Value::Null;
    }
    plain_row(kind, n, &b[..bitmap], place)
}

/// The first rows of a sound block, at most `most`.
pub fn rows_of(column: Column, n: u64, b: &[u8], most: u64) -> Vec<Value> {
    let kind = column.kind;
    let of_runs = |counts: &[u64], row: &dyn Fn(usize) -> Value| {
        let mut rows = Vec::new();
        for (run, count) in counts.iter().enumerate() {
            let take = (*count).min(most - rows.len() as u64);
            let value = row(run);
            rows.extend((0..take).map(|_| value.clone()));
        }
        rows
    };
    match column.encoding {
        Encoding::Plain => (0..n.min(most)).map(|place| plain_row(kind, n, b, place as usize)).collect(),
        Encoding::Nullable => (0..n.min(most)).map(|place| nullable_row(kind, n, b, place as usize)).collect(),
        Encoding::RunLength => {
            let (counts, inner) = runs_of(b);
            of_runs(&counts, &|run| plain_row(kind, counts.len() as u64, inner, run))
        }
        Encoding::RunLengthNullable => {
            let (counts, inner) = runs_of(b);
            of_runs(&counts, &|run| nullable_row(kind, counts.len() as u64, inner, run))
        }
        Encoding::Dictionary => {
            let (keys, entries, rest) = dictionary_parts(b);
            let (counts, inner) = runs_of(keys);
            of_runs(&counts, &|run| match plain_row(Kind::I32, counts.len() as u64, inner, run) {
                Value::Int(-2147483648) => Value::Null,
                Value::Int(key) => plain_row(kind, entries, rest, (key + 2147483647) as usize),
                _ => Value::Null,
            })
        }
    }
}

// ---- what the tests draw from

/// Numbers by chance, the same for the same seed (splitmix64).
pub struct Chance(u64);

impl Chance {
    pub fn new(seed: u64) -> Self {
        Chance(seed)
    }

    pub fn number(&mut self) -> u64 {
        self.0 = self.0.wrapping_add(0x9E3779B97F4A7C15);
        let mut z = self.0;
        z = (z ^ (z >> 30)).wrapping_mul(0xBF58476D1CE4E5B9);
        z = (z ^ (z >> 27)).wrapping_mul(0x94D049BB133111EB);
        z ^ (z >> 31)
    }

    /// A number below `most`, which is above 0.
    pub fn below(&mut self, most: u64) -> u64 {
        self.number() % most
    }

    pub fn one_in(&mut self, most: u64) -> bool {
        self.below(most) == 0
    }
}

/// The kinds' numbers, and how many pairs of a kind and an encoding there are.
const KINDS: [u64; 12] = [0, 1, 2, 3, 4, 5, 6, 7, 8, 9, 10, 11];
pub const PAIRS: u64 = 5 * KINDS.len() as u64;

/// Every pair of a kind and an encoding, by a number below [`PAIRS`]; char with the given width.
pub fn column(pair: u64, width: u64) -> Column {
    let kind = KINDS[(pair / 5) as usize];
    Column::numbered(kind, pair % 5, if kind == 8 { width } else { 0 }).expect("one of the pairs")
}

/// Text of so many bytes.
fn some_text(len: u64, chance: &mut Chance) -> Value {
    let mut text = String::new();
    while (text.len() as u64) < len {
        let next = match chance.below(10) {
            0 => '\0',
            1 => 'é',
            2 => '\u{7f}',
            3 => ['\u{80}', '\u{7ff}', '\u{800}', '\u{d7ff}', '\u{e000}', '\u{ffff}', '\u{10000}', '\u{10ffff}']
                [chance.below(8) as usize],
            _ => (b'a' + chance.below(4) as u8) as char,
        };
        if text.len() + next.len_utf8() <= len as usize {
            text.push(next);
        }
    }
    Value::Bytes(text.into_bytes())
}

/// A row that isn't null. Char and string rows are text.
fn some_row(kind: Kind, chance: &mut Chance) -> Value {
    let integer = |chance: &mut Chance, bits: u32| {
        let value = match chance.below(6) {
            0 => 0,
            1 => i64::MIN >> (64 - bits),
            2 => i64::MAX >> (64 - bits),
            3 => chance.below(5) as i64 - 2,
            _ => chance.number() as i64,
        };
        Value::Int(value << (64 - bits) >> (64 - bits))
    };
    match kind {
        Kind::Bool => Value::Int(chance.below(2) as i64),
        Kind::I16 => integer(chance, 16),
        Kind::I32 | Kind::Date => integer(chance, 32),
        Kind::Char(width) => {
            let len = match chance.below(4) {
                0 => width as u64,
                1 => 0,
                _ => chance.below(width as u64 + 1),
            };
            some_text(len, chance)
        }
        Kind::Blob | Kind::String => {
            let len = match chance.below(12) {
                0..=1 => 0,
                2 => chance.below(300),
                _ => chance.below(9),
            };
            if kind == Kind::String {
                return some_text(len, chance);
            }
            Value::Bytes((0..len).map(|_| if chance.one_in(3) { 0 } else { chance.number() as u8 }).collect())
        }
        Kind::F64 => Value::F64(some_float(chance)),
        _ => integer(chance, 64),
    }
}

/// A float: a rate, one of those that are not as others are, or any bits.
fn some_float(chance: &mut Chance) -> f64 {
    match chance.below(8) {
        0 => 0.0,
        1 => -0.0,
        2 => [f64::INFINITY, f64::NEG_INFINITY, f64::MIN_POSITIVE / 2.0, f64::MAX][chance.below(4) as usize],
        3 => f64::from_bits([0x7FF8 << 48, 0xFFF8 << 48, (0x7FF8 << 48) + 1, (0x7FF0 << 48) + 1][chance.below(4) as usize]),
        4 | 5 => chance.below(400) as f64 / 1e4,
        _ => f64::from_bits(chance.number()),
    }
}

/// Rows with runs, values that come again and nulls.
pub fn some_rows(kind: Kind, most: u64, chance: &mut Chance) -> Vec<Value> {
    let len = chance.below(most + 1);
    let pool: Vec<Value> = (0..1 + chance.below(6)).map(|_| some_row(kind, chance)).collect();
    let (nulls, fresh, again) = (1 + chance.below(9), 1 + chance.below(12), 1 + chance.below(6));
    let mut rows: Vec<Value> = Vec::new();
    for _ in 0..len {
        let row = match rows.last() {
            Some(last) if !chance.one_in(again) => last.clone(),
            _ if chance.one_in(nulls) => Value::Null,
            _ if chance.one_in(fresh) => some_row(kind, chance),
            _ => pool[chance.below(pool.len() as u64) as usize].clone(),
        };
        rows.push(row);
    }
    rows
}

/// What a block gives back of a row: char is cut at its first NUL, and without flags or keys a null becomes the default.
pub fn stored(column: Column, row: &Value) -> Value {
    match row {
        Value::Null if matches!(column.encoding, Encoding::Plain | Encoding::RunLength) => match column.kind {
            Kind::Char(_) | Kind::Blob | Kind::String => Value::Bytes(Vec::new()),
            Kind::F64 => Value::F64(0.0),
            _ => Value::Int(0),
        },
        Value::Bytes(bytes) if matches!(column.kind, Kind::Char(_)) => {
            Value::Bytes(bytes.iter().copied().take_while(|byte| *byte != 0).collect())
        }
        _ => row.clone(),
    }
}

/// A damaged copy of a block, and a row count to open it with.
pub fn damaged(block: &[u8], n: u64, chance: &mut Chance) -> (Vec<u8>, u64) {
    let mut b = block.to_vec();
    let mut rows = n;
    for _ in 0..1 + chance.below(3) {
        let len = b.len() as u64;
        match chance.below(12) {
            0 => b.truncate(chance.below(len + 1) as usize),
            1 => b.push(chance.number() as u8),
            2 => rows = n.wrapping_add(chance.below(5)).wrapping_sub(2),
            3 if chance.one_in(4) => rows = chance.number() >> chance.below(64),
            4 if len > 0 => {
                b.remove(chance.below(len) as usize);
            }
            5 => b.insert(chance.below(len + 1) as usize, chance.number() as u8),
            6 if len >= 4 => {
                // a field of four bytes near the start or the end takes a telling number
                let at = if chance.one_in(2) { chance.below(len.min(24) - 3) } else { len - 4 };
                let number = match chance.below(8) {
                    0 => 0,
                    1 => 1,
                    2 => u32::MAX,
                    3 => 1048576 + chance.below(2) as u32,
                    4 => 65536 + chance.below(2) as u32,
                    5 => len as u32,
                    _ => chance.below(40) as u32,
                };
                let four = if chance.one_in(2) { number.to_le_bytes() } else { number.to_be_bytes() };
                b[at as usize..at as usize + 4].copy_from_slice(&four);
            }
            7 if len > 0 => b[chance.below(len) as usize] ^= 1 << chance.below(8),
            8 if len > 8 => {
                // varints that are cut, too large or longer than needed
                let at = 8 + chance.below((len - 8).min(20)) as usize;
                b[at] = [0x80, 0xFF, 0x0F, 0x10, 0x00, 0x0E][chance.below(6) as usize];
            }
            9 if len > 0 => {
                let at = chance.below(len) as usize;
                b[at] = b[at].wrapping_add(1);
            }
            _ if len > 0 => b[chance.below(len) as usize] = chance.number() as u8,
            _ => {}
        }
    }
    (b, rows)
}

// ---- what comparisons ask of a sound block

/// The run counts of a sound block; none in encodings without runs.
pub fn counts_of(column: Column, b: &[u8]) -> Vec<u64> {
    match column.encoding {
        Encoding::Plain | Encoding::Nullable => Vec::new(),
        Encoding::RunLength | Encoding::RunLengthNullable => runs_of(b).0,
        Encoding::Dictionary => runs_of(dictionary_parts(b).0).0,
    }
}

/// The first row of each run of equal rows.
fn first_of_runs(rows: &[Value]) -> Vec<Value> {
    rows.iter().enumerate().filter(|(place, row)| *place == 0 || rows[place - 1] != **row).map(|(_, row)| row.clone()).collect()
}

/// The different rows that aren't null, in order of first use.
fn entries_of(rows: &[Value]) -> Vec<Value> {
    let mut entries: Vec<Value> = Vec::new();
    for row in rows {
        if *row != Value::Null && !entries.contains(row) {
            entries.push(row.clone());
        }
    }
    entries
}

/// What a builder stores items of.
fn stored_rows(column: Column, rows: &[Value]) -> Vec<Value> {
    match column.encoding {
        Encoding::Plain | Encoding::Nullable => rows.to_vec(),
        Encoding::RunLength | Encoding::RunLengthNullable => first_of_runs(rows),
        Encoding::Dictionary => entries_of(rows),
    }
}

/// Estimated size of the block of some rows.
pub fn estimate(column: Column, rows: &[Value]) -> usize {
    let stored = stored_rows(column, rows);
    let plain = plain_of(column.kind, &stored).len();
    let items = stored.len();
    match column.encoding {
        Encoding::Plain => plain,
        Encoding::Nullable => plain + items.div_ceil(8),
        Encoding::RunLength => plain + 4 + 2 * items,
        Encoding::RunLengthNullable => plain + items.div_ceil(8) + 4 + 2 * items,
        Encoding::Dictionary => {
            let runs = first_of_runs(rows).len();
            8 + (4 * runs + 4 + 2 * runs) + plain
        }
    }
}

/// Whether to finish before a next row. A dictionary's keys, 4 bytes a run, have a target of their own, and the next row isn't looked at
/// for them.
pub fn should_finish(column: Column, target: usize, key_target: usize, rows: &[Value], next: &Value) -> bool {
    let kind = column.kind;
    let stored = stored_rows(column, rows);
    let bytes: usize = stored.iter().map(|row| item(kind, row).len()).sum();
    let next = match (kind, next) {
        (Kind::Blob | Kind::String, Value::Bytes(next)) => next.len() + 4,
        (Kind::Blob | Kind::String, _) => 4,
        _ => width(kind),
    };
    let flag = matches!(column.encoding, Encoding::Nullable | Encoding::RunLengthNullable) as usize;
    let plain = bytes > 0 && plain_of(kind, &stored).len() + next + flag > target;
    let keys = 4 * first_of_runs(rows).len();
    plain || column.encoding == Encoding::Dictionary && keys > 0 && keys + 4 > key_target
}
