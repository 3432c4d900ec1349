//! Rows and blocks that the programs draw from, beside those of the model.
use idzulgar::{Column, Encoding, Kind, Value};

use crate::model::{self, Chance};

/// How the run counts of a made-up block are spelled: each in as many bytes as needed, or one in three in more of them.
#[derive(Clone, Copy, PartialEq)]
pub enum Spelling {
    Shortest,
    SomeLonger,
}

/// A count's bytes.
fn spelled(count: u64, spelling: Spelling, chance: &mut Chance) -> Vec<u8> {
    let least = (1..5).find(|len| count < 1 << (7 * len)).unwrap_or(5);
    let longer = spelling == Spelling::SomeLonger && chance.one_in(3);
    let len = if longer { least + chance.below(6 - least) } else { least };
    (0..len).map(|place| (count >> (7 * place)) as u8 % 128 + if place + 1 < len { 128 } else { 0 }).collect()
}

/// A run-length block of random counts over some stored items, and its number of rows.
fn crafted_runs(items: u64, inner: &[u8], spelling: Spelling, chance: &mut Chance) -> (Vec<u8>, u64) {
    const TELLING: [u64; 10] = [1, 127, 128, 16_383, 16_384, 1 << 21, 1 << 28, 0xEFFF_FFFF, 0xF000_0000, 0xFFFF_FFFF];
    if items == 0 {
        return (Vec::new(), 0);
    }
    let large = chance.one_in(2);
    let (mut n, mut counts) = (0, Vec::new());
    for _ in 0..items {
        let count = if large { TELLING[chance.below(10) as usize] } else { 1 + chance.below(9) };
        n += count;
        counts.extend(spelled(count, spelling, chance));
    }
    let mut block = (items as u32).to_le_bytes().to_vec();
    block.extend((counts.len() as u32).to_le_bytes());
    block.extend(counts);
    block.extend(inner);
    (block, n)
}

/// A block that no builder makes, and its number of rows: runs that could be joined, counts of any size, nulls over items, unused bits set,
/// bool bytes above 1, entries that are equal or that no key names. With each count in as many bytes as needed it is sound.
pub fn crafted(column: Column, spelling: Spelling, chance: &mut Chance) -> (Vec<u8>, u64) {
    let plain = Column::new(column.kind, Encoding::Plain);
    let rows: Vec<Value> = model::some_rows(column.kind, 12, chance);
    let items = rows.len() as u64;
    let mut block = model::block_of(plain, &rows);
    if column.kind == Kind::Bool {
        block.iter_mut().for_each(|byte| *byte = if chance.one_in(2) { *byte } else { chance.number() as u8 });
    }
    let with_flags = |mut block: Vec<u8>, chance: &mut Chance| {
        block.extend((0..items.div_ceil(8)).map(|_| chance.number() as u8));
        block.extend((items.div_ceil(8) as u32).to_le_bytes());
        block
    };
    match column.encoding {
        Encoding::Plain => (block, items),
        Encoding::Nullable => (with_flags(block, chance), items),
        Encoding::RunLength => crafted_runs(items, &block, spelling, chance),
        Encoding::RunLengthNullable => {
            let inner = with_flags(block, chance);
            crafted_runs(items, &inner, spelling, chance)
        }
        Encoding::Dictionary => {
            let runs = chance.below(12);
            let keys: Vec<u8> = (0..runs).flat_map(|_| (chance.below(items + 1) as i32 + i32::MIN).to_le_bytes()).collect();
            let (keys, n) = crafted_runs(runs, &keys, spelling, chance);
            let mut all = (keys.len() as u64).to_be_bytes().to_vec();
            all.extend((items as u32).to_be_bytes());
            all.extend(keys);
            all.extend(block);
            (all, n)
        }
    }
}

/// A block with a byte above 127 changed, if it has one (of a text, a count or a key), to one that starts, goes on or has no place in a
/// character.
pub fn text_damaged(block: &[u8], chance: &mut Chance) -> Vec<u8> {
    const TELLING: [u8; 12] = [0x00, b'a', 0x80, 0xBF, 0xC0, 0xC2, 0xE0, 0xED, 0xF0, 0xF4, 0xF5, 0xFF];
    let mut block = block.to_vec();
    let above: Vec<usize> = (0..block.len()).filter(|at| block[*at] > 127).collect();
    if let Some(at) = above.get(chance.below(above.len().max(1) as u64) as usize) {
        block[*at] = TELLING[chance.below(12) as usize];
    }
    block
}

/// Rows as the model draws them; those of char and string are text. Of floats the list has no NaN and at most one of the two zeros: on
/// such the original judges, which takes the zeros for equal, and every NaN for every other.
pub fn judged_rows(kind: Kind, most: u64, chance: &mut Chance) -> Vec<Value> {
    let zero = if chance.one_in(2) { 0.0 } else { -0.0 };
    let judged = |row| match row {
        Value::F64(value) if value == 0.0 => Value::F64(zero),
        Value::F64(value) if value.is_nan() => Value::F64(f64::from_bits(value.to_bits() ^ (1 << 62))),
        other => other,
    };
    model::some_rows(kind, most, chance).into_iter().map(judged).collect()
}

/// Such rows, each with how many times it is appended: at most 300, at times none, and often where a count takes a byte more.
pub fn judged_times(kind: Kind, most: u64, chance: &mut Chance) -> Vec<(Value, u64)> {
    let times = |chance: &mut Chance| match chance.below(8) {
        0 => 0,
        1 => 1,
        2 | 3 => 2 + chance.below(8),
        4 => 120 + chance.below(16),
        5 => 300,
        _ => chance.below(301),
    };
    judged_rows(kind, most, chance).into_iter().map(|row| (row, times(chance))).collect()
}

/// What the original takes for one value and the port for two: the zeros, or NaNs.
#[derive(Clone, Copy, PartialEq)]
pub enum Alike {
    Zeros,
    Nans,
}

/// Floats of which some are alike, and nulls.
pub fn alike_rows(alike: Alike, chance: &mut Chance) -> Vec<Value> {
    const NANS: [u64; 3] = [0x7FF8 << 48, (0x7FF0 << 48) + 1, 0xFFF8 << 48];
    let float = |chance: &mut Chance| match (chance.below(5), alike) {
        (0, _) => Value::Null,
        (1, _) => Value::F64(1.0),
        (_, Alike::Zeros) => Value::F64([0.0, -0.0][chance.below(2) as usize]),
        (_, Alike::Nans) => Value::F64(f64::from_bits(NANS[chance.below(3) as usize])),
    };
    (0..1 + chance.below(6)).map(|_| float(chance)).collect()
}

/// A small alphabet of a kind.
pub fn alphabet(kind: Kind) -> Vec<Value> {
    let texts = |texts: [&str; 3]| texts.map(|text| Value::Bytes(text.as_bytes().to_vec())).to_vec();
    let mut all = match kind {
        Kind::Bool => vec![Value::Int(0), Value::Int(1)],
        Kind::Char(_) => texts(["", "a", "a\0"]),
        Kind::Blob => texts(["", "a", "ab"]),
        Kind::String => texts(["", "é", "a"]),
        Kind::F64 => vec![Value::F64(0.0), Value::F64(1.0), Value::F64(-1.0)],
        _ => vec![Value::Int(0), Value::Int(1), Value::Int(-1)],
    };
    all.push(Value::Null);
    all
}
