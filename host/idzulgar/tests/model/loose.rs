//! Sound blocks that no builder makes: runs that could be joined, items under a null, unused bits that are set, bool bytes above 1, bytes
//! behind the NUL of a char item, entries that are equal or that no key names. They give back the rows that they were made of, as those of
//! a builder do. And blocks of few runs and many rows.
use idzulgar::{Column, Encoding, Kind, Value};

use super::{block_of_keys, block_of_runs, dictionary_parts, entries_of, nullable_of, plain_of, runs_of, some_row, width, Chance};

/// Items one after another, with other bytes where they read as the same.
fn items_of(kind: Kind, rows: &[Value], chance: &mut Chance) -> Vec<u8> {
    let mut block = plain_of(kind, rows);
    match kind {
        Kind::Bool => block.iter_mut().filter(|byte| **byte != 0).for_each(|byte| *byte = 1 + chance.below(255) as u8),
        Kind::Char(_) => {
            for item in block.chunks_exact_mut(width(kind)) {
                let behind = item.iter_mut().skip_while(|byte| **byte != 0).skip(1);
                behind.for_each(|byte| *byte = if chance.one_in(2) { *byte } else { chance.number() as u8 });
            }
        }
        _ => {}
    }
    block
}

/// The same with bits of presence, and with any items where a row is null.
fn nullable_items_of(kind: Kind, rows: &[Value], chance: &mut Chance) -> Vec<u8> {
    let items: Vec<Value> = rows.iter().map(|row| if *row == Value::Null { some_row(kind, chance) } else { row.clone() }).collect();
    let mut bits: Vec<u8> = (0..rows.len().div_ceil(8)).map(|_| chance.number() as u8).collect();
    for (place, row) in rows.iter().enumerate() {
        let bit = 1 << (place % 8);
        bits[place / 8] = if *row == Value::Null { bits[place / 8] & !bit } else { bits[place / 8] | bit };
    }
    let mut block = items_of(kind, &items, chance);
    block.extend(&bits);
    block.extend((bits.len() as u32).to_le_bytes());
    block
}

/// Rows as runs that end where the rows do, and before that by chance.
fn some_runs(rows: &[Value], chance: &mut Chance) -> (Vec<Value>, Vec<u64>) {
    let mut runs: Vec<(Value, u64)> = Vec::new();
    for row in rows {
        match runs.last_mut() {
            Some((last, count)) if last == row && !chance.one_in(4) => *count += 1,
            _ => runs.push((row.clone(), 1)),
        }
    }
    runs.into_iter().unzip()
}

/// Entries for some rows: each at least once, and some that no row has.
fn some_entries(kind: Kind, rows: &[Value], chance: &mut Chance) -> Vec<Value> {
    let mut entries: Vec<Value> = Vec::new();
    for row in rows.iter().filter(|row| **row != Value::Null) {
        if !entries.contains(row) || chance.one_in(5) {
            entries.insert(chance.below(entries.len() as u64 + 1) as usize, row.clone());
        }
        if chance.one_in(8) {
            entries.push(some_row(kind, chance));
        }
    }
    entries
}

/// The key of a row: that of any entry that it equals.
fn some_key(row: &Value, entries: &[Value], chance: &mut Chance) -> Value {
    let places: Vec<usize> = (0..entries.len()).filter(|place| entries[*place] == *row).collect();
    match row {
        Value::Null => Value::Int(-2147483648),
        _ => Value::Int(-2147483647 + places[chance.below(places.len() as u64) as usize] as i64),
    }
}

/// A block of a list of rows.
pub fn block_of(column: Column, rows: &[Value], chance: &mut Chance) -> Vec<u8> {
    let kind = column.kind;
    match column.encoding {
        Encoding::Plain => items_of(kind, rows, chance),
        Encoding::Nullable => nullable_items_of(kind, rows, chance),
        Encoding::RunLength | Encoding::RunLengthNullable if rows.is_empty() => Vec::new(),
        Encoding::RunLength => {
            let (items, counts) = some_runs(rows, chance);
            block_of_runs(&counts, &items_of(kind, &items, chance))
        }
        Encoding::RunLengthNullable => {
            let (items, counts) = some_runs(rows, chance);
            block_of_runs(&counts, &nullable_items_of(kind, &items, chance))
        }
        Encoding::Dictionary => {
            let entries = some_entries(kind, rows, chance);
            let keys: Vec<Value> = rows.iter().map(|row| some_key(row, &entries, chance)).collect();
            let (keys, counts) = some_runs(&keys, chance);
            let keys = if rows.is_empty() { Vec::new() } else { block_of_runs(&counts, &plain_of(Kind::I32, &keys)) };
            block_of_keys(&keys, entries.len(), &items_of(kind, &entries, chance))
        }
    }
}

/// The block of some runs as they are given: a row, and how many of it. The encoding is one that has runs.
pub fn block_of_counted(column: Column, runs: &[(Value, u64)]) -> Vec<u8> {
    let (items, counts): (Vec<Value>, Vec<u64>) = runs.iter().cloned().unzip();
    match column.encoding {
        Encoding::Plain | Encoding::Nullable => panic!("no runs: {column:?}"),
        Encoding::RunLength => block_of_runs(&counts, &plain_of(column.kind, &items)),
        Encoding::RunLengthNullable => block_of_runs(&counts, &nullable_of(column.kind, &items)),
        Encoding::Dictionary => {
            let entries = entries_of(&items);
            let place = |row: &Value| entries.iter().position(|entry| entry == row).map_or(-1, |place| place as i64);
            let keys: Vec<Value> = items.iter().map(|row| Value::Int(-2147483647 + place(row))).collect();
            let keys = block_of_runs(&counts, &plain_of(Kind::I32, &keys));
            block_of_keys(&keys, entries.len(), &plain_of(column.kind, &entries))
        }
    }
}

/// A sound block by runs, with so many rows for each that it had.
pub fn times(column: Column, block: &[u8], times: u64) -> Vec<u8> {
    let longer = |b: &[u8]| {
        let (counts, inner) = runs_of(b);
        let counts: Vec<u64> = counts.iter().map(|count| count * times).collect();
        if counts.is_empty() {
            b.to_vec()
        } else {
            block_of_runs(&counts, inner)
        }
    };
    match column.encoding {
        Encoding::Plain | Encoding::Nullable => panic!("no runs: {column:?}"),
        Encoding::RunLength | Encoding::RunLengthNullable => longer(block),
        Encoding::Dictionary => {
            let (keys, entries, inner) = dictionary_parts(block);
            block_of_keys(&longer(keys), entries as usize, inner)
        }
    }
}
