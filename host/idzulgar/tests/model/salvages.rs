//! What is given back of a dictionary block with unknown keys, as document 02 has it under (xii): row by row.
use idzulgar::{Encoding, Kind, Value};

use super::differences::{marked_ranges, Lent};
use super::{
    block_of, block_of_keys, block_of_runs, dictionary_number, dictionary_parts, is_unknown, keys_of, plain_of, plain_row, runs_of,
    u32_at, Chance, Keys,
};

/// A block, and the ranges of rows that were lost: the first row of each, and the last.
#[derive(Clone, Debug, PartialEq)]
pub struct Salvaged {
    pub block: Vec<u8>,
    pub ranges: Vec<(usize, usize)>,
}

/// The number that comes before any of room: that of a dictionary block whose keys are taken for good, and 1 for any other encoding.
pub fn number(lent: &Lent) -> u8 {
    let (n, b) = (lent.descriptor.rows as u64, &lent.block[..]);
    match lent.column() {
        Some(column) if column.encoding == Encoding::Dictionary => {
            if b.len() > 16777216 || n > 281474976710655 {
                return 3;
            }
            dictionary_number(column.kind, n, b, Keys::TakenForGood)
        }
        _ => 1,
    }
}

/// The rows of a block of which only keys are bad, those of unknown keys as nulls; and of each row whether it is such.
pub fn repaired(kind: Kind, b: &[u8]) -> (Vec<Value>, Vec<bool>) {
    let (keys, entries, rest) = dictionary_parts(b);
    let (mut rows, mut lost) = (Vec::new(), Vec::new());
    for (count, key) in runs_of(keys).0.into_iter().zip(keys_of(keys)) {
        assert!(rows.len() as u64 + count <= 1 << 22, "too many rows to be given back one by one");
        let is_lost = is_unknown(key, entries);
        let row = match key {
            _ if is_lost => Value::Null,
            i32::MIN => Value::Null,
            _ => plain_row(kind, entries, rest, (key - i32::MIN) as usize - 1),
        };
        rows.extend((0..count).map(|_| row.clone()));
        lost.extend((0..count).map(|_| is_lost));
    }
    (rows, lost)
}

/// What salvaging a block answers, with so many slots in both lists and so much room: the block and the ranges, or its number.
pub fn salvaged(lent: &Lent, firsts: usize, lasts: usize, room: usize) -> Result<Salvaged, u8> {
    let number = number(lent);
    if number != 0 {
        return Err(number);
    }
    let column = lent.column().expect("a pair");
    let (rows, lost) = repaired(column.kind, &lent.block);
    let (block, ranges) = (block_of(column, &rows), marked_ranges(&lost));
    if room < block.len() || firsts < ranges.len() || lasts < ranges.len() {
        return Err(4);
    }
    Ok(Salvaged { block, ranges })
}

// ---- what the tests draw from

/// The dictionary block of some entries and runs as they are given: a key, and how many rows.
pub fn block_by(kind: Kind, entries: &[Value], runs: &[(i32, u64)]) -> Vec<u8> {
    let (keys, counts): (Vec<i32>, Vec<u64>) = runs.iter().copied().unzip();
    let keys: Vec<u8> = keys.iter().flat_map(|key| key.to_le_bytes()).collect();
    let keys = if runs.is_empty() { Vec::new() } else { block_of_runs(&counts, &keys) };
    block_of_keys(&keys, entries.len(), &plain_of(kind, entries))
}

/// How many entries a dictionary block has, and how many runs.
pub fn entries_and_runs(block: &[u8]) -> (u64, usize) {
    let (keys, entries, _) = dictionary_parts(block);
    (entries, keys_of(keys).len())
}

/// Where the key of a run stands in a dictionary block.
fn key_at(block: &[u8], run: usize) -> usize {
    12 + 8 + u32_at(block, 16) as usize + 4 * run
}

/// The keys of a dictionary block, one a run.
pub fn keys_in(block: &[u8]) -> Vec<i32> {
    keys_of(dictionary_parts(block).0)
}

/// Gives a run another key.
pub fn set_key(block: &mut [u8], run: usize, key: i32) {
    let at = key_at(block, run);
    block[at..at + 4].copy_from_slice(&key.to_le_bytes());
}

/// The key that names the entry of this place, which may be none.
pub fn key_of(place: u64) -> i32 {
    (i32::MIN as i64 + 1 + place as i64) as i32
}

/// A key that names no entry: one of those just behind the last entry's, one that tells, any; or the run's own with a bit changed, if that is
/// none.
fn some_unknown_key(own: i32, entries: u64, chance: &mut Chance) -> i32 {
    let flipped = own ^ 1 << chance.below(32);
    match chance.below(6) {
        0 => key_of(entries),
        1 => key_of(entries + 1 + chance.below(3)),
        2 => [i32::MAX, i32::MAX - 1, -1, 0, 1][chance.below(5) as usize],
        3 | 4 if is_unknown(flipped, entries) => flipped,
        _ => key_of(entries + chance.below(u32::MAX as u64 - entries)),
    }
}

/// Gives some runs of a dictionary block keys that name no entry: none, one, some apart, some side by side, or all.
pub fn spoil_keys(block: &mut [u8], chance: &mut Chance) {
    let (entries, runs) = entries_and_runs(block);
    let place = |chance: &mut Chance| chance.below(runs as u64 + 1) as usize;
    let stretch = |chance: &mut Chance, most: u64| {
        let from = place(chance);
        from..from + chance.below(most + 1) as usize
    };
    let spoiled: Vec<usize> = match chance.below(10) {
        0 => Vec::new(),
        1 => (0..runs).collect(),
        2 => (place(chance) % 2..runs).step_by(2).collect(),
        3 | 4 => (0..runs).filter(|_| chance.one_in(3)).collect(),
        5 => vec![place(chance)],
        6 => stretch(chance, runs as u64).collect(),
        _ => (0..1 + chance.below(4)).flat_map(|_| stretch(chance, 3)).collect(),
    };
    for run in spoiled.into_iter().filter(|run| *run < runs) {
        let own = keys_in(block)[run];
        set_key(block, run, some_unknown_key(own, entries, chance));
    }
}
