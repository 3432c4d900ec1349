//! The rows in which two blocks differ, as document 02 has them under (xi): row by row, whatever the encodings.
use idzulgar::calls::Descriptor;
use idzulgar::{Column, Encoding, Kind, Value};

use super::{open_number, rows_of, some_row, some_rows, Chance};

/// A column with the number of its rows and a block.
#[derive(Clone, Debug, PartialEq)]
pub struct Lent {
    pub descriptor: Descriptor,
    pub block: Vec<u8>,
}

impl Lent {
    pub fn new(column: Column, rows: u64, block: Vec<u8>) -> Lent {
        let (kind, encoding, width) = column.numbers();
        Lent { descriptor: Descriptor { kind, encoding, width, zero: 0, rows: rows as usize }, block }
    }

    /// Its column, if it is one of the pairs and the zero bit isn't set.
    pub fn column(&self) -> Option<Column> {
        let Descriptor { kind, encoding, width, zero, .. } = self.descriptor;
        Column::numbered(kind as u64, encoding as u64, width as u64).ok().filter(|_| zero == 0)
    }

    /// Opening's number.
    pub fn number(&self) -> u8 {
        self.column().map_or(1, |column| open_number(column, self.descriptor.rows as u64, &self.block))
    }

    /// The rows of a sound block, of which there aren't millions of millions.
    fn rows(&self) -> Vec<Value> {
        let n = self.descriptor.rows as u64;
        assert!(n <= 1 << 22, "{n} rows are too many to be compared one by one");
        self.column().map_or(Vec::new(), |column| rows_of(column, n, &self.block, n))
    }
}

/// Whether two rows are the same; a row that isn't there is the same as none.
fn are_same(one: Option<&Value>, other: Option<&Value>) -> bool {
    match (one, other) {
        (Some(Value::Null), Some(Value::Null)) => true,
        (Some(Value::Int(one)), Some(Value::Int(other))) => one == other,
        (Some(Value::Bytes(one)), Some(Value::Bytes(other))) => one == other,
        (Some(Value::F64(one)), Some(Value::F64(other))) => one.to_bits() == other.to_bits(),
        _ => false,
    }
}

/// The ranges of rows that are marked, each as long as it can be: its first row, and its last.
pub fn marked_ranges(marks: &[bool]) -> Vec<(usize, usize)> {
    let rows = marks.len();
    // behind the last row none is marked
    let firsts = (0..rows).filter(|row| marks[*row] && (*row == 0 || !marks[*row - 1]));
    let lasts = (0..rows).filter(|row| marks[*row] && !marks.get(*row + 1).is_some_and(|next| *next));
    firsts.zip(lasts).collect()
}

/// The ranges of rows that differ.
pub fn ranges(one: &[Value], other: &[Value]) -> Vec<(usize, usize)> {
    let rows = one.len().max(other.len());
    marked_ranges(&(0..rows).map(|row| !are_same(one.get(row), other.get(row))).collect::<Vec<bool>>())
}

/// What comparing two blocks answers, with so many slots in both lists: the ranges, or its number.
pub fn compared(one: &Lent, other: &Lent, firsts: usize, lasts: usize) -> Result<Vec<(usize, usize)>, u8> {
    if one.descriptor.kind != other.descriptor.kind || one.descriptor.width != other.descriptor.width {
        return Err(25);
    }
    for number in [one.number(), other.number()] {
        if number != 0 {
            return Err(number);
        }
    }
    let ranges = ranges(&one.rows(), &other.rows());
    if firsts < ranges.len() || lasts < ranges.len() {
        return Err(4);
    }
    Ok(ranges)
}

// ---- what the tests draw from

/// The encodings.
pub const ENCODINGS: [Encoding; 5] =
    [Encoding::Plain, Encoding::Nullable, Encoding::RunLength, Encoding::RunLengthNullable, Encoding::Dictionary];

/// All pairs of encodings.
pub fn encodings() -> impl Iterator<Item = (Encoding, Encoding)> {
    ENCODINGS.into_iter().flat_map(|one| ENCODINGS.map(|other| (one, other)))
}

/// What a null is stored as in encodings that have none.
pub fn default_of(kind: Kind) -> Value {
    match kind {
        Kind::F64 => Value::F64(0.0),
        _ if kind.is_bytes() => Value::Bytes(Vec::new()),
        _ => Value::Int(0),
    }
}

/// A row that is easily taken for another: null for the default, a float or text that differs in a bit or at its end.
fn near(kind: Kind, row: &Value, chance: &mut Chance) -> Value {
    match row {
        Value::Null => default_of(kind),
        _ if chance.one_in(3) => Value::Null,
        Value::F64(value) => Value::F64(f64::from_bits(value.to_bits() ^ 1 << (63 - chance.below(64)))),
        Value::Bytes(bytes) if !bytes.is_empty() && bytes.is_ascii() => {
            let mut bytes = bytes.clone();
            if chance.one_in(2) {
                bytes.pop();
            } else {
                let last = bytes.len() - 1;
                bytes[last] ^= 1;
            }
            Value::Bytes(bytes)
        }
        _ => some_row(kind, chance),
    }
}

/// A list of rows that comes from another: the same, or with some rows or a stretch of them changed, with rows taken out, put in, taken off
/// or put behind; or one that doesn't come from it.
pub fn from(kind: Kind, rows: &[Value], chance: &mut Chance) -> Vec<Value> {
    let mut list = rows.to_vec();
    let len = rows.len() as u64;
    let (one, other) = (chance.below(len + 1) as usize, chance.below(len + 1) as usize);
    let stretch = one.min(other)..one.max(other);
    match chance.below(10) {
        0 => {}
        1 => list.iter_mut().for_each(|row| *row = near(kind, row, chance)),
        2 => list.iter_mut().step_by(2).for_each(|row| *row = near(kind, row, chance)),
        3 => list[stretch].iter_mut().for_each(|row| *row = near(kind, row, chance)),
        4 => drop(list.drain(stretch)),
        5 => list.truncate(one),
        6 => list.extend(some_rows(kind, 6, chance)),
        7 => list.insert(one, some_row(kind, chance)),
        8 => list = some_rows(kind, len, chance),
        _ => list.iter_mut().for_each(|row| {
            if chance.one_in(6) {
                *row = near(kind, row, chance);
            }
        }),
    }
    if chance.one_in(6) {
        list.extend(some_rows(kind, 3, chance));
    }
    list
}
