//! The six areas that a builder's calls are lent, as memory of the tests' own, and rows as these calls take them.
use idzulgar::calls::{Areas, BuilderRecord};
use idzulgar::{Column, Encoding, Kind, Value};

use super::Chance;

#[derive(Clone, PartialEq, Debug)]
pub struct Memory {
    pub items: Vec<u8>,
    pub ends: Vec<u32>,
    pub flags: Vec<u8>,
    pub counts: Vec<u32>,
    pub keys: Vec<i32>,
    pub lens: Vec<u8>,
}

/// The slots that a record counts, area by area.
pub fn needs(column: Column, record: &BuilderRecord) -> [usize; 6] {
    let stored = match column.encoding {
        Encoding::Plain | Encoding::Nullable => record.rows,
        Encoding::RunLength | Encoding::RunLengthNullable => record.runs,
        Encoding::Dictionary => record.entries,
    };
    let flagged = matches!(column.encoding, Encoding::Nullable | Encoding::RunLengthNullable);
    let keyed = column.encoding == Encoding::Dictionary;
    [
        record.bytes,
        if matches!(column.kind, Kind::Blob | Kind::String) { stored } else { 0 },
        if flagged { stored.div_ceil(8) } else { 0 },
        record.runs,
        if keyed { record.runs } else { 0 },
        if matches!(column.kind, Kind::Char(_)) { stored } else { 0 },
    ]
}

impl Memory {
    pub fn none() -> Memory {
        Memory { items: vec![], ends: vec![], flags: vec![], counts: vec![], keys: vec![], lens: vec![] }
    }

    pub fn lent(&mut self) -> Areas<'_> {
        let Memory { items, ends, flags, counts, keys, lens } = self;
        Areas { items, ends, flags, counts, keys, lens }
    }

    pub fn lengths(&self) -> [usize; 6] {
        [self.items.len(), self.ends.len(), self.flags.len(), self.counts.len(), self.keys.len(), self.lens.len()]
    }

    /// Other memory that holds the counted slots, with so many more of each behind them.
    pub fn moved(&self, column: Column, record: &BuilderRecord, more: [usize; 6], chance: &mut Chance) -> Memory {
        let held = needs(column, record);
        let mut moved = self.first(held).and_noise(more, chance);
        let stored = if column.encoding == Encoding::Nullable { record.rows } else { record.runs };
        if held[2] > 0 && stored % 8 > 0 {
            // bits behind the last item's are no slots of the record
            moved.flags[held[2] - 1] ^= (chance.number() as u8) << (stored % 8);
        }
        moved
    }

    /// The first slots of each area.
    pub fn first(&self, [items, ends, flags, counts, keys, lens]: [usize; 6]) -> Memory {
        Memory {
            items: self.items[..items].to_vec(),
            ends: self.ends[..ends].to_vec(),
            flags: self.flags[..flags].to_vec(),
            counts: self.counts[..counts].to_vec(),
            keys: self.keys[..keys].to_vec(),
            lens: self.lens[..lens].to_vec(),
        }
    }

    /// The same with so many slots more of each, which hold noise.
    pub fn and_noise(&self, [items, ends, flags, counts, keys, lens]: [usize; 6], chance: &mut Chance) -> Memory {
        let mut all = self.clone();
        all.items.extend((0..items).map(|_| chance.number() as u8));
        all.ends.extend((0..ends).map(|_| chance.number() as u32));
        all.flags.extend((0..flags).map(|_| chance.number() as u8));
        all.counts.extend((0..counts).map(|_| chance.number() as u32));
        all.keys.extend((0..keys).map(|_| chance.number() as i32));
        all.lens.extend((0..lens).map(|_| chance.number() as u8));
        all
    }
}

/// Whether a row is present, its integer, its bytes.
pub fn parts(value: &Value) -> (bool, i64, &[u8]) {
    match value {
        Value::Null => (false, 0, &[]),
        Value::Int(value) => (true, *value, &[]),
        Value::Bytes(bytes) => (true, 0, bytes),
        Value::F64(value) => (true, value.to_bits() as i64, &[]),
    }
}

/// A row that doesn't fit the kind, where there is one.
pub fn unfit(kind: Kind, chance: &mut Chance) -> Option<Value> {
    match kind {
        Kind::Bool => Some(Value::Int(2)),
        Kind::I16 => Some(Value::Int(-32_769)),
        Kind::I32 | Kind::Date => Some(Value::Int(1 << 31)),
        Kind::Char(width) if chance.one_in(2) => Some(Value::Bytes(vec![b'a'; usize::from(width) + 1])),
        Kind::Char(_) | Kind::String => Some(Value::Bytes(vec![0xC3])),
        _ => None,
    }
}
