//! Read and remaining on any record and any bytes: what they answer, and what a read leaves in the areas that it is lent. And one row of a
//! block, asked for by its number.
use idzulgar::calls::{Given, Left, ReaderRecord, RowGiven};
use idzulgar::{Column, Encoding, Kind, Value};

use super::differences::Lent;
use super::{by_ends, count, nullable_row, plain_row, rows_of, u32_at, width};

/// The four areas that a read is lent.
#[derive(Clone, Debug, PartialEq)]
pub struct Areas {
    pub values: Vec<i64>,
    pub flags: Vec<u8>,
    pub ends: Vec<u32>,
    pub bytes: Vec<u8>,
}

impl Areas {
    /// Areas with known contents, for so many rows and so many bytes of them.
    pub fn new(rows: usize, bytes: usize) -> Areas {
        Areas { values: vec![77; rows], flags: vec![77; rows], ends: vec![77; rows], bytes: vec![77; bytes] }
    }

    /// Whether rows of a kind don't go into the areas.
    fn are_short(&self, kind: Kind, rows: &[Value]) -> bool {
        let slots = if kind.is_bytes() { self.ends.len() } else { self.values.len() };
        let short = self.flags.len() < rows.len() || slots < rows.len();
        short || kind.is_bytes() && (self.bytes.len() < weight(rows) || weight(rows) > u32::MAX as usize)
    }

    /// The areas with rows of a kind written from the start of each on.
    fn written(&self, kind: Kind, rows: &[Value]) -> Areas {
        let (mut all, mut end) = (self.clone(), 0);
        for (place, row) in rows.iter().enumerate() {
            all.flags[place] = (*row != Value::Null) as u8;
            match row {
                Value::Null if kind.is_bytes() => {}
                Value::Null => all.values[place] = 0,
                Value::Int(value) => all.values[place] = *value,
                Value::F64(value) => all.values[place] = value.to_bits() as i64,
                Value::Bytes(bytes) => {
                    all.bytes[end..end + bytes.len()].copy_from_slice(bytes);
                    end += bytes.len();
                }
            }
            if kind.is_bytes() {
                all.ends[place] = end as u32;
            }
        }
        all
    }
}

/// The bytes that some items take at least.
fn least_bytes(kind: Kind, items: usize) -> u128 {
    items as u128 * if by_ends(kind) { 4 } else { width(kind) as u128 }
}

/// Whether a record contradicts itself.
fn is_wrong(column: Column, r: &ReaderRecord) -> bool {
    let (kind, by_runs) = (column.kind, !matches!(column.encoding, Encoding::Plain | Encoding::Nullable));
    let most = if by_runs { 281474976710655 } else { 1048576 };
    if r.len > 16777216 || r.rows > most || r.place > r.rows || r.nulls > r.place {
        return true;
    }
    if by_runs && (r.runs > 1048576 || r.run > r.runs) {
        return true;
    }
    let (len, keys, head) = (r.len as u128, r.keys as u128, 8 + r.counts as u128);
    let no_runs = r.runs == 0 && r.counts == 0;
    let flags = |items: usize| items.div_ceil(8) as u128 + 4;
    match column.encoding {
        Encoding::Plain => len < least_bytes(kind, r.rows),
        Encoding::Nullable => len < least_bytes(kind, r.rows) + flags(r.rows),
        Encoding::RunLength => !no_runs && len < head + least_bytes(kind, r.runs),
        Encoding::RunLengthNullable => !no_runs && len < head + least_bytes(kind, r.runs) + flags(r.runs),
        Encoding::Dictionary => {
            r.entries > 65536
                || len < 12 + keys + least_bytes(kind, r.entries)
                || !no_runs && keys < head + least_bytes(Kind::I32, r.runs)
        }
    }
}

/// The counts of a block by runs as the record cuts it, and what lies behind them.
fn cut_runs<'a>(r: &ReaderRecord, b: &'a [u8]) -> (&'a [u8], &'a [u8]) {
    if r.runs == 0 && r.counts == 0 {
        return (&[], &[]);
    }
    b[8..].split_at(r.counts)
}

/// Moves a record past a row of the runs, and answers the row's run; nothing where a count is missing, bad or too small.
fn step(r: &mut ReaderRecord, counts: &[u8]) -> Option<usize> {
    let look = |r: &ReaderRecord| {
        let bytes = counts.get(r.at..).filter(|_| r.run < r.runs)?;
        count(bytes).map(|(value, rest)| (value, bytes.len() - rest.len()))
    };
    let leave = |r: &mut ReaderRecord, len: usize| (r.run, r.at, r.taken) = (r.run + 1, r.at + len, 0);
    let (mut rows, mut len) = look(r)?;
    if rows > 0 && rows == r.taken as u64 {
        leave(r, len);
        (rows, len) = look(r)?;
    }
    if rows <= r.taken as u64 {
        return None;
    }
    let run = r.run;
    r.taken += 1;
    if r.taken as u64 == rows {
        leave(r, len);
    }
    Some(run)
}

/// Whether the end of an item doesn't fall and doesn't pass the data.
fn is_good_item(kind: Kind, n: usize, b: &[u8], place: usize) -> bool {
    if !by_ends(kind) {
        return true;
    }
    let from = if place == 0 { 0 } else { u32_at(b, 4 * place - 4) };
    let to = u32_at(b, 4 * place);
    from <= to && to <= (b.len() - 4 * n) as u64
}

fn good_row(kind: Kind, n: usize, b: &[u8], place: usize) -> Option<Value> {
    is_good_item(kind, n, b, place).then(|| plain_row(kind, n as u64, b, place))
}

fn good_nullable_row(kind: Kind, n: usize, b: &[u8], place: usize) -> Option<Value> {
    let plain = &b[..b.len() - 4 - n.div_ceil(8)];
    is_good_item(kind, n, plain, place).then(|| nullable_row(kind, n as u64, b, place))
}

fn good_entry_row(kind: Kind, r: &ReaderRecord, keys: &[u8], entries: &[u8], run: usize) -> Option<Value> {
    match plain_row(Kind::I32, r.runs as u64, keys, run) {
        Value::Int(-2147483648) => Some(Value::Null),
        Value::Int(key) if key + 2147483647 < r.entries as i64 => good_row(kind, r.entries, entries, (key + 2147483647) as usize),
        _ => None,
    }
}

/// Moves a record past a row. With `look` it answers that row; else it answers any, and looks at no end and no key. Nothing where a
/// field is wrong.
fn next_row(column: Column, r: &mut ReaderRecord, b: &[u8], look: bool) -> Option<Value> {
    let (kind, place) = (column.kind, r.place);
    r.place += 1;
    let either = |row: &dyn Fn() -> Option<Value>| if look { row() } else { Some(Value::Null) };
    match column.encoding {
        Encoding::Plain => either(&|| good_row(kind, r.rows, b, place)),
        Encoding::Nullable => either(&|| good_nullable_row(kind, r.rows, b, place)),
        Encoding::RunLength => {
            let (counts, inner) = cut_runs(r, b);
            let run = step(r, counts)?;
            either(&|| good_row(kind, r.runs, inner, run))
        }
        Encoding::RunLengthNullable => {
            let (counts, inner) = cut_runs(r, b);
            let run = step(r, counts)?;
            either(&|| good_nullable_row(kind, r.runs, inner, run))
        }
        Encoding::Dictionary => {
            let (key_block, entries) = b[12..].split_at(r.keys);
            let (counts, keys) = cut_runs(r, key_block);
            let run = step(r, counts)?;
            either(&|| good_entry_row(kind, r, keys, entries, run))
        }
    }
}

/// How many rows are null.
pub fn nulls(rows: &[Value]) -> usize {
    rows.iter().filter(|row| matches!(row, Value::Null)).count()
}

/// The bytes of some rows.
pub fn weight(rows: &[Value]) -> usize {
    rows.iter().map(|row| if let Value::Bytes(bytes) = row { bytes.len() } else { 0 }).sum()
}

/// What asking for the remaining rows answers.
pub fn remaining(reader: ReaderRecord) -> Left {
    match Column::numbered(reader.kind as u64, reader.encoding as u64, reader.width as u64) {
        Ok(column) if !is_wrong(column, &reader) => Left { number: 0, rows: reader.rows - reader.place, reader },
        _ => Left { number: 9, rows: 0, reader },
    }
}

/// What a read answers, and the areas as it leaves them. It goes one row at a time, so few can be passed over at once.
pub fn read(reader: ReaderRecord, b: &[u8], skip: usize, size: usize, areas: &Areas) -> (Given, Areas) {
    let refused = |number| (Given { number, rows: 0, bytes: 0, reader }, areas.clone());
    if skip == 0 && size == 0 {
        return refused(6);
    }
    let Ok(column) = Column::numbered(reader.kind as u64, reader.encoding as u64, reader.width as u64) else { return refused(9) };
    if b.len() != reader.len || is_wrong(column, &reader) {
        return refused(9);
    }
    let left = reader.rows - reader.place;
    if skip > left {
        return refused(7);
    }
    let mut moved = reader;
    for _ in 0..skip {
        if next_row(column, &mut moved, b, false).is_none() {
            return refused(9);
        }
    }
    let mut rows = Vec::new();
    for _ in 0..size.min(left - skip) {
        let Some(row) = next_row(column, &mut moved, b, true) else { return refused(9) };
        rows.push(row);
    }
    if areas.are_short(column.kind, &rows) {
        return refused(4);
    }
    moved.nulls += nulls(&rows);
    (Given { number: 0, rows: rows.len(), bytes: weight(&rows), reader: moved }, areas.written(column.kind, &rows))
}

/// What asking for a row of a block by its number answers, and the areas as it leaves them. It takes all rows up to that one, so few.
pub fn row(lent: &Lent, row: usize, areas: &Areas) -> (RowGiven, Areas) {
    let refused = |number| (RowGiven { number, bytes: 0 }, areas.clone());
    let rows = lent.descriptor.rows;
    let Some(column) = lent.column().filter(|_| lent.number() == 0) else { return refused(lent.number()) };
    if row >= rows {
        return refused(7);
    }
    let given = &rows_of(column, rows as u64, &lent.block, row as u64 + 1)[row..];
    if areas.are_short(column.kind, given) {
        return refused(4);
    }
    (RowGiven { number: 0, bytes: weight(given) }, areas.written(column.kind, given))
}
