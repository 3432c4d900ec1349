//! Calls whose answers are held to the model.
use idzulgar::calls::{self, Found, Given, ReaderRecord, RowGiven, Written};
use idzulgar::Column;

use super::differences::{self, Lent};
use super::reads::{self, Areas};
use super::salvages::{self, Salvaged};
use super::sheets;

/// Opens a block that is sound.
pub fn open(column: Column, rows: usize, block: &[u8]) -> ReaderRecord {
    let (kind, encoding, width) = column.numbers();
    let answer = calls::open(kind, encoding, width, rows, block);
    assert_eq!(answer.number, 0, "{column:?} {block:02X?}");
    answer.reader
}

/// A read into areas that it may change.
pub fn read_into(reader: ReaderRecord, block: &[u8], skip: usize, size: usize, lent: &mut Areas) -> Given {
    let (due, left) = reads::read(reader, block, skip, size, lent);
    let given = calls::read(reader, block, skip, size, &mut lent.values, &mut lent.flags, &mut lent.ends, &mut lent.bytes);
    assert_eq!((given, &*lent), (due, &left), "{skip}, {size} of {block:02X?} by {reader:?}");
    given
}

/// A read with room for ten rows.
pub fn read(reader: ReaderRecord, block: &[u8], skip: usize, size: usize) -> Given {
    read_into(reader, block, skip, size, &mut Areas::new(10, 1000))
}

/// A refusal: no rows, no bytes, and the reader that was given.
pub fn refused(number: u8, reader: ReaderRecord) -> Given {
    Given { number, rows: 0, bytes: 0, reader }
}

/// The first bytes of a file, which may have millions.
pub fn start_of(file: &[u8]) -> String {
    format!("{:02X?} of {} bytes", &file[..file.len().min(120)], file.len())
}

/// The record beside a refused opening.
pub fn no_reader() -> ReaderRecord {
    let none = calls::open(12, 0, 0, 0, &[]);
    assert_eq!((none.number, none.reader.kind), (1, 255));
    none.reader
}

/// Opens a column of a sheet file. Its record is to be the one that its block is opened with by itself.
pub fn sheet_open(file: &[u8], j: usize) -> Found {
    let due = match sheets::found(file, j) {
        Err(number) => Found { number, from: 0, len: 0, reader: no_reader() },
        Ok((entry, block)) => {
            let reader = open(entry.column().expect("a pair"), entry.rows as usize, block);
            Found { number: 0, from: entry.offset as usize, len: block.len(), reader }
        }
    };
    let found = calls::sheet_open(file, j);
    assert_eq!(found, due, "column {j} of {}", start_of(file));
    found
}

/// Writes a sheet file into room that it may change.
pub fn sheet_write(columns: &[usize], blocks: &[u8], out: &mut Vec<u8>) -> Written {
    let (mut due, mut left) = (Written { number: 0, len: 0 }, out.clone());
    match sheets::written(columns, blocks, out.len()) {
        Err(number) => due.number = number,
        Ok(file) => {
            due.len = file.len();
            left[..file.len()].copy_from_slice(&file);
        }
    }
    let answer = calls::sheet_write(columns, blocks, out);
    assert_eq!(answer, due, "{columns:?} {}", start_of(blocks));
    assert!(*out == left, "{columns:?} {}: {}, not {}", start_of(blocks), start_of(out), start_of(&left));
    answer
}

/// Slots that hold numbers which are no rows, and some more behind those that are lent.
fn slots(lent: usize, from: usize) -> Vec<usize> {
    (0..lent + 3).map(|place| from - place).collect()
}

/// Compares two blocks with so many slots in both lists: the ranges, or the number. Every slot that isn't a range's has to stay.
pub fn ranges(one: &Lent, other: &Lent, firsts: usize, lasts: usize) -> Result<Vec<(usize, usize)>, u8> {
    let before = [slots(firsts, usize::MAX), slots(lasts, usize::MAX >> 1)];
    let [mut first_rows, mut last_rows] = before.clone();
    let answer = calls::compare(
        one.descriptor,
        &one.block,
        other.descriptor,
        &other.block,
        &mut first_rows[..firsts],
        &mut last_rows[..lasts],
    );
    let what = || format!("{:?} {} and {:?} {}", one.descriptor, start_of(&one.block), other.descriptor, start_of(&other.block));
    assert!(answer.number == 0 || answer.ranges == 0, "{answer:?}: {}", what());
    for (after, before) in [&first_rows, &last_rows].into_iter().zip(&before) {
        assert!(after[answer.ranges..] == before[answer.ranges..], "{answer:?}, {firsts} and {lasts} slots: {}", what());
    }
    if answer.number != 0 {
        return Err(answer.number);
    }
    Ok(first_rows.into_iter().zip(last_rows).take(answer.ranges).collect())
}

/// The same, held to the model.
pub fn compare(one: &Lent, other: &Lent, firsts: usize, lasts: usize) -> Result<Vec<(usize, usize)>, u8> {
    let (found, due) = (ranges(one, other, firsts, lasts), differences::compared(one, other, firsts, lasts));
    assert!(
        found == due,
        "{found:?}, not {due:?}, by {firsts} and {lasts} slots: {:?} {} and {:?} {}",
        one.descriptor,
        start_of(&one.block),
        other.descriptor,
        start_of(&other.block)
    );
    due
}

/// Room of so many bytes, and some more behind those that are lent.
fn room(lent: usize) -> Vec<u8> {
    (0..lent + 3).map(|place| 0xA5 ^ place as u8).collect()
}

/// Salvages a block with so many slots in both lists and so many bytes of room: the block and the ranges, or the number. Every slot that isn't
/// a range's and every byte behind the block has to stay.
pub fn given_back(lent: &Lent, firsts: usize, lasts: usize, out: usize) -> Result<Salvaged, u8> {
    let before = [slots(firsts, usize::MAX), slots(lasts, usize::MAX >> 1)];
    let [mut first_rows, mut last_rows] = before.clone();
    let (mut bytes, bytes_before) = (room(out), room(out));
    let answer =
        calls::salvage(lent.descriptor, &lent.block, &mut first_rows[..firsts], &mut last_rows[..lasts], &mut bytes[..out]);
    let what = || format!("{answer:?}, {firsts} and {lasts} slots, room {out}: {:?} {}", lent.descriptor, start_of(&lent.block));
    assert!(answer.number == 0 || answer.ranges == 0 && answer.len == 0, "{}", what());
    for (after, before) in [&first_rows, &last_rows].into_iter().zip(&before) {
        assert!(after[answer.ranges..] == before[answer.ranges..], "{}", what());
    }
    assert!(bytes[answer.len..] == bytes_before[answer.len..], "{}", what());
    if answer.number != 0 {
        return Err(answer.number);
    }
    bytes.truncate(answer.len);
    Ok(Salvaged { block: bytes, ranges: first_rows.into_iter().zip(last_rows).take(answer.ranges).collect() })
}

/// The same, held to the model.
pub fn salvage(lent: &Lent, firsts: usize, lasts: usize, out: usize) -> Result<Salvaged, u8> {
    let (found, due) = (given_back(lent, firsts, lasts, out), salvages::salvaged(lent, firsts, lasts, out));
    assert!(
        found == due,
        "{found:02X?}, not {due:02X?}, by {firsts} and {lasts} slots and {out} bytes: {:?} {}",
        lent.descriptor,
        start_of(&lent.block)
    );
    due
}

/// Asks for a row of a block, into areas that it may change.
pub fn row_into(lent: &Lent, row: usize, areas: &mut Areas) -> RowGiven {
    let (due, left) = reads::row(lent, row, areas);
    let Areas { values, flags, ends, bytes } = areas;
    let given = calls::row(lent.descriptor, &lent.block, row, values, flags, ends, bytes);
    assert!(
        (given, &*areas) == (due, &left),
        "{given:?}, not {due:?}: row {row} of {:?} {}",
        lent.descriptor,
        start_of(&lent.block)
    );
    given
}
