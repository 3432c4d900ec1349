//! Sheet files against the model of document 02: columns opened in files that are whole, changed in each byte, cut at each byte, damaged by
//! chance, and at each border; and that nothing but the column's own entry and block is looked at.
mod model;

use std::cell::Cell;
use std::sync::Arc;
use std::thread;

use idzulgar::calls;
use idzulgar::{Column, Encoding, Kind, Refusal, Sheet, Value};
use model::held::{self, no_reader, sheet_open, start_of};
use model::reads::Areas;
use model::sheets::{self, directory_end, Entry, Filed, MOST_BYTES};
use model::Chance;

/// How often each number came up.
type Seen = [u32; 23];

/// A column of some rows.
fn some_filed(most: u64, chance: &mut Chance) -> Filed {
    let column = model::column(chance.below(model::PAIRS), 1 + chance.below(6));
    let rows = model::some_rows(column.kind, most, chance);
    Filed { column, rows: rows.len() as u64, block: model::block_of(column, &rows) }
}

/// Opens columns of a file through the wrapper and the calls, and reads those that are opened: all is held to the model.
fn open_all(file: &[u8], seen: &mut Seen) {
    let sheet = Sheet::new(file);
    let columns = sheets::columns(file);
    assert_eq!(sheet.columns().map_err(Refusal::number), columns, "{}", start_of(file));
    let named = columns.unwrap_or(file.first().map_or(0, |byte| *byte as usize));
    for j in (0..named + 2).chain([64, 255, 1 << 60, usize::MAX]) {
        let found = sheet_open(file, j);
        seen[found.number as usize] += 1;
        let due = sheets::found(file, j);
        match sheet.column(j) {
            Err(refusal) => assert_eq!(Err(refusal.number()), due, "column {j} of {}", start_of(file)),
            Ok(reader) => {
                let (entry, block) = due.expect("the model opens it too");
                // the block isn't copied: it is that part of the file
                assert_eq!((reader.block().as_ptr_range(), reader.kind()), (block.as_ptr_range(), entry.column().unwrap().kind));
                assert_eq!(*reader.block(), &file[found.from..found.from + found.len]);
                let rows: Result<Vec<Value>, Refusal> = reader.rows().take(300).collect();
                assert_eq!(rows, Ok(model::rows_of(entry.column().unwrap(), entry.rows, block, 300)), "column {j}");
            }
        }
    }
}

/// A few small columns, of each encoding and of no rows.
fn small() -> Vec<Filed> {
    let text = |text: &str| Value::Bytes(text.into());
    let ints = |ints: &[i64]| ints.iter().map(|int| Value::Int(*int)).collect::<Vec<_>>();
    let filed = |kind, encoding, rows: &[Value]| {
        let column = Column::new(kind, encoding);
        Filed { column, rows: rows.len() as u64, block: model::block_of(column, rows) }
    };
    vec![
        filed(Kind::I16, Encoding::Nullable, &[Value::Int(5), Value::Null, Value::Int(-2)]),
        filed(Kind::String, Encoding::Dictionary, &[text("é"), Value::Null, text("a"), text("é")]),
        filed(Kind::Bool, Encoding::RunLength, &ints(&[1, 1, 1, 0])),
        filed(Kind::I32, Encoding::Plain, &[]),
        filed(Kind::Blob, Encoding::RunLengthNullable, &[text("ab"), text("ab"), Value::Null]),
        filed(Kind::Char(3), Encoding::Plain, &[text("abc"), text("x")]),
    ]
}

#[test]
fn each_byte_of_a_small_file_changed() {
    let mut seen = [0; 23];
    let all = small();
    for columns in [&all[..0], &all[..1], &all[..3], &all[3..4], &all[1..]] {
        let file = sheets::file_of(columns);
        open_all(&file, &mut [0; 23]);
        for at in 0..file.len() {
            for byte in 0..=255 {
                let mut file = file.clone();
                file[at] = byte;
                open_all(&file, &mut seen);
            }
        }
    }
    for number in [0, 1, 3, 10, 11, 12, 13, 14, 15, 16, 17, 20, 21, 22] {
        assert!(seen[number] > 0, "no change gives {number}: {seen:?}");
    }
}

#[test]
fn a_small_file_cut_at_each_byte_and_with_bytes_behind_it() {
    let all = small();
    for columns in [&all[..0], &all[..1], &all[3..4], &all[..]] {
        let file = sheets::file_of(columns);
        let end = directory_end(columns.len());
        for len in 0..file.len() {
            let mut seen = [0; 23];
            open_all(&file[..len], &mut seen);
            // a file is none before its directory is whole; behind it a block that is cut is 22, and those before it are found
            let whole = columns.iter().enumerate().filter(|(j, _)| blocks_end(columns, *j) <= len).count() as u32;
            let due = if len < end { (0, 0, 0) } else { (whole, columns.len() as u32 - whole, 6) };
            assert_eq!((seen[0], seen[22], seen[20]), due, "{len} bytes");
        }
        for more in 1..20 {
            let mut seen = [0; 23];
            open_all(&[&file[..], &vec![0xFF; more]].concat(), &mut seen);
            assert_eq!((seen[0], seen[20]), (columns.len() as u32, 6));
        }
    }
}

/// Where the block of a column ends in the file of some columns.
fn blocks_end(columns: &[Filed], j: usize) -> usize {
    directory_end(columns.len()) + columns[..=j].iter().map(|filed| filed.block.len()).sum::<usize>()
}

#[test]
fn columns_by_their_number() {
    for columns in [0, 1, 2, 63, 64, 65, 66, 128, 255] {
        let end = directory_end(columns);
        // each column is bool, plain, of no rows, with no bytes at the directory's end
        let mut file = vec![columns as u8];
        (0..columns).for_each(|_| file.extend(Entry::new(model::column(0, 0), 0, end, 0).bytes()));
        for more in [0, 1, 100] {
            let file = [&file[..], &vec![7; more]].concat();
            open_all(&file, &mut [0; 23]);
            let due = |j| match j {
                _ if columns > 64 => 21,
                _ if j >= columns => 20,
                _ => 0,
            };
            for j in [0, 1, columns.saturating_sub(1), columns, columns + 1, 63, 64, 255, usize::MAX] {
                assert_eq!(sheet_open(&file, j).number, due(j), "column {j} of {columns}");
            }
            let sheet = Sheet::new(&file);
            assert_eq!(sheet.columns(), if columns > 64 { Err(Refusal::Sheet) } else { Ok(columns) });
        }
        for less in [1, 2, 16, 17, end - 1, end] {
            let cut = &file[..end.saturating_sub(less)];
            open_all(cut, &mut [0; 23]);
            let due = if cut.is_empty() || cut.len() < end { 21 } else { 20 };
            assert_eq!((sheet_open(cut, 0).number, sheet_open(cut, usize::MAX).number), (due, due), "{columns}, {less} less");
        }
    }
    // a file of no columns has one byte, and that of no bytes is none
    assert_eq!((sheet_open(&[0], 0).number, sheet_open(&[], 0).number), (20, 21));
    assert_eq!((Sheet::new([0]).columns(), Sheet::new([]).columns()), (Ok(0), Err(Refusal::Sheet)));
}

/// A file of two columns, of which the first is sound, and so many bytes behind the directory.
fn with_second(second: Entry, behind: usize) -> Vec<u8> {
    let first = Entry::new(model::column(0, 0), 2, 33, 2);
    [&[2][..], &first.bytes(), &second.bytes(), &vec![1; behind]].concat()
}

#[test]
fn blocks_at_the_borders_and_a_byte_outside() {
    let (end, len) = (33, 33 + 9);
    let bools = model::column(0, 0);
    // rows, offset, length of the second column, and its number
    let cases: [(u64, usize, usize, u8); 24] = [
        // no bytes at the directory's end, at the file's end and between them
        (0, end, 0, 0),
        (0, len, 0, 0),
        (0, end + 4, 0, 0),
        // a byte outside
        (0, end - 1, 0, 22),
        (0, len + 1, 0, 22),
        (0, 0, 0, 22),
        (0, u32::MAX as usize, 0, 22),
        // no bytes for a row are opening's own refusal, and only inside
        (1, end, 0, 11),
        (1, len, 0, 11),
        (1, end - 1, 0, 22),
        (1, len + 1, 0, 22),
        // all bytes, the last one, one more
        (9, end, 9, 0),
        (1, len - 1, 1, 0),
        (10, end, 10, 22),
        (2, len - 1, 2, 22),
        (1, len, 1, 22),
        // the first block's bytes too, the directory's none
        (2, end, 2, 0),
        (2, end - 1, 2, 22),
        (17, 17, 17, 22),
        // ends that 32 bits don't hold
        (0, u32::MAX as usize, u32::MAX as usize, 22),
        (0, end, u32::MAX as usize, 22),
        (0, u32::MAX as usize, end + 1, 22),
        (0, u32::MAX as usize, 1, 22),
        (1, u32::MAX as usize, end + 2, 22),
    ];
    for (rows, offset, length, number) in cases {
        let file = with_second(Entry::new(bools, rows, offset, length), len - end);
        let found = sheet_open(&file, 1);
        assert_eq!(found.number, number, "{rows} rows, {length} bytes at {offset}");
        let due = if number == 0 { (offset, length) } else { (0, 0) };
        assert_eq!((found.from, found.len), due);
        assert_eq!(found.reader == no_reader(), number != 0);
        assert_eq!(sheet_open(&file, 0).number, 0, "the first column is as it was");
        open_all(&file, &mut [0; 23]);
    }
    // and so it is in encodings where no bytes are a block, or none
    for encoding in 0..5 {
        let column = Column::numbered(9, encoding, 0).unwrap();
        let number = if matches!(encoding, 1 | 4) { 10 } else { 0 };
        for (offset, number) in [(end, number), (len, number), (end - 1, 22), (len + 1, 22)] {
            let file = with_second(Entry::new(column, 0, offset, 0), len - end);
            assert_eq!(sheet_open(&file, 1).number, number, "{column:?} at {offset}");
        }
    }
}

#[test]
fn the_zero_bit_and_numbers_that_are_no_pair_are_1_behind_22() {
    let sound = Entry::new(Column::new(Kind::Char(2), Encoding::Plain), 1, 33, 2);
    for (entry, number) in [
        (sound, 0),
        (Entry { zero: 1, ..sound }, 1),
        (Entry { kind: 12, width: 0, ..sound }, 1),
        (Entry { kind: 15, ..sound }, 1),
        (Entry { encoding: 5, ..sound }, 1),
        (Entry { encoding: 7, ..sound }, 1),
        (Entry { width: 0, ..sound }, 1),
        (Entry { kind: 9, ..sound }, 1),
        (Entry { width: 255, ..sound }, 11),
        (Entry { rows: 1048577, ..sound }, 3),
        (Entry { rows: (1 << 48) - 1, ..sound }, 3),
        (Entry { zero: 1, rows: 1048577, ..sound }, 1),
        (Entry { zero: 1, offset: 32, ..sound }, 22),
        (Entry { kind: 15, length: 10, ..sound }, 22),
    ] {
        let file = with_second(entry, 9);
        assert_eq!(sheet_open(&file, 1).number, number, "{entry:?}");
        assert_eq!(sheet_open(&file, 0).number, 0);
        open_all(&file, &mut [0; 23]);
    }
}

#[test]
fn blocks_that_overlap_and_bytes_that_no_column_has() {
    // twelve bytes with one between them and the directory and two behind them
    let behind = *b"\xFFabcdefghijkl\xFF\xFF";
    let of = |kind, rows, offset, length| Entry::new(Column::new(kind, Encoding::Plain), rows, offset, length).bytes();
    let end = directory_end(6);
    let file = [
        &[6][..],
        &of(Kind::Char(4), 3, end + 1, 12), // all of them
        &of(Kind::Char(4), 3, end + 1, 12), // again
        &of(Kind::Char(2), 2, end + 5, 4),  // inside
        &of(Kind::Char(6), 2, end + 1, 12), // as other items
        &of(Kind::Char(1), 9, end + 3, 9),  // over part of them
        &of(Kind::Bool, 15, end, 15),       // and over all that there is
        &behind,
    ]
    .concat();
    open_all(&file, &mut [0; 23]);
    let sheet = Sheet::new(&file);
    assert_eq!(sheet.columns(), Ok(6));
    let texts =
        |j| sheet.column(j).map(|reader| reader.rows().map(|row| row.unwrap().text().unwrap().to_string()).collect::<Vec<_>>());
    assert_eq!(texts(0).unwrap(), ["abcd", "efgh", "ijkl"]);
    assert_eq!(texts(1), texts(0));
    assert_eq!(texts(2).unwrap(), ["ef", "gh"]);
    assert_eq!(texts(3).unwrap(), ["abcdef", "ghijkl"]);
    assert_eq!(texts(4).unwrap().concat(), "cdefghijk");
    assert_eq!(sheet.column(5).unwrap().rows().map(|row| row.unwrap()).collect::<Vec<_>>(), vec![Value::Int(1); 15]);
}

/// A file whose blocks lie in any order, with bytes between them or over one another.
fn scattered(columns: &[Filed], chance: &mut Chance) -> Vec<u8> {
    let end = directory_end(columns.len());
    let mut behind: Vec<u8> = Vec::new();
    let mut offsets = vec![0; columns.len()];
    let mut order: Vec<usize> = (0..columns.len()).collect();
    (1..order.len()).for_each(|at| order.swap(at, chance.below(at as u64 + 1) as usize));
    for j in order {
        (0..chance.below(4)).for_each(|_| behind.push(chance.number() as u8));
        let block = &columns[j].block;
        let there = behind.windows(block.len().max(1)).position(|bytes| bytes == &block[..]);
        offsets[j] = end + there.unwrap_or(behind.len());
        if there.is_none() {
            behind.extend(block);
        }
    }
    (0..chance.below(4)).for_each(|_| behind.push(chance.number() as u8));
    let mut file = vec![columns.len() as u8];
    for (filed, offset) in columns.iter().zip(offsets) {
        file.extend(Entry::new(filed.column, filed.rows, offset, filed.block.len()).bytes());
    }
    file.extend(behind);
    file
}

/// A field of a directory's entry takes a telling number.
fn change_entry(file: &mut [u8], columns: usize, chance: &mut Chance) {
    let j = chance.below(columns as u64) as usize;
    let (end, len) = (directory_end(columns) as u64, file.len() as u64);
    let mut entry = Entry::at(file, j);
    let near = |number: u64, chance: &mut Chance| number.wrapping_add(chance.below(5)).wrapping_sub(2);
    match chance.below(8) {
        0 => entry.offset = near(end, chance),
        1 => entry.offset = near(len, chance),
        2 => entry.offset = near(len.wrapping_sub(entry.length), chance),
        3 => entry.length = near(entry.length, chance),
        4 => entry.length = near(len.wrapping_sub(entry.offset), chance),
        5 => entry.rows = near(entry.rows, chance),
        6 => entry.zero = 1,
        _ => entry = Entry { kind: chance.below(16), encoding: chance.below(8), width: chance.below(4), ..entry },
    }
    file[directory_end(j)..directory_end(j + 1)].copy_from_slice(&entry.bytes());
}

/// A file damaged in its directory, in its blocks and in its length.
fn damaged(mut file: Vec<u8>, columns: usize, chance: &mut Chance) -> Vec<u8> {
    for _ in 0..chance.below(4) {
        let len = file.len() as u64;
        match chance.below(9) {
            0 => file.truncate(chance.below(len + 1) as usize),
            1 => file.push(chance.number() as u8),
            2 if len > 0 => file[0] = file[0].wrapping_add(chance.below(5) as u8).wrapping_sub(2),
            3 if len > 0 => file[0] = chance.number() as u8,
            4 if len > 0 => file[chance.below(len) as usize] ^= 1 << chance.below(8),
            5 if len > 0 => file[chance.below(len) as usize] = chance.number() as u8,
            _ if columns > 0 && file.len() >= directory_end(columns) => change_entry(&mut file, columns, chance),
            _ => {}
        }
    }
    file
}

#[test]
fn files_damaged_by_chance() {
    let mut chance = Chance::new(41);
    let mut seen = [0; 23];
    for _ in 0..30_000 {
        let mut columns: Vec<Filed> = (0..chance.below(6)).map(|_| some_filed(8, &mut chance)).collect();
        for filed in &mut columns {
            if chance.one_in(3) {
                (filed.block, filed.rows) = model::damaged(&filed.block, filed.rows, &mut chance);
            }
        }
        let file = scattered(&columns, &mut chance);
        let file = damaged(file, columns.len(), &mut chance);
        open_all(&file, &mut seen);
    }
    for number in [0, 1, 3, 10, 11, 12, 13, 14, 15, 16, 17, 20, 21, 22] {
        assert!(seen[number] > 50, "{number} was seen {} times", seen[number]);
    }
}

/// What calls on an opened column answer and write, from areas that hold the same.
fn play(file: &[u8], j: usize, calls: &[(usize, usize)]) -> Vec<(calls::Given, Areas)> {
    let found = sheet_open(file, j);
    let block = &file[found.from..found.from + found.len];
    let (mut reader, mut answers) = (found.reader, Vec::new());
    for (skip, size) in calls {
        let mut lent = Areas::new(6, 40);
        let given = held::read_into(reader, block, *skip, *size, &mut lent);
        reader = given.reader;
        answers.push((given, lent));
    }
    answers
}

#[test]
fn a_column_is_answered_from_its_entry_and_its_block_alone() {
    let mut chance = Chance::new(42);
    let (mut opened, mut refused, mut changed) = (0, 0, 0);
    for round in 0..12_000 {
        let columns: Vec<Filed> = (0..1 + chance.below(5)).map(|_| some_filed(8, &mut chance)).collect();
        let mut one = scattered(&columns, &mut chance);
        if round % 2 == 0 {
            // damaged, but with a directory that is whole
            change_entry(&mut one, columns.len(), &mut chance);
            let at = directory_end(columns.len()) + chance.below((one.len() - directory_end(columns.len())).max(1) as u64) as usize;
            one.iter_mut().skip(at).take(1).for_each(|byte| *byte = byte.wrapping_add(1));
        }
        let j = chance.below(columns.len() as u64) as usize;
        let entry = Entry::at(&one, j);
        // the other file agrees in its length, in its first byte, in entry j and in the bytes that this names
        let named = entry.offset..entry.offset + entry.length;
        let own = directory_end(j)..directory_end(j + 1);
        let kept = |at: usize| at == 0 || own.contains(&at) || named.contains(&(at as u64));
        let other: Vec<u8> =
            one.iter().enumerate().map(|(at, byte)| if kept(at) { *byte } else { chance.number() as u8 }).collect();
        changed += (one != other) as u32;
        assert_eq!(sheet_open(&one, j), sheet_open(&other, j));
        let calls: Vec<(usize, usize)> = (0..6).map(|_| (chance.below(4) as usize, chance.below(9) as usize)).collect();
        assert_eq!(play(&one, j, &calls), play(&other, j, &calls));
        match sheet_open(&one, j).number {
            0 => opened += 1,
            _ => refused += 1,
        }
    }
    assert!(opened > 2_000 && refused > 2_000 && changed > 10_000, "{opened} {refused} {changed}");
}

#[test]
fn the_greatest_file_and_one_byte_more() {
    let bools = model::column(0, 0);
    // a column at the directory's end, one that ends with the file, and one that is most of it: a blob's end, and its bytes
    let end = directory_end(3);
    let blob = MOST_BYTES - end - 3 - 2;
    let entries = [
        Entry::new(bools, 3, end, 3).bytes(),
        Entry::new(bools, 2, MOST_BYTES - 2, 2).bytes(),
        Entry::new(Column::new(Kind::Blob, Encoding::Plain), 1, end + 3, blob).bytes(),
    ];
    let mut file = [&[3][..], &entries.concat(), &[1, 0, 1], &(blob as u32 - 4).to_le_bytes()].concat();
    file.resize(MOST_BYTES, 7);
    for j in 0..3 {
        assert_eq!(sheet_open(&file, j).number, 0, "column {j}");
    }
    assert_eq!((sheet_open(&file, 3).number, sheet_open(&file, 2).len), (20, blob));
    let rows = Sheet::new(&file[..]).column(1).map(|reader| reader.rows().collect::<Vec<_>>());
    assert_eq!(rows, Ok(vec![Ok(Value::Int(1)); 2]).map_err(|refusal: Refusal| refusal));

    // one byte more is 3 before all: a column that isn't there, over 64 columns
    file.push(7);
    for first in [3, 0, 64, 65, 255] {
        file[0] = first;
        for j in [0, 1, 2, 3, usize::MAX] {
            assert_eq!(sheet_open(&file, j).number, 3, "column {j} of {first}");
        }
        assert_eq!(Sheet::new(&file[..]).columns(), Err(Refusal::Limit));
    }
    // and with a byte less it is a file again
    file.pop();
    assert_eq!((sheet_open(&file, 0).number, Sheet::new(&file[..]).columns()), (21, Err(Refusal::Sheet)));
    file[0] = 3;
    assert_eq!((sheet_open(&file, 0).number, Sheet::new(file).columns()), (0, Ok(3)));
}

/// Bytes that are others each time they are asked for, and how often that was.
struct Changing<'a> {
    first: &'a [u8],
    then: &'a [u8],
    asked: Cell<u32>,
}

impl AsRef<[u8]> for Changing<'_> {
    fn as_ref(&self) -> &[u8] {
        self.asked.set(self.asked.get() + 1);
        if self.asked.get() % 2 == 1 {
            self.first
        } else {
            self.then
        }
    }
}

#[test]
fn a_file_is_asked_for_its_bytes_once_a_call() {
    let file = sheets::file_of(&small());
    let sheet = Sheet::new(Changing { first: &file, then: &file[..1], asked: Cell::new(0) });
    for _ in 0..3 {
        // all six columns are in the first bytes, and the others are no file
        let rows = sheet.column(5).map(|reader| reader.rows().count());
        assert_eq!((rows, sheet.column(5).unwrap_err()), (Ok(2), Refusal::Sheet));
        assert_eq!((sheet.columns(), sheet.columns()), (Ok(6), Err(Refusal::Sheet)));
    }
    assert_eq!(sheet.file().asked.get(), 12);
}

#[test]
fn a_sheet_is_shared_by_threads_and_keeps_its_file() {
    fn shared<T: Send + Sync>(one: T) -> T {
        one
    }
    let columns = small();
    let file: Arc<[u8]> = sheets::file_of(&columns).into();
    let sheet = shared(Sheet::new(file.clone()));
    let counts: Vec<Vec<usize>> = thread::scope(|scope| {
        let count = || (0..6).map(|j| sheet.column(j).unwrap().rows().filter(|row| row.is_ok()).count()).collect();
        let threads: Vec<_> = (0..8).map(|_| scope.spawn(count)).collect();
        threads.into_iter().map(|one| one.join().unwrap()).collect()
    });
    let due: Vec<usize> = columns.iter().map(|filed| filed.rows as usize).collect();
    assert_eq!(counts, vec![due; 8]);
    assert!(Arc::ptr_eq(sheet.file(), &file) && Arc::ptr_eq(&sheet.clone().into_file(), &file));
    // a column's reader goes to another thread, and is cloned there
    let reader = shared(sheet.column(0).unwrap());
    let rows = thread::scope(|scope| scope.spawn(|| reader.clone().rows().count() + reader.rows().count()).join().unwrap());
    assert_eq!(rows, 6);
}
