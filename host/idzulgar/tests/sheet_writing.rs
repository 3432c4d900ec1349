//! Writing sheet files, against the model of document 02: sound columns and others, lists and blocks that are cut, room that is short, and
//! the limits; and what is written, opened again.
mod model;

use idzulgar::calls::{self, Written};
use idzulgar::{write_sheet, Column, Encoding, Kind, Refusal, Sheet, Value};
use model::held::{sheet_open, sheet_write};
use model::sheets::{self, directory_end, Filed, MOST_BYTES};
use model::Chance;

/// A column of some rows, and the rows that it gives back.
fn some_filed(most: u64, chance: &mut Chance) -> (Filed, Vec<Value>) {
    let column = model::column(chance.below(model::PAIRS), 1 + chance.below(6));
    let rows = model::some_rows(column.kind, most, chance);
    let stored = rows.iter().map(|row| model::stored(column, row)).collect();
    (Filed { column, rows: rows.len() as u64, block: model::block_of(column, &rows) }, stored)
}

fn write(columns: &[Filed]) -> Result<Vec<u8>, Refusal> {
    let columns: Vec<_> = columns.iter().map(|filed| (filed.column, filed.rows, &filed.block[..])).collect();
    write_sheet(&columns)
}

/// A write with room for all, and the number.
fn number(columns: &[usize], blocks: &[u8]) -> u8 {
    sheet_write(columns, blocks, &mut vec![0x5A; directory_end(columns.len()) + blocks.len() + 3]).number
}

#[test]
fn what_is_written_opens_and_gives_the_rows_back() {
    let mut chance = Chance::new(51);
    let (mut columns_read, mut full, mut empty) = (0, 0, 0);
    for round in 0..600 {
        let count = match round % 20 {
            0 => 64,
            1 => 0,
            _ => chance.below(12),
        };
        let (columns, rows): (Vec<Filed>, Vec<Vec<Value>>) = (0..count).map(|_| some_filed(10, &mut chance)).unzip();
        let file = write(&columns).expect("sound columns");
        assert!(file == sheets::file_of(&columns), "{columns:?}");
        let sheet = Sheet::new(&file[..]);
        assert_eq!(sheet.columns(), Ok(columns.len()));
        for (j, (filed, rows)) in columns.iter().zip(rows).enumerate() {
            assert_eq!(sheet_open(&file, j).number, 0, "{filed:?}");
            let reader = sheet.column(j).expect("a sound block");
            assert_eq!((*reader.block(), reader.kind()), (&filed.block[..], filed.column.kind));
            assert_eq!(reader.rows().collect::<Result<Vec<_>, _>>(), Ok(rows), "column {j}, {filed:?}");
            columns_read += 1;
            empty += filed.block.is_empty() as u32;
        }
        for j in [columns.len(), 64, usize::MAX] {
            assert_eq!(sheet.column(j).unwrap_err(), Refusal::NoColumn);
        }
        full += (count == 64) as u32;
    }
    assert!(columns_read > 4_000 && full == 30 && empty > 100, "{columns_read} {full} {empty}");
}

/// A number of any size, or a small one.
fn some_number(chance: &mut Chance) -> usize {
    match chance.below(3) {
        0 => (chance.number() >> chance.below(64)) as usize,
        _ => chance.below(14) as usize,
    }
}

/// Changes what the writer is lent: a number, a list that is cut or goes on, a block's byte, blocks that are cut or go on.
fn change(numbers: &mut Vec<usize>, blocks: &mut Vec<u8>, chance: &mut Chance) {
    let (count, len) = (numbers.len() as u64, blocks.len() as u64);
    match chance.below(9) {
        0 if count > 0 => numbers[chance.below(count) as usize] = some_number(chance),
        1 if count > 0 => {
            // one row or one byte of a block more or less
            let at = 3 + 5 * chance.below(count.div_ceil(5)) + chance.below(2);
            let by = [1, usize::MAX][chance.below(2) as usize];
            numbers.iter_mut().skip(at as usize).take(1).for_each(|number| *number = number.wrapping_add(by));
        }
        2 if chance.one_in(2) => numbers.truncate(chance.below(count + 1) as usize),
        3 if chance.one_in(2) => (0..1 + chance.below(5)).for_each(|_| numbers.push(0)),
        4 => blocks.truncate(len.saturating_sub(1 + chance.below(9)) as usize),
        5 => (0..1 + chance.below(9)).for_each(|_| blocks.push(chance.number() as u8)),
        6 if len > 0 => blocks[chance.below(len) as usize] = chance.number() as u8,
        7 if len > 0 => blocks[chance.below(len) as usize] ^= 1 << chance.below(8),
        8 if count > 4 => {
            // another pair for the same block
            let at = 5 * chance.below(count / 5) as usize;
            (numbers[at], numbers[at + 1]) = (chance.below(13) as usize, chance.below(6) as usize);
        }
        _ => {}
    }
}

#[test]
fn lists_and_blocks_by_chance() {
    let mut chance = Chance::new(52);
    let mut seen = [0u32; 23];
    for _ in 0..60_000 {
        let columns: Vec<Filed> = (0..chance.below(5)).map(|_| some_filed(8, &mut chance).0).collect();
        let (mut numbers, mut blocks) = sheets::lent(&columns);
        (0..chance.below(3)).for_each(|_| change(&mut numbers, &mut blocks, &mut chance));
        // room for the file and some bytes, for just the file, for a byte less, for a part of it
        let len = match sheets::written(&numbers, &blocks, usize::MAX) {
            Ok(file) => file.len(),
            Err(_) => directory_end(numbers.len() / 5) + blocks.len(),
        };
        let room = match chance.below(6) {
            0 | 1 => len,
            2 => len - 1,
            3 => chance.below(len as u64) as usize,
            _ => len + chance.below(20) as usize,
        };
        let mut out: Vec<u8> = (0..room).map(|_| chance.number() as u8).collect();
        let answer = sheet_write(&numbers, &blocks, &mut out);
        seen[answer.number as usize] += 1;
        if answer.number == 0 {
            // each column of the file is opened, and behind the file the room is as it was, which the model saw to
            for j in 0..numbers.len() / 5 {
                assert_eq!(sheet_open(&out[..answer.len], j).number, 0);
            }
        }
    }
    for number in [0, 1, 3, 4, 10, 11, 12, 13, 14, 15, 16, 17, 21] {
        assert!(seen[number] > 50, "{number} was seen {} times", seen[number]);
    }
    assert_eq!((seen[9], seen[20], seen[22]), (0, 0, 0));
}

#[test]
fn columns_by_their_number_and_lists_that_are_cut() {
    let mut seen = [0u32; 22];
    for columns in [0, 1, 2, 63, 64, 65, 66, 255, 256, 1000] {
        // bool, plain, no rows, no bytes
        for more in 0..5 {
            let numbers = vec![0; 5 * columns + more];
            let due = if columns > 64 || more > 0 { 21 } else { 0 };
            assert_eq!(number(&numbers, &[]), due, "{columns} columns and {more} numbers");
            // before a block that is bad, and before room that is short
            let mut bad = numbers.clone();
            bad.iter_mut().take(1).for_each(|kind| *kind = 12);
            let first = if columns > 0 { 1 } else { 4 };
            let due = if columns > 64 || more > 0 { 21 } else { first };
            assert_eq!(sheet_write(&bad, &[], &mut vec![]).number, due, "{columns} columns and {more} numbers");
            seen[due as usize] += 1;
        }
        let list = vec![(Column::new(Kind::Bool, Encoding::Plain), 0, &[][..]); columns];
        match write_sheet(&list) {
            Ok(file) => assert_eq!((file.len(), Sheet::new(file).columns()), (directory_end(columns), Ok(columns))),
            Err(refusal) => assert!(refusal == Refusal::Sheet && columns > 64),
        }
    }
    assert_eq!((seen[1], seen[4], seen[21]), (4, 1, 45));
    // a file of no columns is one byte
    let mut out = vec![9, 9];
    assert_eq!((sheet_write(&[], &[], &mut out), out), (Written { number: 0, len: 1 }, vec![0, 9]));
    assert_eq!(write_sheet(&[]), Ok(vec![0]));
}

#[test]
fn room_of_each_length_and_bytes_behind_the_last_block() {
    let mut chance = Chance::new(53);
    for _ in 0..40 {
        let columns: Vec<Filed> = (0..chance.below(4)).map(|_| some_filed(5, &mut chance).0).collect();
        let (numbers, mut blocks) = sheets::lent(&columns);
        let len = directory_end(columns.len()) + blocks.len();
        for behind in 0..3 {
            for room in (0..len.min(60)).chain([len - 1, len, len + 1, len + 40]) {
                let mut out = vec![0x5A; room];
                let answer = sheet_write(&numbers, &blocks, &mut out);
                assert_eq!(answer, if room < len { Written { number: 4, len: 0 } } else { Written { number: 0, len } });
                assert!(out[answer.len..].iter().all(|byte| *byte == 0x5A), "{behind} bytes behind the blocks, room {room}");
            }
            blocks.push(0xFF);
        }
    }
}

/// i16, plain: the numbers of a column of so many rows, and of a block of so many bytes.
fn i16s(rows: usize, len: usize) -> [usize; 5] {
    [1, 0, 0, rows, len]
}

#[test]
fn the_first_bad_column_decides() {
    let blocks = [7; 8];
    let good = i16s(2, 4);
    let cases: [(&[[usize; 5]], u8); 16] = [
        (&[good, good], 0),
        (&[good, i16s(2, 3)], 11),
        (&[i16s(2, 3), [12, 0, 0, 0, 0]], 11),
        (&[[12, 0, 0, 0, 0], i16s(2, 3)], 1),
        (&[i16s(1048577, 0), i16s(2, 3)], 3),
        // lent bytes that end before the block does, by one and by as many as there are numbers
        (&[good, i16s(2, 5)], 10),
        (&[good, good, i16s(0, 1)], 10),
        (&[i16s(4, 9)], 10),
        (&[i16s(4, usize::MAX)], 10),
        (&[good, i16s(4, usize::MAX)], 10),
        (&[good, i16s(4, usize::MAX - 3)], 10),
        // that comes before what opening says of the same column, and behind a column before it
        (&[good, [12, 0, 0, 0, 5]], 10),
        (&[[12, 0, 0, 0, 0], i16s(4, 9)], 1),
        (&[i16s(2, 3), i16s(4, 9)], 11),
        // no bytes behind the last of them
        (&[good, good, i16s(0, 0)], 0),
        (&[good, good, i16s(1, 0)], 11),
    ];
    for (columns, due) in cases {
        let numbers = columns.concat();
        assert_eq!(number(&numbers, &blocks), due, "{columns:?}");
        let short = sheet_write(&numbers, &blocks, &mut vec![]).number;
        assert_eq!(short, if due == 0 { 4 } else { due }, "{columns:?}");
    }
    // a column that isn't all of its numbers is none
    let numbers = [&good[..], &i16s(2, 3)].concat();
    assert_eq!((number(&numbers, &blocks), number(&numbers[..9], &blocks)), (11, 21));
    // width, encoding, rows: any numbers
    for five in [[usize::MAX; 5], [8, 0, 256, 0, 0], [8, 0, 0, 0, 0], [0, 5, 0, 0, 0], [0, 0, 1, 0, 0], [0, 1 << 32, 0, 0, 0]] {
        let len = five[4];
        assert_eq!(number(&five, &blocks), if len > 8 { 10 } else { 1 }, "{five:?}");
    }
    assert_eq!(number(&[0, 0, 0, usize::MAX, 0], &blocks), 3);
    assert_eq!(number(&[0, 2, 0, 1 << 48, 0], &blocks), 3);
    assert_eq!(number(&[0, 2, 0, (1 << 48) - 1, 0], &blocks), 16);
}

/// blob, plain, one row: the numbers of a block of so many bytes, and these bytes.
fn long(len: usize) -> ([usize; 5], Vec<u8>) {
    let mut block = (len as u32 - 4).to_le_bytes().to_vec();
    block.resize(len, 7);
    ([9, 0, 0, 1, len], block)
}

#[test]
fn the_greatest_file_and_one_byte_more() {
    let column = Column::new(Kind::Blob, Encoding::Plain);
    let most = MOST_BYTES - directory_end(1);
    for (more, room, due) in [(0, 0, 0), (0, 1, 4), (1, 0, 3), (1, 9, 3), (17, 0, 3), (18, 0, 3)] {
        let (numbers, block) = long(most + more);
        let answer = sheet_write(&numbers, &block, &mut vec![0x5A; MOST_BYTES + more - room]);
        assert_eq!(answer.number, due, "{more} bytes more, {room} short");
        if room == 0 {
            let written = write_sheet(&[(column, 1, &block)]);
            assert_eq!(written.map(|file| file.len()), if due == 0 { Ok(MOST_BYTES) } else { Err(Refusal::Limit) });
        }
    }
    // two blocks, each of half; the second of a byte too many for the file, and one that is bad besides
    let half = (MOST_BYTES - directory_end(2)) / 2;
    let rest = MOST_BYTES - directory_end(2) - half;
    let (first, first_block) = long(half);
    for (len, rows, due) in [(rest, 1, 0), (rest + 1, 1, 3), (rest + 1, 2, 14), (rest, 2, 14), (MOST_BYTES + 1, 1, 3)] {
        let (mut second, second_block) = long(len);
        second[3] = rows;
        let (numbers, blocks) = ([first, second].concat(), [&first_block[..], &second_block].concat());
        let mut out = vec![0x5A; MOST_BYTES];
        let answer = sheet_write(&numbers, &blocks, &mut out);
        assert_eq!(answer.number, due, "{len} bytes, {rows} rows");
        let written = write_sheet(&[(column, 1, &first_block), (column, rows as u64, &second_block)]);
        match written {
            Ok(file) => assert!(due == 0 && file == out && sheet_open(&file, 1).len == len),
            Err(refusal) => assert_eq!(refusal.number(), due),
        }
    }
}

#[test]
fn the_wrapper_refuses_as_the_call_does() {
    let ints = Column::new(Kind::I16, Encoding::Plain);
    let key = Column::new(Kind::Blob, Encoding::Dictionary);
    let unknown = [0, 0, 0, 0, 0, 0, 0, 13, 0, 0, 0, 0, 1, 0, 0, 0, 1, 0, 0, 0, 1, 1, 0, 0, 0x80];
    let sound = (ints, 2, &[1, 0, 2, 0][..]);
    for (columns, due) in [
        (vec![sound, sound], Ok(2)),
        (vec![sound; 64], Ok(64)),
        (vec![sound; 65], Err(Refusal::Sheet)),
        (vec![sound, (ints, 3, &[1, 0, 2, 0]), (key, 1, &unknown)], Err(Refusal::Length)),
        (vec![sound, (key, 1, &unknown), (ints, 3, &[1, 0, 2, 0])], Err(Refusal::Key)),
        (vec![(Column::new(Kind::Char(0), Encoding::Plain), 0, &[]), (key, 1, &unknown)], Err(Refusal::Column)),
        (vec![sound, (ints, u64::MAX, &[])], Err(Refusal::Limit)),
        (vec![sound, (Column::new(Kind::String, Encoding::Plain), 1, &[1, 0, 0, 0, 0xFF])], Err(Refusal::Text)),
        (vec![sound, (key, 0, &[])], Err(Refusal::Cut)),
    ] {
        let written = write_sheet(&columns);
        assert_eq!(written.clone().map(|file| file[0]), due.map(|count: u8| count), "{columns:?}");
        let filed: Vec<Filed> =
            columns.iter().map(|(column, rows, block)| Filed { column: *column, rows: *rows, block: block.to_vec() }).collect();
        let (numbers, blocks) = sheets::lent(&filed);
        assert_eq!(number(&numbers, &blocks), due.map_or_else(Refusal::number, |_| 0));
        assert!(written.map_or(true, |file| file == sheets::file_of(&filed)));
    }
}

#[test]
fn the_longest_numbers_an_entry_has() {
    // rows that take all 48 bits, a char of width 255
    let rows = 281_474_976_710_655;
    let mut block = 65_537u32.to_le_bytes().to_vec();
    block.extend((5 * 65_536 + 3u32).to_le_bytes());
    (0..65_536).for_each(|_| block.extend([255, 255, 255, 255, 15]));
    block.extend([0xFF, 0xFF, 0x03]);
    block.extend((0..65_537).map(|run| (run % 2) as u8));
    let wide = Column::new(Kind::Char(255), Encoding::Plain);
    let runs = Column::new(Kind::Bool, Encoding::RunLength);
    let file = write_sheet(&[(runs, rows, &block), (wide, 1, &[b'a'; 255])]).expect("sound blocks");
    assert_eq!(file[1..9], [0x04, 0, 0xFF, 0xFF, 0xFF, 0xFF, 0xFF, 0xFF]);
    assert_eq!(file[17..25], [0x81, 0xFE, 0, 0, 0, 0, 0, 1]);
    let found = [sheet_open(&file, 0), sheet_open(&file, 1)];
    assert_eq!((found[0].reader.rows, found[1].reader.width), (rows as usize, 255));
    assert_eq!(calls::remaining(found[0].reader).rows, rows as usize);
    let sheet = Sheet::new(file);
    let behind = |skip| sheet.column(0).unwrap().rows_after(skip).collect::<Result<Vec<_>, _>>();
    assert_eq!(behind(rows - 1), Ok(vec![Value::Int(0)]));
    assert_eq!(behind(rows), Ok(vec![]));
}
