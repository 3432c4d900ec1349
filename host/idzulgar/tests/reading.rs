//! The reading half of the wrapper against a model of document 01, on sound blocks, damaged blocks and changed memory.
mod model;

use idzulgar::calls::{self, Given, ReaderRecord};
use idzulgar::{Batch, Column, Encoding, Kind, Reader, Refusal, Row, Value};
use model::reads::{self, Areas};
use model::Chance;

fn read_all(column: Column, n: u64, block: &[u8]) -> Result<Vec<Value>, Refusal> {
    Reader::open(column, n, block)?.rows().collect()
}

#[test]
fn rows_come_back_in_their_stored_form() {
    let mut chance = Chance::new(1);
    for round in 0..4_000 {
        let column = model::column(round % model::PAIRS, 1 + chance.below(20));
        let rows = model::some_rows(column.kind, 60, &mut chance);
        let block = model::block_of(column, &rows);
        let stored: Vec<Value> = rows.iter().map(|row| model::stored(column, row)).collect();
        assert_eq!(read_all(column, rows.len() as u64, &block), Ok(stored), "{column:?} {rows:?}");
    }
}

#[test]
fn any_calls_answer_as_the_rows_tell() {
    let mut chance = Chance::new(2);
    for round in 0..4_000 {
        let column = model::column(round % model::PAIRS, 1 + chance.below(20));
        let rows = model::some_rows(column.kind, 40, &mut chance);
        let block = model::block_of(column, &rows);
        let rows: Vec<Value> = rows.iter().map(|row| model::stored(column, row)).collect();
        let mut reader = Reader::open(column, rows.len() as u64, block).expect("a sound block");
        let mut batch = Batch::new(column.kind, 12, 200).expect("memory for 12 rows");
        let mut place = 0;
        for _ in 0..12 {
            let left = rows.len() - place;
            assert_eq!(reader.remaining(), Ok(left as u64));
            let skip = if chance.one_in(2) { 0 } else { chance.below(left as u64 + 3) as usize };
            let size = if chance.one_in(4) { 0 } else { chance.below(16) as usize };
            let behind = rows.get(place + skip..).unwrap_or(&[]);
            let next = &behind[..size.min(behind.len())];
            let due = if skip == 0 && size == 0 {
                Err(Refusal::NoRows)
            } else if skip > left {
                Err(Refusal::TooFar)
            } else if next.len() > 12 || reads::weight(next) > 200 {
                Err(Refusal::Room)
            } else {
                Ok(next.len())
            };
            let had: Vec<Value> = batch.iter().map(Value::from).collect();
            assert_eq!(reader.read(skip as u64, size, &mut batch), due, "{column:?} {rows:?} at {place}: {skip}, {size}");
            let has: Vec<Value> = batch.iter().map(Value::from).collect();
            if due.is_ok() {
                assert_eq!(has, next);
                place += skip + next.len();
            } else {
                assert_eq!(has, had);
            }
        }
    }
}

#[test]
fn damaged_blocks_get_the_number_of_document_01() {
    let mut chance = Chance::new(3);
    let mut seen = [0u32; 18];
    for round in 0..200_000 {
        let column = model::column(round % model::PAIRS, 1 + chance.below(5));
        let rows = model::some_rows(column.kind, 12, &mut chance);
        let (block, n) = model::damaged(&model::block_of(column, &rows), rows.len() as u64, &mut chance);
        let number = model::open_number(column, n, &block);
        seen[number as usize] += 1;
        match Reader::open(column, n, &block[..]) {
            Err(refusal) => assert_eq!(refusal.number(), number, "{column:?} {n} {block:02X?}"),
            Ok(reader) => {
                assert_eq!(number, 0, "{column:?} {n} {block:02X?}");
                let read: Result<Vec<Value>, Refusal> = reader.rows().take(500).collect();
                assert_eq!(read, Ok(model::rows_of(column, n, &block, 500)), "{column:?} {n} {block:02X?}");
            }
        }
    }
    for number in [0, 3, 10, 11, 12, 13, 14, 15, 16, 17] {
        assert!(seen[number] > 0, "no damaged block for {number}");
    }
}

/// A read, held to the model: its answer, and all that it leaves in the areas.
fn read(reader: ReaderRecord, block: &[u8], skip: usize, size: usize, lent: &mut Areas) -> Given {
    let (due, left) = reads::read(reader, block, skip, size, lent);
    let given = calls::read(reader, block, skip, size, &mut lent.values, &mut lent.flags, &mut lent.ends, &mut lent.bytes);
    assert_eq!((given, &*lent), (due, &left), "{skip}, {size} of {block:02X?} by {reader:?}");
    given
}

#[test]
fn memory_changed_between_calls_is_refused_or_read_and_nothing_is_written_by_a_refusal() {
    let mut chance = Chance::new(4);
    let mut seen = [0u32; 10];
    for round in 0..100_000 {
        let column = model::column(round % model::PAIRS, 1 + chance.below(5));
        let rows = model::some_rows(column.kind, 12, &mut chance);
        let mut block = model::block_of(column, &rows);
        let (kind, encoding, width) = column.numbers();
        let mut reader = calls::open(kind, encoding, width, rows.len(), &block).reader;
        for _ in 0..4 {
            if chance.one_in(2) && !block.is_empty() {
                let at = chance.below(block.len() as u64) as usize;
                block[at] = chance.number() as u8;
            }
            if chance.one_in(12) {
                block.push(0);
            }
            let mut lent = Areas::new(chance.below(16) as usize, chance.below(100) as usize);
            let before = lent.clone();
            let (skip, size) = (chance.below(4) as usize, chance.below(8) as usize);
            let answer = read(reader, &block, skip, size, &mut lent);
            seen[answer.number as usize] += 1;
            if answer.number == 0 {
                assert_eq!(lent.flags[answer.rows..], before.flags[answer.rows..]);
                assert_eq!(answer.reader.place, reader.place + skip + answer.rows);
            } else {
                assert_eq!((answer.rows, answer.bytes, answer.reader), (0, 0, reader));
                assert_eq!(lent, before);
            }
            reader = answer.reader;
        }
    }
    for number in [0, 4, 6, 7, 9] {
        assert!(seen[number] > 5_000, "{number} was seen {} times", seen[number]);
    }
}

#[test]
fn a_count_longer_than_needed_is_refused_at_each_place() {
    for longer in
        [&[0x80, 0][..], &[0x81, 0], &[0xFF, 0], &[0x80, 0x80, 0], &[0x80, 0x80, 0x80, 0x80, 0], &[0xFF, 0xFF, 0xFF, 0xFF, 0]]
    {
        for run in 0..3 {
            let mut counts = vec![1; run];
            counts.extend(longer);
            counts.resize(longer.len() + 2, 1);
            let mut runs = 3u32.to_le_bytes().to_vec();
            runs.extend((counts.len() as u32).to_le_bytes());
            runs.extend(counts);
            let with = |inner: &[u8]| [&runs[..], inner].concat();
            // three bools; the same with a bitmap; three keys of no entry's, and no entries
            let keys = with(&[0, 0, 0, 0x80].repeat(3));
            let dictionary = [&(keys.len() as u64).to_be_bytes()[..], &[0; 4], &keys].concat();
            for (encoding, block) in [
                (Encoding::RunLength, with(&[1, 0, 1])),
                (Encoding::RunLengthNullable, with(&[1, 0, 1, 7, 1, 0, 0, 0])),
                (Encoding::Dictionary, dictionary),
            ] {
                let refusal = Reader::open(Column::new(Kind::Bool, encoding), 3, &block[..]).err();
                assert_eq!(refusal, Some(Refusal::Varint), "{encoding:?} {block:02X?}");
            }
        }
    }
}

/// A number of any size, or a small one.
fn some_number(chance: &mut Chance) -> usize {
    let bits = chance.below(65);
    if bits == 64 {
        chance.below(6) as usize
    } else {
        (chance.number() >> bits) as usize
    }
}

/// A record with any numbers, and bytes.
fn forged(chance: &mut Chance) -> (ReaderRecord, Vec<u8>) {
    let mut number = || some_number(chance);
    let mut reader = ReaderRecord {
        kind: number() % 13,
        encoding: number() % 6,
        width: number(),
        rows: number(),
        len: number(),
        runs: number(),
        counts: number(),
        keys: number(),
        entries: number(),
        place: number(),
        run: number(),
        at: number(),
        taken: number(),
        nulls: number(),
    };
    if reader.kind != 8 {
        reader.width = 0;
    }
    let block: Vec<u8> = (0..chance.below(40)).map(|_| chance.number() as u8).collect();
    if chance.one_in(2) {
        reader.len = block.len();
        reader.place = 0;
    }
    if !chance.one_in(4) {
        reader.nulls = chance.below((reader.place as u64).saturating_add(1)) as usize;
    }
    (reader, block)
}

/// A block with its record, of which some fields have other numbers.
fn altered(chance: &mut Chance) -> (ReaderRecord, Vec<u8>) {
    let column = model::column(chance.below(model::PAIRS), 1 + chance.below(5));
    let rows = model::some_rows(column.kind, 12, chance);
    let block = model::block_of(column, &rows);
    let (kind, encoding, width) = column.numbers();
    let mut r = calls::open(kind, encoding, width, rows.len(), &block).reader;
    for _ in 0..1 + chance.below(2) {
        let fields = [&mut r.rows, &mut r.runs, &mut r.counts, &mut r.keys, &mut r.entries, &mut r.run, &mut r.at, &mut r.taken];
        let field = chance.below(fields.len() as u64 + 2) as usize;
        let number = if chance.one_in(6) { some_number(chance) } else { chance.below(8) as usize };
        match fields.into_iter().nth(field) {
            Some(field) => *field = number,
            None => r.place = number,
        }
    }
    if chance.one_in(2) {
        r.nulls = chance.below((r.place as u64).saturating_add(2)) as usize;
    }
    (r, block)
}

#[test]
fn forged_records_get_an_answer() {
    let mut chance = Chance::new(5);
    let mut seen = [0u32; 10];
    let mut counted = [0u32; 2];
    for round in 0..200_000 {
        let (reader, block) = if round % 2 == 0 { forged(&mut chance) } else { altered(&mut chance) };
        let mut lent = Areas::new(chance.below(9) as usize, 64);
        let skip = if chance.one_in(8) { usize::MAX } else { chance.below(5) as usize };
        let given = read(reader, &block, skip, chance.below(9) as usize, &mut lent);
        assert!([0, 4, 6, 7, 9].contains(&given.number));
        assert_eq!(calls::remaining(reader), reads::remaining(reader), "{reader:?}");
        seen[given.number as usize] += 1;
        if given.number == 0 {
            counted[(given.reader.nulls > reader.nulls) as usize] += 1;
        }
    }
    for number in [0, 4, 6, 7, 9] {
        assert!(seen[number] > 1_000, "{number} was seen {} times", seen[number]);
    }
    assert!(counted[0] > 1_000 && counted[1] > 1_000, "{counted:?}");
}

#[test]
fn a_refused_opening_leaves_a_record_that_every_call_refuses() {
    let answer = calls::open(0, 0, 0, 1, &[]);
    assert_eq!((answer.number, answer.reader.kind), (11, 255));
    assert_eq!(calls::remaining(answer.reader).number, 9);
    for (skip, size, number) in [(0, 0, 6), (1, 0, 9), (0, 1, 9), (1, 1, 9), (usize::MAX, usize::MAX, 9)] {
        assert_eq!(read(answer.reader, &[], skip, size, &mut Areas::new(1, 1)).number, number, "{skip}, {size}");
    }
    assert!(Reader::from_parts(&[0u8][..], answer.reader).is_err());
}

/// Document 01's sample A: i32, run-length, 7 7 7 -1.
const SAMPLE_A: [u8; 18] = [2, 0, 0, 0, 2, 0, 0, 0, 3, 1, 7, 0, 0, 0, 255, 255, 255, 255];

/// A read and its answer: rows to pass over, rows to give at most, the rows' integers.
type Line<'a> = (u64, usize, Result<&'a [i64], Refusal>);

#[test]
fn sample_i() {
    let lines: [&[Line]; 2] = [
        &[(2, 0, Ok(&[])), (0, 1, Ok(&[7])), (0, 5, Ok(&[-1])), (0, 5, Ok(&[])), (1, 0, Err(Refusal::TooFar))],
        &[(2, 1, Ok(&[7])), (0, 5, Ok(&[-1])), (0, 5, Ok(&[])), (1, 0, Err(Refusal::TooFar))],
    ];
    for line in lines {
        let mut reader = Reader::open(Column::new(Kind::I32, Encoding::RunLength), 4, SAMPLE_A).unwrap();
        let mut batch = Batch::new(Kind::I32, 5, 0).unwrap();
        for (skip, size, due) in line {
            let answer = reader.read(*skip, *size, &mut batch);
            assert_eq!(answer, due.map(<[i64]>::len), "{skip}, {size}");
            assert_eq!(batch.values(), due.unwrap_or(&[]));
            assert!(batch.iter().eq(batch.values().iter().map(|value| Row::Int(*value))));
        }
        assert_eq!(reader.remaining(), Ok(0));
    }
}

#[test]
fn a_run_of_very_many_rows_is_skipped_at_once() {
    // 65,536 runs of 4,294,967,295 rows of a bool, and one of the rest
    let runs = 65_536u32;
    let mut block = (runs + 1).to_le_bytes().to_vec();
    block.extend((5 * runs + 3).to_le_bytes());
    (0..runs).for_each(|_| block.extend([255, 255, 255, 255, 15]));
    block.extend([0xFF, 0xFF, 0x03]);
    block.extend((0..=runs).map(|run| (run % 2) as u8));
    let n = 281_474_976_710_655;
    let mut reader = Reader::open(Column::new(Kind::Bool, Encoding::RunLength), n, block).expect("a sound block");
    let behind = |skip| reader.clone().rows_after(skip).collect::<Result<Vec<_>, _>>();
    assert_eq!(behind(n - 1), Ok(vec![Value::Int(0)]));
    assert_eq!(behind(n), Ok(vec![]));
    assert_eq!(behind(n + 1), Err(Refusal::TooFar));
    let mut batch = Batch::new(Kind::Bool, 2, 0).expect("memory for two rows");
    assert_eq!(reader.read(n - 2, 2, &mut batch), Ok(2));
    assert_eq!((batch.values(), reader.remaining()), (&[0, 0][..], Ok(0)));
}

#[test]
fn long_rows_come_through_the_iterator() {
    let long = vec![9u8; 3 << 20];
    let rows = [Value::Bytes(long), Value::Null, Value::Bytes(vec![1])];
    let column = Column::new(Kind::Blob, Encoding::RunLengthNullable);
    let many: Vec<Value> = rows.iter().flat_map(|row| std::iter::repeat_n(row.clone(), 5)).collect();
    let block = model::block_of(column, &many);
    assert_eq!(read_all(column, 15, &block), Ok(many));
}

#[test]
fn every_refusal_says_what_it_means() {
    let mut texts = std::collections::HashSet::new();
    for number in [1, 2, 3, 4, 6, 7, 9, 10, 11, 12, 13, 14, 15, 16, 17, 20, 21, 22, 25, 200] {
        let refusal = Refusal::check(number).unwrap_err();
        assert_eq!(refusal.number(), number);
        assert!(refusal.to_string().ends_with(&format!("(refusal {number})")));
        assert!(texts.insert(refusal.to_string()));
    }
    assert_eq!(Refusal::check(0), Ok(()));
}
