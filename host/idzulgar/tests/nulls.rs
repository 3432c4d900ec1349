//! The count of nulls: how many of the rows given since opening were null. Each count is worked out here from the rows, and held to the
//! model as well.
mod model;

use idzulgar::calls::{self, Left, ReaderRecord};
use idzulgar::{Batch, Column, Encoding, Kind, Reader, Refusal, Value};
use model::held::{open, read, read_into, refused};
use model::reads::{self, Areas};
use model::Chance;

/// Whether columns of an encoding hold nulls.
fn holds_nulls(encoding: Encoding) -> bool {
    !matches!(encoding, Encoding::Plain | Encoding::RunLength)
}

/// Eight rows of a kind: nulls alone and side by side, and items that are empty, 0 or neither.
fn eight(kind: Kind) -> Vec<Value> {
    let item = |number: u8| match kind {
        Kind::F64 => Value::F64(number as f64),
        _ if kind.is_bytes() => Value::Bytes(vec![b'a'; number as usize]),
        _ => Value::Int(number as i64),
    };
    let null = || Value::Null;
    vec![item(1), null(), item(0), null(), null(), null(), item(0), item(1)]
}

/// The block of these rows, and the rows that it gives back.
fn block_of_eight(column: Column) -> (Vec<u8>, Vec<Value>) {
    let rows = eight(column.kind);
    (model::block_of(column, &rows), rows.iter().map(|row| model::stored(column, row)).collect())
}

#[test]
fn after_any_calls_it_is_the_nulls_among_the_rows_handed_out() {
    let mut chance = Chance::new(31);
    let (mut nulls_given, mut nulls_passed_over) = (0, 0);
    let mut refused_with_nulls = [0u32; 10];
    for round in 0..6_000 {
        let column = model::column(round % model::PAIRS, 1 + chance.below(20));
        let list = model::some_rows(column.kind, 80, &mut chance);
        let block = model::block_of(column, &list);
        let rows: Vec<Value> = list.iter().map(|row| model::stored(column, row)).collect();
        let mut reader = Reader::open(column, rows.len() as u64, &block[..]).expect("a sound block");
        assert_eq!(reader.nulls(), 0);
        let mut batch = Batch::new(column.kind, 8, 200).expect("memory for 8 rows");
        let (mut place, mut count) = (0, 0);
        for _ in 0..12 {
            let left = rows.len() - place;
            let skip = if chance.one_in(2) { 0 } else { chance.below((left as u64).min(20) + 3) as usize };
            let size = if chance.one_in(4) { 0 } else { chance.below(16) as usize };
            match reader.read(skip as u64, size, &mut batch) {
                Ok(given) => {
                    let (passed_over, next) = rows[place..place + skip + given].split_at(skip);
                    assert!(batch.iter().map(Value::from).eq(next.iter().cloned()));
                    assert_eq!(batch.flags().iter().filter(|flag| **flag == 0).count(), reads::nulls(next));
                    count += reads::nulls(next);
                    place += skip + given;
                    nulls_passed_over += reads::nulls(passed_over);
                }
                Err(refusal) => refused_with_nulls[refusal.number() as usize] += (count > 0) as u32,
            }
            assert_eq!(reader.nulls(), count as u64, "{column:?} {rows:?} at {place} after {skip}, {size}");
            assert_eq!(reader.remaining(), Ok((rows.len() - place) as u64));
            assert_eq!(reader.nulls(), count as u64);
        }
        assert!(count == 0 || holds_nulls(column.encoding), "{column:?}");
        nulls_given += count;
        // the count goes with the parts and with a clone
        let (block, record) = reader.clone().into_parts();
        assert_eq!((record.nulls, Reader::from_parts(block, record).map(|reader| reader.nulls())), (count, Ok(count as u64)));
    }
    assert!(nulls_given > 5_000 && nulls_passed_over > 5_000, "{nulls_given} {nulls_passed_over}");
    assert!([4, 6, 7].iter().all(|number| refused_with_nulls[*number] > 500), "{refused_with_nulls:?}");
}

#[test]
fn nulls_passed_over_are_not_counted() {
    for pair in 0..model::PAIRS {
        let column = model::column(pair, 2);
        let (block, rows) = block_of_eight(column);
        let start = open(column, 8, &block);
        assert_eq!(start.nulls, 0);
        for place in 0..=8 {
            // from rows given and from rows passed over
            let given = if place == 0 { start } else { read(start, &block, 0, place).reader };
            let passed_over = if place == 0 { start } else { read(start, &block, place, 0).reader };
            assert_eq!((given.nulls, passed_over.nulls), (reads::nulls(&rows[..place]), 0), "{column:?}");
            for (skip, size) in (0..=8 - place).flat_map(|skip| (0..10).map(move |size| (skip, size))).skip(1) {
                let behind = &rows[place + skip..];
                let more = reads::nulls(&behind[..size.min(behind.len())]);
                for reader in [given, passed_over] {
                    let answer = read(reader, &block, skip, size);
                    let due = (0, reader.nulls + more);
                    assert_eq!((answer.number, answer.reader.nulls), due, "{column:?} {place}: {skip}, {size}");
                }
            }
        }
        let all = if holds_nulls(column.encoding) { 4 } else { 0 };
        assert_eq!(read(start, &block, 0, 9).reader.nulls, all, "{column:?}");
    }
}

#[test]
fn a_null_counts_whatever_lies_under_it_and_an_empty_item_does_not() {
    // an i16 that isn't 0 under a null; unused bits are set
    let i16s = [7, 0, 0, 0, 0xFE, 1, 0, 0, 0];
    let reader = open(Column::new(Kind::I16, Encoding::Nullable), 2, &i16s);
    assert_eq!(read(reader, &i16s, 0, 2).reader.nulls, 1);
    // a run of three nulls over two bytes, and one of two empty strings
    let strings = [2, 0, 0, 0, 2, 0, 0, 0, 3, 2, 2, 0, 0, 0, 2, 0, 0, 0, b'a', b'b', 2, 1, 0, 0, 0];
    let reader = open(Column::new(Kind::String, Encoding::RunLengthNullable), 5, &strings);
    assert_eq!(read(reader, &strings, 0, 5).reader.nulls, 3);
    assert_eq!(read(reader, &strings, 1, 3).reader.nulls, 2);
    assert_eq!(read(reader, &strings, 3, 2).reader.nulls, 0);
    // a bit that changes under a reader counts as it then is
    let mut changed = strings;
    changed[20] = 1;
    let behind = read(reader, &strings, 0, 4).reader;
    assert_eq!((behind.nulls, read(behind, &changed, 0, 1).reader.nulls), (3, 4));
}

#[test]
fn a_refused_call_leaves_the_count() {
    for pair in 0..model::PAIRS {
        let column = model::column(pair, 2);
        let (block, rows) = block_of_eight(column);
        let reader = read(open(column, 8, &block), &block, 0, 5).reader;
        assert_eq!(reader.nulls, reads::nulls(&rows[..5]));
        let longer = [&block[..], &[0]].concat();
        // three rows are left, the first of them null where there are nulls, and there is room for none
        for (block, skip, size, number) in
            [(&block, 0, 0, 6), (&block, 4, 1, 7), (&block, 0, 3, 4), (&block, 1, 1, 4), (&longer, 0, 1, 9), (&longer, 3, 0, 9)]
        {
            let answer = read_into(reader, block, skip, size, &mut Areas::new(0, 0));
            assert_eq!(answer, refused(number, reader), "{column:?}: {skip}, {size}");
        }
        assert_eq!(calls::remaining(reader), Left { number: 0, rows: 3, reader });
    }
    // a count that has become bad behind a null that would be given
    let column = Column::new(Kind::I32, Encoding::RunLengthNullable);
    let (mut block, _) = block_of_eight(column);
    let reader = read(open(column, 8, &block), &block, 0, 2).reader;
    assert_eq!((reader.nulls, &block[8..14]), (1, &[1, 1, 1, 3, 1, 1][..]));
    block[12] = 0;
    assert_eq!(read(reader, &block, 1, 4), refused(9, reader));
    assert_eq!(read(reader, &block, 1, 3).reader.nulls, 4);
}

#[test]
fn a_count_above_the_place_is_9_and_any_other_is_carried_and_added_to() {
    let (mut carried, mut contradictory) = (0, 0);
    for pair in 0..model::PAIRS {
        let column = model::column(pair, 2);
        let (block, rows) = block_of_eight(column);
        let start = open(column, 8, &block);
        for place in 0..=8 {
            let there = if place == 0 { start } else { read(start, &block, place, 0).reader };
            let counts = [place.checked_sub(1), Some(0), Some(place), Some(place + 1), Some(1 << 63), Some(usize::MAX)];
            for nulls in counts.into_iter().flatten() {
                let reader = ReaderRecord { nulls, ..there };
                assert_eq!(read(reader, &block, 0, 0), refused(6, reader), "{column:?}");
                let left = calls::remaining(reader);
                assert_eq!(left, reads::remaining(reader));
                if nulls > place {
                    assert_eq!(left, Left { number: 9, rows: 0, reader }, "{column:?}");
                    // before 7 and before 4
                    for (skip, size) in [(0, 1), (1, 0), (1, 1), (8 - place, 9), (9, 0), (9, 1), (usize::MAX, usize::MAX)] {
                        for mut lent in [Areas::new(10, 100), Areas::new(0, 0)] {
                            assert_eq!(read_into(reader, &block, skip, size, &mut lent), refused(9, reader), "{column:?}");
                        }
                    }
                    contradictory += 1;
                    continue;
                }
                assert_eq!(left, Left { number: 0, rows: 8 - place, reader }, "{column:?}");
                for (skip, size) in (0..=8 - place).flat_map(|skip| [0, 1, 2, 9].map(|size| (skip, size))).skip(1) {
                    let behind = &rows[place + skip..];
                    let given = &behind[..size.min(behind.len())];
                    let answer = read(reader, &block, skip, size);
                    let due = (0, place + skip + given.len(), nulls + reads::nulls(given));
                    assert_eq!((answer.number, answer.reader.place, answer.reader.nulls), due, "{column:?}: {skip}, {size}");
                }
                assert_eq!(read(reader, &block, 9 - place, 1), refused(7, reader), "{column:?}");
                carried += 1;
            }
        }
    }
    assert_eq!((carried, contradictory), (60 * (9 + 9 + 8), 60 * 9 * 3));
}

#[test]
fn the_greatest_count() {
    // a run of 4,294,967,295 nulls, as bools and as keys, in a record of the most rows, all of them but the last four counted
    let nulls = [1, 0, 0, 0, 5, 0, 0, 0, 0xFF, 0xFF, 0xFF, 0xFF, 0x0F, 0, 0, 1, 0, 0, 0];
    let keys = [1, 0, 0, 0, 5, 0, 0, 0, 0xFF, 0xFF, 0xFF, 0xFF, 0x0F, 0, 0, 0, 0x80];
    let dictionary = [&[0, 0, 0, 0, 0, 0, 0, keys.len() as u8][..], &[0; 4], &keys].concat();
    let most = 281_474_976_710_655;
    for (encoding, block) in [(Encoding::RunLengthNullable, &nulls[..]), (Encoding::Dictionary, &dictionary)] {
        let opened = open(Column::new(Kind::Bool, encoding), 4_294_967_295, block);
        let reader = ReaderRecord { rows: most, place: most - 4, nulls: most - 4, ..opened };
        let answer = read(reader, block, 0, 9);
        assert_eq!((answer.number, answer.rows, answer.reader.place, answer.reader.nulls), (0, 4, most, most));
        assert_eq!(calls::remaining(answer.reader), Left { number: 0, rows: 0, reader: answer.reader });
        assert_eq!(read(reader, block, 3, 9).reader.nulls, most - 3);
        let above = ReaderRecord { nulls: most - 3, ..reader };
        assert_eq!(read(above, block, 0, 9), refused(9, above));
    }
}

#[test]
fn a_reader_answers_the_count_as_it_stands() {
    for encoding in [Encoding::Plain, Encoding::Nullable, Encoding::RunLength, Encoding::RunLengthNullable, Encoding::Dictionary] {
        let column = Column::new(Kind::I64, encoding);
        let (block, rows) = block_of_eight(column);
        let there = read(open(column, 8, &block), &block, 3, 0).reader;
        let mut batch = Batch::new(Kind::I64, 2, 0).expect("memory for two rows");
        for (nulls, due) in [(3, Ok(2)), (4, Err(Refusal::Disagree)), (usize::MAX, Err(Refusal::Disagree))] {
            let mut reader = Reader::from_parts(&block[..], ReaderRecord { nulls, ..there }).expect("a pair");
            assert_eq!(reader.nulls(), nulls as u64);
            assert_eq!(reader.remaining(), due.map(|_| 5));
            assert_eq!(reader.read(0, 2, &mut batch), due);
            let more = if due.is_ok() { reads::nulls(&rows[3..5]) } else { 0 };
            assert_eq!(reader.nulls(), (nulls + more) as u64);
            // through the iterator too the rows come, or the refusal
            let after: Vec<_> = reader.rows().collect();
            let left: Vec<_> = rows[5..].iter().cloned().map(Ok).collect();
            assert_eq!(after, if due.is_ok() { left } else { vec![Err(Refusal::Disagree)] }, "{encoding:?}");
        }
    }
}
