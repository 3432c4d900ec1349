//! Skip and read in one call: whole or not at all. Each answer is worked out here from the rows, and held to the model as well.
mod model;

use idzulgar::calls::{self, Given, ReaderRecord};
use idzulgar::{Batch, Column, Encoding, Kind, Reader, Refusal, Row, Value};
use model::held::{open, read, read_into, refused};
use model::reads::{self, Areas};
use model::Chance;

fn text(text: &str) -> Value {
    Value::Bytes(text.into())
}

/// Six rows of a kind, of which none is the one before: of blob and char two bytes each.
fn six(kind: Kind) -> Vec<Value> {
    if kind.is_bytes() {
        return ["ab", "cd", "ab", "ef", "cd", "gh"].map(text).to_vec();
    }
    [1, 0, 1, 0, 1, 0].map(|value| if kind == Kind::F64 { Value::F64(value as f64) } else { Value::Int(value) }).to_vec()
}

#[test]
fn skips_and_sizes_inside_at_and_past_the_end() {
    let mut chance = Chance::new(21);
    let mut seen = [0u32; 10];
    for pair in 0..model::PAIRS {
        let column = model::column(pair, 3);
        for _ in 0..4 {
            let list = model::some_rows(column.kind, 9, &mut chance);
            let block = model::block_of(column, &list);
            let rows: Vec<Value> = list.iter().map(|row| model::stored(column, row)).collect();
            let n = rows.len();
            let start = open(column, n, &block);
            let mut batch = Batch::new(column.kind, n, 1000 * n).expect("memory for the rows");
            for place in 0..=n {
                let reader = if place == 0 { start } else { read(start, &block, place, 0).reader };
                assert_eq!((reader.place, calls::remaining(reader).rows), (place, n - place));
                let left = n - place;
                let numbers = [0, 1, left / 2, left.saturating_sub(1), left, left + 1, 1 << 32, usize::MAX];
                for (skip, size) in numbers.iter().flat_map(|skip| numbers.map(|size| (*skip, size))) {
                    let number = match (skip, size) {
                        (0, 0) => 6,
                        _ if skip > left => 7,
                        _ => 0,
                    };
                    let given = read_into(reader, &block, skip, size, &mut Areas::new(n, 1000 * n));
                    let mut kept = Reader::from_parts(&block[..], reader).expect("a pair");
                    let answer = kept.read(skip as u64, size, &mut batch);
                    seen[number as usize] += 1;
                    if number != 0 {
                        assert_eq!(given, refused(number, reader));
                        assert_eq!((answer, kept.into_parts().1), (Err(Refusal::check(number).unwrap_err()), reader));
                        continue;
                    }
                    let due = &rows[place + skip..][..size.min(left - skip)];
                    assert_eq!((given.number, given.rows, given.bytes), (0, due.len(), reads::weight(due)));
                    assert_eq!(given.reader.place, place + skip + due.len());
                    assert_eq!((answer, kept.into_parts().1), (Ok(due.len()), given.reader));
                    assert!(batch.iter().map(Value::from).eq(due.iter().cloned()), "{column:?} {rows:?}: {skip}, {size}");
                }
            }
        }
    }
    assert!([0, 6, 7].iter().all(|number| seen[*number] > 1_000), "{seen:?}");
}

#[test]
fn nothing_asked_for_is_6_before_all_else() {
    for pair in 0..model::PAIRS {
        let column = model::column(pair, 2);
        let block = model::block_of(column, &six(column.kind));
        let reader = open(column, 6, &block);
        let end = read(reader, &block, 6, 0).reader;
        let none = ReaderRecord { kind: 255, ..reader };
        let contradictory = ReaderRecord { place: 7, ..reader };
        let too_many_nulls = ReaderRecord { nulls: 1, ..reader };
        for reader in [reader, end, none, contradictory, too_many_nulls] {
            for block in [&block[..], &block[1..], &[], &[&block[..], &[0]].concat()] {
                for mut lent in [Areas::new(10, 1000), Areas::new(0, 0)] {
                    assert_eq!(read_into(reader, block, 0, 0, &mut lent), refused(6, reader), "{column:?}");
                }
            }
        }
        // asked for something, a record that contradicts itself and another length are 9, also where 7 or 4 would come next
        for (skip, size) in [(1, 0), (0, 1), (1, 1), (usize::MAX, 0), (usize::MAX, usize::MAX)] {
            for reader in [none, contradictory, too_many_nulls] {
                assert_eq!(read_into(reader, &block, skip, size, &mut Areas::new(0, 0)), refused(9, reader), "{column:?}");
            }
            let mut lent = Areas::new(0, 0);
            assert_eq!(read_into(reader, &block[1..], skip, size, &mut lent), refused(9, reader), "{column:?}");
        }
    }
}

/// Every skip and size around some rows: a read is refused as 9 exactly if it is said to be bad, and never where it is 7.
fn each_read(reader: ReaderRecord, block: &[u8], n: usize, is_bad: impl Fn(usize, usize) -> bool) {
    for (skip, size) in (0..n + 2).flat_map(|skip| (0..n + 2).map(move |size| (skip, size))) {
        let given = read(reader, block, skip, size);
        if skip == 0 && size == 0 {
            assert_eq!(given, refused(6, reader));
        } else if skip > n {
            assert_eq!(given, refused(7, reader));
        } else if is_bad(skip, skip + size.min(n - skip)) {
            assert_eq!(given, refused(9, reader), "{skip}, {size} of {block:02X?}");
            // room that is short as well comes behind it
            assert_eq!(read_into(reader, block, skip, size, &mut Areas::new(0, 0)), given);
        } else {
            assert_eq!((given.number, given.rows), (0, size.min(n - skip)), "{skip}, {size} of {block:02X?}");
        }
    }
}

#[test]
fn a_bad_count_before_at_and_behind_the_rows_passed_over() {
    // runs of 2, 1 and 3 rows
    let [a, b, c] = [text("ab"), text("c"), text("def")];
    let rows = [a.clone(), a, b, c.clone(), c.clone(), c];
    let starts = [0, 2, 3];
    for (encoding, counts) in [(Encoding::RunLength, 8), (Encoding::RunLengthNullable, 8), (Encoding::Dictionary, 20)] {
        for kind in [Kind::Blob, Kind::String, Kind::Char(4)] {
            let column = Column::new(kind, encoding);
            let sound = model::block_of(column, &rows);
            assert_eq!(sound[counts..counts + 3], [2, 1, 3]);
            let reader = open(column, 6, &sound);
            each_read(reader, &sound, 6, |_, _| false);
            for run in 0..3 {
                let mut block = sound.clone();
                block[counts + run] = 0;
                each_read(reader, &block, 6, |_, end| end > starts[run]);
            }
        }
    }
}

#[test]
fn ends_and_keys_matter_in_rows_given_and_not_in_rows_passed_over() {
    let rows = six(Kind::Blob);
    let nulls: Vec<Value> = rows.iter().flat_map(|row| [row.clone(), Value::Null]).take(6).collect();
    for kind in [Kind::Blob, Kind::String] {
        // a plain block's ends stand at its start; a run-length block's behind six counts
        for (encoding, list, ends) in [
            (Encoding::Plain, &rows, 0),
            (Encoding::Nullable, &rows, 0),
            (Encoding::Nullable, &nulls, 0),
            (Encoding::RunLength, &rows, 14),
            (Encoding::RunLengthNullable, &rows, 14),
            (Encoding::RunLengthNullable, &nulls, 14),
        ] {
            let column = Column::new(kind, encoding);
            let sound = model::block_of(column, list);
            let reader = open(column, 6, &sound);
            each_read(reader, &sound, 6, |_, _| false);
            for row in 0..6 {
                // an end above the data is wrong for its own row, and the next one's falls
                let mut block = sound.clone();
                block[ends + 4 * row + 3] = 0xFF;
                each_read(reader, &block, 6, |from, to| (row..row + 2).any(|bad| (from..to).contains(&bad)));
            }
        }
        let column = Column::new(kind, Encoding::Dictionary);
        for (row, first) in [(0, 0), (3, 0), (5, 0), (2, 1), (4, 1)] {
            let list = if first == 0 { &rows } else { &nulls };
            let sound = model::block_of(column, list);
            let reader = open(column, 6, &sound);
            let mut block = sound.clone();
            // a key of six, behind eight bytes of the key block's head and six counts
            block[12 + 14 + 4 * row] = 100;
            block[12 + 14 + 4 * row + 3] = 0x80;
            each_read(reader, &block, 6, |from, to| (from..to).contains(&row));
        }
    }
    for kind in [Kind::I32, Kind::F64, Kind::Char(2)] {
        let column = Column::new(kind, Encoding::Dictionary);
        let mut block = model::block_of(column, &six(kind));
        let reader = open(column, 6, &block);
        block[12 + 14 + 4 * 3] = 100;
        each_read(reader, &block, 6, |from, to| (from..to).contains(&3));
    }
}

/// The areas without the last cell of one of them.
fn one_less(areas: &Areas, area: usize) -> Areas {
    let mut less = areas.clone();
    match area {
        0 => _ = less.values.pop(),
        1 => _ = less.flags.pop(),
        2 => _ = less.ends.pop(),
        _ => _ = less.bytes.pop(),
    }
    less
}

#[test]
fn each_area_one_cell_short_is_4_and_the_reader_has_not_moved() {
    for pair in 0..model::PAIRS {
        let column = model::column(pair, 2);
        let block = model::block_of(column, &six(column.kind));
        let start = open(column, 6, &block);
        let is_bytes = column.kind.is_bytes();
        for (before, skip, size, given) in [(0, 0, 6, 6), (0, 2, 3, 3), (0, 5, 9, 1), (1, 1, usize::MAX, 4), (3, 2, 1, 1)] {
            let reader = if before == 0 { start } else { read(start, &block, before, 0).reader };
            // what the rows given take, and nothing for those passed over
            let (fixed, variable) = if is_bytes { (0, given) } else { (given, 0) };
            let exact = Areas {
                values: vec![77; fixed],
                flags: vec![77; given],
                ends: vec![77; variable],
                bytes: vec![77; if is_bytes { 2 * given } else { 0 }],
            };
            let done = read_into(reader, &block, skip, size, &mut exact.clone());
            assert_eq!((done.number, done.rows, done.reader.place), (0, given, before + skip + given), "{column:?}");
            for area in if is_bytes { [1, 2, 3].as_slice() } else { &[0, 1] } {
                let short = one_less(&exact, *area);
                let mut lent = short.clone();
                assert_eq!(read_into(reader, &block, skip, size, &mut lent), refused(4, reader), "{column:?}, area {area}");
                assert_eq!(lent, short);
            }
        }
    }
}

#[test]
fn where_no_rows_are_given_no_room_is_needed() {
    for pair in 0..model::PAIRS {
        let column = model::column(pair, 2);
        let block = model::block_of(column, &six(column.kind));
        let reader = open(column, 6, &block);
        let pass = |skip, size| read_into(reader, &block, skip, size, &mut Areas::new(0, 0));
        for skip in 1..=6 {
            let moved = pass(skip, 0);
            assert_eq!((moved.number, moved.rows, moved.bytes, moved.reader.place), (0, 0, 0, skip), "{column:?}");
            // with a size the same rows are passed over, and the next one needs room, if there is one
            assert_eq!(pass(skip, 1), if skip < 6 { refused(4, reader) } else { moved }, "{column:?}");
        }
        assert_eq!(pass(6, usize::MAX), pass(6, 0));
        let end = pass(6, 0).reader;
        assert_eq!(read_into(end, &block, 0, 1, &mut Areas::new(0, 0)), Given { number: 0, rows: 0, bytes: 0, reader: end });
    }
}

#[test]
fn a_refused_read_leaves_reader_and_batch_as_they_were() {
    let column = Column::new(Kind::Blob, Encoding::RunLength);
    let rows = six(Kind::Blob);
    let block = model::block_of(column, &rows);
    let mut reader = Reader::open(column, 6, &block[..]).expect("a sound block");
    let mut batch = Batch::new(Kind::Blob, 2, 4).expect("memory for two rows");
    assert_eq!(reader.read(0, 1, &mut batch), Ok(1));
    let before = reader.clone().into_parts();
    for (skip, size, refusal) in [
        (0, 0, Refusal::NoRows),
        (2, 3, Refusal::Room),
        (1, usize::MAX, Refusal::Room),
        (6, 1, Refusal::TooFar),
        (6, 0, Refusal::TooFar),
        (u64::MAX, usize::MAX, Refusal::TooFar),
    ] {
        assert_eq!(reader.read(skip, size, &mut batch), Err(refusal), "{skip}, {size}");
        assert_eq!(reader.clone().into_parts(), before);
        assert_eq!(batch.iter().collect::<Vec<_>>(), [Row::Bytes(b"ab")]);
    }
    // the same read with more memory, and with fewer rows
    let mut more = Batch::new(Kind::Blob, 3, 6).expect("memory for three rows");
    assert_eq!(reader.clone().read(2, 3, &mut more), Ok(3));
    assert_eq!(more.iter().collect::<Vec<_>>(), [Row::Bytes(b"ef"), Row::Bytes(b"cd"), Row::Bytes(b"gh")]);
    assert_eq!(reader.read(2, 2, &mut batch), Ok(2));
    assert_eq!(batch.iter().collect::<Vec<_>>(), [Row::Bytes(b"ef"), Row::Bytes(b"cd")]);

    // a read of no rows is a skip, and the batch has none then
    assert_eq!((reader.read(1, 0, &mut batch), reader.remaining()), (Ok(0), Ok(0)));
    assert!(batch.is_empty() && batch.flags().is_empty() && batch.get(0).is_none());

    // a count that has become bad two runs on: nothing is passed over on the way to it
    let mut changed = block.clone();
    changed[8 + 3] = 0;
    let mut reader = Reader::from_parts(&changed[..], before.1).expect("a pair");
    for (skip, size) in [(2, 1), (3, 0), (0, 6)] {
        assert_eq!(reader.read(skip, size, &mut batch), Err(Refusal::Disagree), "{skip}, {size}");
        assert_eq!(reader.remaining(), Ok(5));
    }
    assert_eq!(reader.read(1, 1, &mut batch), Ok(1));
    assert_eq!(batch.get(0), Some(Row::Bytes(b"ab")));
}

#[test]
fn rows_after_some() {
    let mut chance = Chance::new(22);
    for round in 0..1_200 {
        let column = model::column(round % model::PAIRS, 1 + chance.below(20));
        // more rows than are read ahead, in some
        let list = model::some_rows(column.kind, if chance.one_in(8) { 700 } else { 12 }, &mut chance);
        let rows: Vec<Value> = list.iter().map(|row| model::stored(column, row)).collect();
        let block = model::block_of(column, &list);
        let n = rows.len();
        let place = chance.below(n as u64 + 1) as usize;
        let mut reader = Reader::open(column, n as u64, &block[..]).expect("a sound block");
        if place > 0 {
            let mut none = Batch::new(column.kind, 0, 0).expect("no memory");
            assert_eq!(reader.read(place as u64, 0, &mut none), Ok(0));
        }
        for skip in [0, 1, chance.below(n as u64 + 1) as usize, n - place, n - place + 1, usize::MAX] {
            let mut given = reader.clone().rows_after(skip as u64);
            if skip > n - place {
                assert_eq!((given.next(), given.next()), (Some(Err(Refusal::TooFar)), None));
            } else {
                assert_eq!(given.collect::<Result<Vec<_>, _>>().as_deref(), Ok(&rows[place + skip..]), "{column:?}: {skip}");
            }
        }
        assert!(reader.clone().rows().eq(reader.rows_after(0)));
    }
}

#[test]
fn long_rows_behind_those_passed_over() {
    // the first read behind the skip is tried with fewer rows, and then with more memory
    let long = |byte: u8| Value::Bytes(vec![byte; 1 << 20]);
    let rows = [text("a"), long(b'b'), long(b'c'), Value::Null, text("d"), long(b'e'), text("f")];
    for encoding in [Encoding::Nullable, Encoding::RunLengthNullable, Encoding::Dictionary] {
        let column = Column::new(Kind::String, encoding);
        let block = model::block_of(column, &rows);
        for skip in 0..=rows.len() {
            let reader = Reader::open(column, 7, &block[..]).expect("a sound block");
            let given: Result<Vec<Value>, Refusal> = reader.rows_after(skip as u64).collect();
            assert!(given.as_deref() == Ok(&rows[skip..]), "{encoding:?}, {skip}");
        }
    }
}

#[test]
fn rows_after_tell_what_is_wrong_with_them_alone() {
    let column = Column::new(Kind::I32, Encoding::Dictionary);
    let mut block = model::block_of(column, &six(Kind::I32));
    let (_, record) = Reader::open(column, 6, &block[..]).expect("a sound block").into_parts();
    // the key of row 3 names no entry any more
    block[12 + 14 + 4 * 3] = 100;
    for skip in 0..=6 {
        let given: Vec<_> = Reader::from_parts(&block[..], record).expect("a pair").rows_after(skip).collect();
        let due = match skip {
            0..=3 => vec![Err(Refusal::Disagree)],
            _ => six(Kind::I32)[skip as usize..].iter().cloned().map(Ok).collect(),
        };
        assert_eq!(given, due, "{skip}");
    }
    // no rows at all
    let empty = Reader::open(Column::new(Kind::I32, Encoding::RunLength), 0, &[][..]).expect("a sound block");
    assert_eq!(empty.clone().rows_after(0).collect::<Vec<_>>(), []);
    assert_eq!(empty.rows_after(1).collect::<Vec<_>>(), [Err(Refusal::TooFar)]);
}
