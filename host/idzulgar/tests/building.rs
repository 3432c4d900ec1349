//! The building half of the wrapper against a model of document 01, and back through the reader.
mod model;

use idzulgar::calls::{self, Areas, BuilderRecord};
use idzulgar::{Batch, Builder, Column, Encoding, Kind, Reader, Refusal, Row, Value};
use model::Chance;

#[test]
fn blocks_estimates_and_should_finish_are_those_of_documents_01_and_02() {
    let mut chance = Chance::new(11);
    for round in 0..11_000 {
        let column = model::column(round % model::PAIRS, 1 + chance.below(20));
        let rows = model::some_rows(column.kind, 60, &mut chance);
        let target = chance.below(300);
        let (mut builder, key_target) = match chance.below(3) {
            0 => (Builder::new(column, target).unwrap(), target),
            at => {
                let key_target = if at == 1 { chance.below(120) } else { some_key_target(&mut chance) };
                (Builder::with_key_target(column, target, key_target).unwrap(), key_target)
            }
        };
        for (place, value) in rows.iter().enumerate() {
            let full = model::should_finish(column, target as usize, key_target as usize, &rows[..place], value);
            let asked = builder.should_finish(value.into());
            assert_eq!(asked, Ok(full), "{column:?} {rows:?} at {place}, target {target}, key target {key_target}");
            builder.append(value.into()).unwrap();
        }
        assert_eq!(builder.rows(), rows.len() as u64);
        assert_eq!(builder.estimate(), Ok(model::estimate(column, &rows) as u64));
        let block = builder.finish().unwrap();
        assert_eq!(block, model::block_of(column, &rows), "{column:?} {rows:?}");
        assert_eq!(builder.finish(), Ok(block.clone()), "finished again");
        let stored: Vec<Value> = rows.iter().map(|row| model::stored(column, row)).collect();
        let read: Result<Vec<Value>, Refusal> = Reader::open(column, rows.len() as u64, block).unwrap().rows().collect();
        assert_eq!(read, Ok(stored));
    }
}

/// A key target: one that keys come to exactly, or nearly, or one of the least and the greatest.
fn some_key_target(chance: &mut Chance) -> u64 {
    match chance.below(4) {
        0 => [0, 1, 4, u64::MAX][chance.below(4) as usize],
        near => 4 * chance.below(30) + near + 2,
    }
}

/// The blocks of some rows, each with its number of rows: before each row the builder is asked, and where it says so the block is finished
/// and the next one begun.
fn cut(mut builder: Builder, rows: &[Value]) -> Vec<(usize, Vec<u8>)> {
    let mut blocks = Vec::new();
    for row in rows {
        if builder.should_finish(row.into()).unwrap() {
            blocks.push((builder.rows() as usize, builder.finish().unwrap()));
            builder.restart().unwrap();
        }
        builder.append(row.into()).unwrap();
    }
    if builder.rows() > 0 {
        blocks.push((builder.rows() as usize, builder.finish().unwrap()));
    }
    blocks
}

/// The same by the model.
fn cut_by_model(column: Column, target: usize, key_target: usize, mut rows: &[Value]) -> Vec<(usize, Vec<u8>)> {
    let mut blocks = Vec::new();
    while !rows.is_empty() {
        let full = |len: &usize| model::should_finish(column, target, key_target, &rows[..*len], &rows[*len]);
        let len = (1..rows.len()).find(full).unwrap_or(rows.len());
        blocks.push((len, model::block_of(column, &rows[..len])));
        rows = &rows[len..];
    }
    blocks
}

/// A dictionary of each kind in turn.
fn dictionary(round: u64, width: u64) -> Column {
    model::column(5 * round % model::PAIRS + 4, width)
}

#[test]
fn the_importer_asks_for_key_target_0_and_gets_a_block_a_row() {
    let mut chance = Chance::new(21);
    for round in 0..1_200 {
        let column = dictionary(round, 1 + chance.below(20));
        let rows = model::some_rows(column.kind, 60, &mut chance);
        let builder = Builder::with_key_target(column, chance.below(300), 0).unwrap();
        let one_by_one: Vec<_> = rows.chunks(1).map(|row| (1, model::block_of(column, row))).collect();
        assert_eq!(cut(builder, &rows), one_by_one, "{column:?} {rows:?}");
    }
}

#[test]
fn the_loader_gets_dictionary_blocks_up_to_the_target() {
    let mut chance = Chance::new(22);
    let (mut longer, mut by_keys) = (0, 0);
    for round in 0..1_200 {
        let column = dictionary(round, 1 + chance.below(20));
        let rows = model::some_rows(column.kind, 60, &mut chance);
        let target = chance.below(120) as usize;
        let blocks = cut(Builder::new(column, target as u64).unwrap(), &rows);
        assert_eq!(blocks, cut_by_model(column, target, target, &rows), "{column:?} {rows:?}, target {target}");
        for (place, (len, block)) in blocks.iter().enumerate() {
            // the keys, one at least, are held to the target
            let keys = 4 * model::counts_of(column, block).len();
            assert!(keys <= target.max(4), "{column:?} {rows:?}, target {target}");
            longer += (*len > 1) as u32;
            by_keys += (place + 1 < blocks.len() && keys + 4 > target && target >= 8) as u32;
        }
    }
    assert!(longer > 1_000 && by_keys > 100, "{longer} blocks of more than one row, {by_keys} cut by their keys");
}

#[test]
fn where_a_dictionary_is_cut() {
    let column = Column::new(Kind::I32, Encoding::Dictionary);
    let list = |two: [Value; 2]| -> Vec<Value> { two.into_iter().cycle().take(40).collect() };
    let in_turn = list([Value::Int(1), Value::Int(2)]);
    let with_nulls = list([Value::Int(7), Value::Null]);
    let lens = |builder: Result<Builder, Refusal>, rows: &[Value]| {
        cut(builder.unwrap(), rows).iter().map(|block| block.0).collect::<Vec<_>>()
    };
    // 4 bytes a run: 16 runs and one more are above 64
    assert_eq!(lens(Builder::new(column, 64), &in_turn), [16, 16, 8]);
    assert_eq!(lens(Builder::new(column, 64), &with_nulls), [16, 16, 8]);
    for one_run in [[Value::Int(7), Value::Int(7)], [Value::Null, Value::Null]].map(list) {
        assert_eq!(lens(Builder::new(column, 64), &one_run), [40]);
        assert_eq!(lens(Builder::with_key_target(column, 64, 7), &one_run), [1; 40]);
        assert_eq!(lens(Builder::with_key_target(column, 64, 8), &one_run), [40]);
    }
    for rows in [&in_turn, &with_nulls] {
        assert_eq!(lens(Builder::with_key_target(column, 64, 0), rows), [1; 40]);
        assert_eq!(lens(Builder::with_key_target(column, 64, 7), rows), [1; 40]);
        assert_eq!(lens(Builder::with_key_target(column, 64, 8), rows), [2; 20]);
        assert_eq!(lens(Builder::with_key_target(column, 64, u64::MAX), rows), [40]);
        // a target of 0 is a key target of 0
        assert_eq!(lens(Builder::new(column, 0), rows), [1; 40]);
    }
    // the entries are held to the target, whatever the keys are held to
    assert_eq!(lens(Builder::with_key_target(column, 8, u64::MAX), &in_turn), [2; 20]);
    assert_eq!(Builder::with_key_target(Column::new(Kind::Char(0), Encoding::Dictionary), 0, 0).unwrap_err(), Refusal::Column);
}

#[test]
fn without_keys_no_key_target_says_anything() {
    let mut chance = Chance::new(23);
    for round in 0..1_200 {
        let column = model::column(round % (model::PAIRS / 5 * 4) / 4 * 5 + round % 4, 1 + chance.below(20));
        assert_ne!(column.encoding, Encoding::Dictionary);
        let rows = model::some_rows(column.kind, 60, &mut chance);
        let target = chance.below(300);
        let blocks = cut(Builder::new(column, target).unwrap(), &rows);
        for key_target in [0, some_key_target(&mut chance)] {
            let builder = Builder::with_key_target(column, target, key_target).unwrap();
            assert_eq!(cut(builder, &rows), blocks, "{column:?} {rows:?}, target {target}, key target {key_target}");
        }
    }
}

#[test]
fn a_refused_row_changes_nothing() {
    let cases = [
        (Kind::Bool, Row::Int(2)),
        (Kind::I16, Row::Int(32768)),
        (Kind::I32, Row::Int(1 << 31)),
        (Kind::Date, Row::Int(-(1 << 31) - 1)),
        (Kind::Char(2), Row::Bytes(b"abc")),
        (Kind::Char(2), Row::Bytes(b"\xFF")),
        (Kind::Char(3), Row::Bytes(b"A\0\xFF")),
        (Kind::String, Row::Bytes(b"\xC3")),
        (Kind::String, Row::Int(0)),
        (Kind::Char(2), Row::Int(0)),
        (Kind::I64, Row::Bytes(b"a")),
        (Kind::I64, Row::F64(1.0)),
        (Kind::Blob, Row::F64(1.0)),
        (Kind::F64, Row::Bytes(b"a")),
    ];
    for (kind, wrong) in cases {
        for encoding in 0..5 {
            let numbers = Column::new(kind, Encoding::Plain).numbers();
            let column = Column::numbered(numbers.0 as u64, encoding, numbers.2 as u64).unwrap();
            let mut builder = Builder::new(column, 0).unwrap();
            let good = if kind.is_bytes() { Row::Bytes(b"a") } else { Row::Int(1) };
            builder.append(good).unwrap();
            let before = builder.finish();
            assert_eq!(builder.append(wrong), Err(Refusal::Item), "{column:?}");
            assert_eq!(builder.finish(), before);
            builder.append(Row::Null).unwrap();
            assert_eq!(builder.rows(), 2);
        }
    }
    assert_eq!(Builder::new(Column::new(Kind::Char(0), Encoding::Plain), 0).unwrap_err(), Refusal::Column);
}

/// Floats that compare as equal and are none here, or that no comparison finds equal.
const RATES: [u64; 8] = [
    0x0000_0000_0000_0000, // 0.0
    0x8000_0000_0000_0000, // -0.0
    0x7FF8_0000_0000_0000, // a NaN, another, a negative one, a signalling one
    0x7FF8_0000_0000_0001,
    0xFFF8_0000_0000_0000,
    0x7FF0_0000_0000_0001,
    0x7FF0_0000_0000_0000, // infinity
    0x3FA3_3333_3333_3333, // 0.0375
];

#[test]
fn floats_are_kept_and_compared_by_their_bits() {
    for encoding in 0..5 {
        let column = Column::numbered(11, encoding, 0).unwrap();
        let mut builder = Builder::new(column, 0).unwrap();
        for bits in RATES {
            builder.append(Row::F64(f64::from_bits(bits))).unwrap();
            builder.append(Row::Int(bits as i64)).unwrap();
            builder.append(Row::Null).unwrap();
        }
        let block = builder.finish().unwrap();
        let runs = if encoding == 4 { &block[12..] } else { &block };
        assert!(encoding < 2 || runs[..4] == [16, 0, 0, 0], "{encoding}");
        assert!(encoding < 4 || block[8..12] == [0, 0, 0, 8], "{encoding}");

        let mut reader = Reader::open(column, 24, block).unwrap();
        let mut batch = Batch::new(Kind::F64, 24, 0).unwrap();
        assert_eq!(reader.read(0, 24, &mut batch), Ok(24));
        let null = if matches!(encoding, 0 | 2) { Row::F64(0.0) } else { Row::Null };
        for (place, bits) in RATES.into_iter().enumerate() {
            let given = [batch.get(3 * place), batch.get(3 * place + 1)].map(|row| row.and_then(Row::f64).map(f64::to_bits));
            assert_eq!(given, [Some(bits); 2]);
            assert_eq!(batch.get(3 * place + 2), Some(null));
            assert_eq!(batch.values()[3 * place..][..3], [bits as i64, bits as i64, 0]);
        }
    }
}

#[test]
fn limits() {
    let mut rows = Builder::new(Column::new(Kind::Bool, Encoding::Plain), 0).unwrap();
    (0..1_048_576).for_each(|_| rows.append(Row::Int(1)).unwrap());
    assert_eq!(rows.append(Row::Int(1)), Err(Refusal::Limit));
    assert_eq!(rows.finish().map(|block| block.len()), Ok(1_048_576));

    let mut runs = Builder::new(Column::new(Kind::Bool, Encoding::RunLength), 0).unwrap();
    (0..1_048_576).for_each(|place| runs.append(Row::Int(place % 2)).unwrap());
    assert_eq!(runs.append(Row::Int(0)), Err(Refusal::Limit));
    assert_eq!(runs.append(Row::Int(1)), Ok(()));

    let mut bytes = Builder::new(Column::new(Kind::Blob, Encoding::Plain), 0).unwrap();
    let long = vec![7; (1 << 24) - 4];
    assert_eq!(bytes.append(Row::Bytes(&vec![7; (1 << 24) - 3])), Err(Refusal::Limit));
    assert_eq!(bytes.append(Row::Bytes(&long)), Ok(()));
    assert_eq!(bytes.append(Row::Bytes(b"")), Err(Refusal::Limit));
    assert_eq!(bytes.finish().map(|block| block.len()), Ok(1 << 24));
}

#[test]
fn a_builder_can_go_on_after_finishing_and_start_again() {
    let column = Column::new(Kind::I32, Encoding::RunLength);
    let mut builder = Builder::new(column, 0).unwrap();
    builder.append(Row::Int(7)).unwrap();
    let first = builder.finish().unwrap();
    builder.append(Row::Int(7)).unwrap();
    assert_eq!(builder.finish().unwrap()[8], 2);
    builder.restart().unwrap();
    assert_eq!(builder.finish(), Ok(Vec::new()));
    builder.append(Row::Int(7)).unwrap();
    assert_eq!(builder.finish(), Ok(first));

    // with the key target that it had, and the target
    let column = Column::new(Kind::I32, Encoding::Dictionary);
    for (target, key_target, key, entry) in [(4096, 0, true, false), (0, 4096, false, true), (4096, 4096, false, false)] {
        let mut builder = Builder::with_key_target(column, target, key_target).unwrap();
        for _ in 0..3 {
            assert_eq!(builder.should_finish(Row::Null), Ok(false));
            builder.append(Row::Null).unwrap();
            assert_eq!(builder.should_finish(Row::Null), Ok(key));
            builder.append(Row::Int(7)).unwrap();
            assert_eq!(builder.should_finish(Row::Null), Ok(key || entry));
            builder.restart().unwrap();
        }
    }
}

#[test]
fn forged_records_and_changed_areas_get_an_answer_and_a_refusal_writes_nothing() {
    let mut chance = Chance::new(12);
    let mut seen = [0u32; 10];
    for round in 0..200_000 {
        let column = model::column(round % model::PAIRS, 1 + chance.below(5));
        let (kind, encoding, width) = column.numbers();
        let mut small = || if chance.one_in(5) { (chance.number() >> chance.below(64)) as usize } else { chance.below(6) as usize };
        let mut record = BuilderRecord {
            kind,
            encoding,
            width,
            target: small(),
            key_target: small(),
            rows: small(),
            runs: small(),
            entries: small(),
            bytes: small(),
            last: small(),
            null: small(),
            counts: small(),
        };
        if chance.one_in(2) {
            // bytes that go with the items
            let stored = [record.rows, record.rows, record.runs, record.runs, record.entries][encoding];
            record.bytes = stored.wrapping_mul([1, 2, 4, 8, 4, 8, 8, 8, width, 1, 1, 8][kind]);
        }
        let (mut items, mut flags, mut lens) = (vec![3u8; 40], vec![5u8; 4], vec![1u8; 8]);
        let (mut ends, mut counts, mut keys) = (vec![2u32, 3, 4, 4, 9, 10], vec![2u32; 8], vec![-2147483647i32; 8]);
        let before = (items.clone(), ends.clone(), flags.clone(), counts.clone(), keys.clone(), lens.clone());
        let areas =
            Areas { items: &mut items, ends: &mut ends, flags: &mut flags, counts: &mut counts, keys: &mut keys, lens: &mut lens };
        let answer = calls::append(record, areas, chance.one_in(2), chance.below(3) as i64, &[1; 3][..chance.below(4) as usize]);
        assert!([0, 2, 3, 4, 9].contains(&answer.number));
        seen[answer.number as usize] += 1;
        if answer.number != 0 {
            assert_eq!(answer.builder, record);
            assert_eq!(
                (&items, &ends, &flags, &counts, &keys, &lens),
                (&before.0, &before.1, &before.2, &before.3, &before.4, &before.5)
            );
        }
        let mut out = vec![0x55; 64];
        let finished = calls::finish(answer.builder, &items, &ends, &flags, &counts, &keys, &lens, &mut out);
        assert!([0, 4, 9].contains(&finished.number));
        assert!(out[finished.len..].iter().all(|byte| *byte == 0x55));
        let (estimated, asked) = (calls::estimate(record), calls::should_finish(record, true, 1));
        assert!([0, 9].contains(&estimated.number) && [0, 9].contains(&asked.number));
        assert_eq!((finished.builder, estimated.builder, asked.builder), (answer.builder, record, record));
        // any number is a key target, and none but a dictionary looks at it
        for key_target in [0, usize::MAX, chance.below(40) as usize] {
            let other = calls::should_finish(BuilderRecord { key_target, ..record }, true, 1);
            assert_eq!(other.number, asked.number);
            let keys = asked.number == 0 && encoding == 4 && record.runs > 0 && 4 * record.runs + 4 > key_target;
            let without = calls::should_finish(BuilderRecord { key_target: usize::MAX, ..record }, true, 1).full;
            assert_eq!(other.full, without || keys, "{record:?}");
        }
    }
    for number in [0, 2, 4, 9] {
        assert!(seen[number] > 100, "{number} was seen {} times", seen[number]);
    }
}
