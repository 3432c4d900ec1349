//! Rows asked of the second engine, against the model of documents 01 and 02 and against the first: each row of blocks of all kinds and
//! encodings, blocks that no builder makes, damaged ones, descriptors that are none, areas of all lengths; and, against the first alone, blocks
//! of many rows and of the greatest length.
mod model;

use idzulgar::calls::{self, Descriptor, RowGiven};
use idzulgar::{row, Builder, Column, Encoding, Kind, Reader, Refusal, Row, Value};
use model::differences::Lent;
use model::reads::Areas;
use model::{held, loose, Chance};

/// The most rows of a run and of a block, and the most bytes.
const MOST_COUNT: u64 = u32::MAX as u64;
const MOST_ROWS: u64 = (1 << 48) - 1;
const MOST_BYTES: usize = 1 << 24;

fn n_of(lent: &Lent) -> u64 {
    lent.descriptor.rows as u64
}

/// A row by the wrapper.
fn by_wrapper(lent: &Lent, place: u64) -> Result<Value, Refusal> {
    row(lent.column().expect("a pair"), n_of(lent), &lent.block, place)
}

/// The row that a fresh reader gives after passing over those before it.
fn by_reader(lent: &Lent, place: u64) -> Result<Value, Refusal> {
    let reader = Reader::open(lent.column().expect("a pair"), n_of(lent), &lent.block[..])?;
    reader.rows_after(place).next().unwrap_or(Err(Refusal::TooFar))
}

/// Asks both engines for a row, into areas of the same lengths: what they answer and leave has to be the same.
fn both(lent: &Lent, place: usize, areas: &Areas) -> (RowGiven, Areas) {
    let Descriptor { kind, encoding, width, rows, .. } = lent.descriptor;
    let reader = calls::open(kind, encoding, width, rows, &lent.block).reader;
    let (mut one, mut other) = (areas.clone(), areas.clone());
    let read = calls::read(reader, &lent.block, place, 1, &mut one.values, &mut one.flags, &mut one.ends, &mut one.bytes);
    let given =
        calls::row(lent.descriptor, &lent.block, place, &mut other.values, &mut other.flags, &mut other.ends, &mut other.bytes);
    assert!(
        (read.number, read.bytes, &one) == (given.number, given.bytes, &other),
        "{read:?} and {given:?}: row {place} of {:?} {}",
        lent.descriptor,
        held::start_of(&lent.block)
    );
    assert_eq!(read.rows, usize::from(given.number == 0));
    (given, other)
}

/// A block of some rows: by a builder, by the model, or one that no builder makes.
fn some_block(column: Column, rows: &[Value], chance: &mut Chance) -> Lent {
    let block = match chance.below(3) {
        0 => {
            let mut builder = Builder::new(column, 4096).expect("a pair");
            rows.iter().for_each(|row| builder.append(row.into()).expect("a row that fits"));
            builder.finish().expect("memory")
        }
        1 => model::block_of(column, rows),
        _ => loose::block_of(column, rows, chance),
    };
    Lent::new(column, rows.len() as u64, block)
}

#[test]
fn each_row_of_each_pair() {
    let mut chance = Chance::new(131);
    let (mut nulls, mut empty, mut rows_asked) = (0, 0, 0);
    for round in 0..6_000 {
        let column = model::column(round % model::PAIRS, 1 + chance.below(6));
        let rows = model::some_rows(column.kind, if chance.one_in(20) { 150 } else { 16 }, &mut chance);
        let lent = some_block(column, &rows, &mut chance);
        let stored: Vec<Value> = rows.iter().map(|row| model::stored(column, row)).collect();
        for (place, due) in stored.iter().enumerate() {
            assert_eq!(by_wrapper(&lent, place as u64).as_ref(), Ok(due), "row {place} of {lent:?}");
            assert_eq!(by_reader(&lent, place as u64).as_ref(), Ok(due), "row {place} of {lent:?}");
            assert_eq!(held::row_into(&lent, place, &mut Areas::new(2, 400)).number, 0);
            both(&lent, place, &Areas::new(2, 400));
            nulls += u32::from(*due == Value::Null);
            empty += u32::from(*due == Value::Bytes(Vec::new()));
            rows_asked += 1;
        }
        let n = n_of(&lent);
        for place in [n, n + 1, n + chance.number() % 1000, 1 << 32, 1 << 48, u64::MAX - 1, u64::MAX] {
            assert_eq!(held::row_into(&lent, place as usize, &mut Areas::new(2, 400)), RowGiven { number: 7, bytes: 0 });
            assert_eq!(by_wrapper(&lent, place), Err(Refusal::TooFar));
        }
    }
    assert!(nulls > 5_000 && empty > 2_000 && rows_asked > 50_000, "{nulls} {empty} {rows_asked}");
}

#[test]
fn areas_of_each_length() {
    let mut chance = Chance::new(132);
    let mut seen = [0u32; 2];
    for round in 0..3_000 {
        let column = model::column(round % model::PAIRS, 1 + chance.below(6));
        let rows = model::some_rows(column.kind, 9, &mut chance);
        let lent = some_block(column, &rows, &mut chance);
        for (place, row) in rows.iter().enumerate() {
            let len = match model::stored(column, row) {
                Value::Bytes(bytes) => bytes.len(),
                _ => 0,
            };
            for lengths in 0..8usize {
                let [values, flags, ends] = [lengths & 1, lengths >> 1 & 1, lengths >> 2];
                for bytes in [0, len.saturating_sub(1), len, len + 1] {
                    let mut areas = Areas::new(2, bytes);
                    areas.values.truncate(values);
                    areas.flags.truncate(flags);
                    areas.ends.truncate(ends);
                    both(&lent, place, &areas);
                    let given = held::row_into(&lent, place, &mut areas);
                    assert!([0, 4].contains(&given.number));
                    seen[usize::from(given.number == 4)] += 1;
                }
            }
        }
    }
    assert!(seen.iter().all(|count| *count > 50_000), "{seen:?}");
}

#[test]
fn damaged_blocks() {
    let mut chance = Chance::new(133);
    let mut seen = [0u32; 18];
    for round in 0..150_000 {
        let column = model::column(round % model::PAIRS, 1 + chance.below(6));
        let rows = model::some_rows(column.kind, 16, &mut chance);
        let sound = some_block(column, &rows, &mut chance);
        let (block, n) = model::damaged(&sound.block, n_of(&sound), &mut chance);
        let lent = Lent::new(column, n, block);
        let place = match chance.below(8) {
            0 => chance.number() as usize,
            1 => n.min(1_000) as usize,
            _ => chance.below(n.clamp(1, 40)) as usize,
        };
        let lengths = if chance.one_in(6) { 0 } else { 400 };
        let given = held::row_into(&lent, place, &mut Areas::new(lengths.min(2), lengths));
        seen[usize::from(given.number)] += 1;
        // what opening refuses is told first, of any row and any room
        let number = lent.number();
        assert_eq!(Reader::open(column, n, &lent.block[..]).map_or_else(Refusal::number, |_| 0), number);
        if number != 0 {
            assert_eq!(given, RowGiven { number, bytes: 0 });
            assert_eq!(by_wrapper(&lent, place as u64).map_err(Refusal::number), Err(number));
        } else if place < lent.descriptor.rows {
            both(&lent, place, &Areas::new(lengths.min(2), lengths));
            assert_eq!(by_wrapper(&lent, place as u64), by_reader(&lent, place as u64));
        } else {
            assert_eq!(by_wrapper(&lent, place as u64), Err(Refusal::TooFar));
        }
    }
    assert!([0, 3, 4, 7, 10, 11, 12, 13, 14, 15, 16, 17].iter().all(|number| seen[*number] > 100), "{seen:?}");
}

#[test]
fn descriptors_of_any_numbers() {
    let mut chance = Chance::new(134);
    let mut seen = [0u32; 2];
    for round in 0..60_000 {
        let column = model::column(round % model::PAIRS, 1 + chance.below(6));
        let rows = model::some_rows(column.kind, 6, &mut chance);
        let mut lent = some_block(column, &rows, &mut chance);
        let d = &mut lent.descriptor;
        let fields = [&mut d.kind, &mut d.encoding, &mut d.width, &mut d.zero];
        let number = match chance.below(4) {
            0 => chance.below(14) as usize,
            1 => (1 << chance.below(64)) as usize,
            2 => chance.number() as usize,
            _ => *fields[chance.below(4) as usize] + (1 << (8 * (1 + chance.below(7)))) as usize,
        };
        let field = fields.into_iter().nth(chance.below(4) as usize).expect("a field");
        *field = number;
        let given = held::row_into(&lent, chance.below(7) as usize, &mut Areas::new(2, 400));
        seen[usize::from(given.number == 1)] += 1;
    }
    assert!(seen.iter().all(|count| *count > 1_000), "{seen:?}");
}

#[test]
fn the_zero_bit_comes_first() {
    let sound = Lent::new(Column::new(Kind::I32, Encoding::Plain), 1, vec![7, 0, 0, 0]);
    for zero in [1, 2, 1 << 8, 1 << 32, usize::MAX] {
        for (rows, block) in [(1, &sound.block[..]), (1, &sound.block[..3]), (1 << 48, &sound.block[..])] {
            let lent = Lent { descriptor: Descriptor { zero, rows, ..sound.descriptor }, block: block.to_vec() };
            for (place, room) in [(0, 2), (1, 2), (usize::MAX, 0)] {
                assert_eq!(held::row_into(&lent, place, &mut Areas::new(room, room)).number, 1);
            }
        }
    }
}

#[test]
fn no_rows() {
    for pair in 0..model::PAIRS {
        let column = model::column(pair, 3);
        let lent = Lent::new(column, 0, model::block_of(column, &[]));
        for place in [0, 1, u64::MAX] {
            assert_eq!(held::row_into(&lent, place as usize, &mut Areas::new(2, 9)).number, 7);
            assert_eq!(by_wrapper(&lent, place), Err(Refusal::TooFar));
        }
    }
}

/// Rows by runs as they are given: a row, and how many of it.
fn built(column: Column, runs: &[(Value, u64)]) -> Lent {
    let mut builder = Builder::new(column, 4096).expect("a pair");
    runs.iter().for_each(|(row, times)| builder.append_times(Row::from(row), *times).expect("rows that fit"));
    Lent::new(column, builder.rows(), builder.finish().expect("memory"))
}

/// Counts of one to five bytes, and one that is two runs.
const COUNTS: [u64; 10] = [1, 2, 127, 128, 16_383, 16_384, 1 << 21, MOST_COUNT - 1, MOST_COUNT, MOST_COUNT + 1];

#[test]
fn rows_by_their_runs() {
    let mut chance = Chance::new(135);
    for pair in (0..model::PAIRS).filter(|pair| pair % 5 > 1) {
        let column = model::column(pair, 3);
        let run = |_| {
            let row = model::some_rows(column.kind, 9, &mut chance).pop().unwrap_or(Value::Null);
            (model::stored(column, &row), COUNTS[chance.below(10) as usize])
        };
        let runs: Vec<(Value, u64)> = (0..40).map(run).collect();
        let lent = built(column, &runs);
        let mut first = 0;
        for (due, count) in &runs {
            for place in [first, first + count / 2, first + count - 1] {
                assert_eq!(by_wrapper(&lent, place).as_ref(), Ok(due), "{column:?}, row {place}");
                assert_eq!(by_reader(&lent, place).as_ref(), Ok(due), "{column:?}, row {place}");
            }
            first += count;
        }
        assert_eq!((n_of(&lent), by_wrapper(&lent, first)), (first, Err(Refusal::TooFar)));
    }
}

#[test]
fn the_most_rows_of_a_block() {
    for (encoding, odd) in
        [(Encoding::RunLength, 0), (Encoding::RunLengthNullable, 77 * MOST_COUNT), (Encoding::Dictionary, MOST_ROWS - 1)]
    {
        let runs = [(Value::Int(-9), odd), (Value::Int(4), 1), (Value::Int(-9), MOST_ROWS - 1 - odd)];
        let lent = built(Column::new(Kind::I64, encoding), &runs);
        assert_eq!((n_of(&lent), lent.number()), (MOST_ROWS, 0));
        let places =
            [0, 1, MOST_COUNT - 1, MOST_COUNT, MOST_COUNT + 1, 1 << 47, MOST_ROWS - 2, MOST_ROWS - 1, odd.saturating_sub(1), odd];
        for place in places {
            assert_eq!(by_wrapper(&lent, place), Ok(Value::Int(if place == odd { 4 } else { -9 })), "{encoding:?} {place}");
            both(&lent, place as usize, &Areas::new(2, 9));
        }
        assert_eq!(by_wrapper(&lent, MOST_ROWS), Err(Refusal::TooFar));
        let more = Lent { descriptor: Descriptor { rows: 1 << 48, ..lent.descriptor }, ..lent };
        assert_eq!(by_wrapper(&more, 0), Err(Refusal::Limit));
    }
}

#[test]
fn blocks_of_the_greatest_length() {
    // a blob of one row
    let column = Column::new(Kind::Blob, Encoding::Plain);
    let data: Vec<u8> = (0..MOST_BYTES - 4).map(|at| (at % 251) as u8).collect();
    let mut lent = Lent::new(column, 1, [&(data.len() as u32).to_le_bytes()[..], &data].concat());
    assert_eq!(by_wrapper(&lent, 0), Ok(Value::Bytes(data.clone())));
    for room in [data.len() - 1, data.len(), data.len() + 1] {
        let (given, areas) = both(&lent, 0, &Areas::new(1, room));
        let due = if room < data.len() { RowGiven { number: 4, bytes: 0 } } else { RowGiven { number: 0, bytes: data.len() } };
        assert_eq!(given, due);
        assert!(areas.bytes[..given.bytes] == data[..given.bytes] && areas.bytes[given.bytes..].iter().all(|byte| *byte == 77));
    }
    assert_eq!(by_wrapper(&lent, 1), Err(Refusal::TooFar));
    lent.block.push(0);
    assert_eq!(by_wrapper(&lent, 0), Err(Refusal::Limit));
    assert_eq!(by_reader(&lent, 0), Err(Refusal::Limit));

    // as many items as a block has
    let items = 1 << 20;
    for kind in [Kind::F64, Kind::Char(15), Kind::String] {
        let column = Column::new(kind, Encoding::Plain);
        let mut builder = Builder::new(column, MOST_BYTES as u64).expect("a pair");
        let value = |place: u64| match kind {
            Kind::F64 => Value::F64(place as f64 / 7.0),
            _ => Value::Bytes(format!("é{place}").into_bytes()),
        };
        (0..items).for_each(|place| builder.append(Row::from(&value(place))).expect("a row that fits"));
        let lent = Lent::new(column, items, builder.finish().expect("memory"));
        for place in [0, 1, items / 3, items - 2, items - 1] {
            assert_eq!(by_wrapper(&lent, place), Ok(value(place)), "{kind:?} {place}");
            both(&lent, place as usize, &Areas::new(1, 20));
        }
        assert_eq!(by_wrapper(&lent, items), Err(Refusal::TooFar));
    }
}
