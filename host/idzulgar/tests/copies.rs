//! A row appended n times at once, against n single appends: the same answers, the same records and blocks, the same areas in every byte.
mod model;

use idzulgar::calls::{self, BuilderRecord};
use idzulgar::{Builder, Column, Encoding, Kind, Reader, Refusal, Row, Value};
use model::memory::{needs, parts, unfit, Memory};
use model::Chance;

/// The most rows of a run, and of a block.
const FULL: usize = u32::MAX as usize;
const MOST_ROWS: usize = (1 << 48) - 1;

/// An answer: its number, the record, and the areas as they are left.
type Answer = (u8, BuilderRecord, Memory);

/// A row n times by one call.
fn at_once(record: BuilderRecord, memory: &Memory, row: &Value, n: usize) -> Answer {
    let mut memory = memory.clone();
    let (present, value, bytes) = parts(row);
    let answer = calls::append_times(record, memory.lent(), present, value, bytes, n);
    (answer.number, answer.builder, memory)
}

/// A row n times by single appends, up to the first that is refused, and that one's number.
fn one_by_one(record: BuilderRecord, memory: &Memory, row: &Value, n: usize) -> Answer {
    let (mut record, mut memory) = (record, memory.clone());
    let (present, value, bytes) = parts(row);
    for _ in 0..n {
        let answer = calls::append(record, memory.lent(), present, value, bytes);
        if answer.number != 0 {
            return (answer.number, record, memory);
        }
        record = answer.builder;
    }
    (0, record, memory)
}

/// So many slots as n rows can need.
fn room_for(column: Column, row: &Value, n: usize) -> [usize; 6] {
    let item = parts(row).2.len().max(8).max(column.numbers().2);
    [n * item, n, n / 8 + 1, n, n, n]
}

/// What n rows at once have to answer, by single appends. If all of these are done, it is the same; else the first that isn't says why, and
/// nothing changes. Room comes last: where it is short, single appends that have enough say whether a limit is passed. Of no rows, one says
/// whether it is 9 or 2.
fn due(column: Column, record: BuilderRecord, memory: &Memory, row: &Value, n: usize) -> Answer {
    let done = one_by_one(record, memory, row, n.max(1));
    let number = match done.0 {
        0 if n > 0 => return done,
        0 | 3 | 4 if n == 0 => 0,
        4 => {
            let longer = memory.and_noise(room_for(column, row, n), &mut Chance::new(0));
            match one_by_one(record, &longer, row, n).0 {
                0 => 4,
                number => {
                    assert_eq!(number, 3, "{record:?}, {n} times {row:?}");
                    number
                }
            }
        }
        number => number,
    };
    (number, record, memory.clone())
}

/// A row n times by one call, which is held to what is due.
fn held(column: Column, record: BuilderRecord, memory: &Memory, row: &Value, n: usize) -> Answer {
    let answer = at_once(record, memory, row, n);
    let due = due(column, record, memory, row, n);
    assert!(answer == due, "{record:?}, {n} times {row:?}:\n{answer:?}, not\n{due:?}, from\n{memory:?}");
    answer
}

/// Whether rows join runs.
fn coded(column: Column) -> bool {
    !matches!(column.encoding, Encoding::Plain | Encoding::Nullable)
}

fn created(column: Column) -> BuilderRecord {
    let (kind, encoding, width) = column.numbers();
    calls::create(kind, encoding, width, 0).builder
}

/// A row that fits every kind of its sort, and isn't null.
fn a_row(kind: Kind) -> Value {
    match kind {
        Kind::Char(_) | Kind::Blob | Kind::String => Value::Bytes(b"a".to_vec()),
        Kind::F64 => Value::F64(1.0),
        _ => Value::Int(1),
    }
}

/// How many times a row is appended: none and few, where a count takes a byte more, and many.
fn some_times(chance: &mut Chance) -> usize {
    (match chance.below(8) {
        0 => 0,
        1 => 1,
        2 | 3 => chance.below(10),
        4 => 120 + chance.below(16),
        5 => 300,
        _ => chance.below(301),
    }) as usize
}

/// Enough room, enough but for an area here and there, or a few slots of each.
fn some_room(column: Column, row: &Value, n: usize, chance: &mut Chance) -> [usize; 6] {
    let enough = room_for(column, row, n);
    match chance.below(3) {
        0 => enough,
        1 => enough.map(|slots| if chance.one_in(8) { chance.below(slots as u64 + 1) as usize } else { slots }),
        _ => std::array::from_fn(|_| chance.below(12) as usize),
    }
}

#[test]
fn n_rows_at_once_are_n_single_ones() {
    let mut chance = Chance::new(51);
    let (mut at_first, mut second, mut refused) = (0u32, 0u32, 0u32);
    for round in 0..3_000 {
        let column = model::column(round % model::PAIRS, 1 + chance.below(20));
        let (kind, encoding, width) = column.numbers();
        let (target, key_target) = (chance.below(3_000) as usize, chance.below(80) as usize);
        let mut record = calls::create_with_key_target(kind, encoding, width, target, key_target).builder;
        let mut memory = Memory::none();
        let mut accepted: Vec<Value> = vec![];
        for row in &model::some_rows(column.kind, 8, &mut chance) {
            let n = some_times(&mut chance);
            let room = some_room(column, row, n, &mut chance);
            memory = memory.moved(column, &record, room, &mut chance);
            let lent = memory.lengths();
            if let Some(bad) = unfit(column.kind, &mut chance).filter(|_| chance.one_in(4)) {
                assert_eq!(held(column, record, &memory, &bad, n).0, 2, "{column:?} {bad:?}");
                refused += 1;
            }
            let asked = calls::should_finish(record, parts(row).0, parts(row).2.len());
            let full = model::should_finish(column, target, key_target, &accepted, row);
            assert_eq!((asked.number, asked.full), (0, full), "{column:?} {accepted:?}, then {row:?}");
            let mut answer = held(column, record, &memory, row, n);
            let short = answer.0 == 4;
            if short {
                let longer = memory.moved(column, &record, room_for(column, row, n), &mut chance);
                answer = held(column, record, &longer, row, n);
                second += 1;
            } else {
                at_first += 1;
            }
            assert_eq!(answer.0, 0, "{column:?} {row:?}");
            // it was 4 exactly where an area was below the need of all rows
            assert_eq!(short, needs(column, &answer.1).iter().zip(lent).any(|(need, len)| len < *need), "{column:?} {row:?}");
            (_, record, memory) = answer;
            accepted.extend(vec![row.clone(); n]);
            assert_eq!(calls::estimate(record).size, model::estimate(column, &accepted));
        }
        let block = model::block_of(column, &accepted);
        let mut out = vec![0x5A; block.len()];
        let Memory { items, ends, flags, counts, keys, lens } = &memory;
        let finished = calls::finish(record, items, ends, flags, counts, keys, lens, &mut out);
        assert_eq!((finished.number, finished.len), (0, block.len()));
        assert!(out == block, "{column:?} {accepted:?}");
    }
    assert!(at_first > 1_000 && second > 1_000 && refused > 500, "{at_first} {second} {refused}");
}

#[test]
fn blocks_of_the_wrapper_are_those_of_single_rows() {
    let mut chance = Chance::new(52);
    for round in 0..2_000 {
        let column = model::column(round % model::PAIRS, 1 + chance.below(20));
        let target = chance.below(3_000);
        let (mut copies, mut singles) = (Builder::new(column, target).unwrap(), Builder::new(column, target).unwrap());
        let mut list = vec![];
        for row in &model::some_rows(column.kind, 8, &mut chance) {
            let n = some_times(&mut chance);
            list.push((row.clone(), n));
            assert_eq!(copies.should_finish(row.into()), singles.should_finish(row.into()), "{column:?} {list:?}");
            copies.append_times(row.into(), n as u64).unwrap();
            (0..n).for_each(|_| singles.append(row.into()).unwrap());
            assert_eq!((copies.rows(), copies.estimate()), (singles.rows(), singles.estimate()), "{column:?} {list:?}");
            // a block in between, now and then
            if chance.one_in(4) {
                assert_eq!(copies.finish(), singles.finish(), "{column:?} {list:?}");
            }
            if chance.one_in(8) {
                for builder in [&mut copies, &mut singles] {
                    builder.restart().unwrap();
                }
                list.clear();
            }
        }
        let rows: Vec<Value> = list.iter().flat_map(|(row, n)| vec![row.clone(); *n]).collect();
        assert_eq!(copies.finish(), Ok(model::block_of(column, &rows)), "{column:?} {list:?}");
        assert_eq!(singles.finish(), copies.finish(), "{column:?} {list:?}");
    }
}

#[test]
fn n_and_then_m_are_n_and_m_at_once() {
    let mut chance = Chance::new(53);
    let (mut done, mut refused, mut over_a_full_run) = (0u32, 0u32, 0u32);
    for round in 0..12 * model::PAIRS {
        let column = model::column(round % model::PAIRS, 1 + chance.below(6));
        let mut rows = model::some_rows(column.kind, 12, &mut chance);
        let row = if chance.one_in(2) { rows.pop() } else { rows.first().cloned() }.unwrap_or(Value::Null);
        let (mut record, mut memory) = (created(column), Memory::none());
        for row in &rows {
            let longer = memory.moved(column, &record, room_for(column, row, 1), &mut chance);
            (_, record, memory) = at_once(record, &longer, row, 1);
        }
        if coded(column) && chance.one_in(2) {
            // some rows short of a full run
            let longer = memory.moved(column, &record, room_for(column, &row, 2), &mut chance);
            let n = FULL - chance.below(10) as usize - if rows.last() == Some(&row) { record.last } else { 0 };
            let answer = at_once(record, &longer, &row, n);
            assert_eq!(answer.0, 0);
            (_, record, memory) = answer;
        }
        let room = some_room(column, &row, 9, &mut chance);
        memory = memory.moved(column, &record, room, &mut chance);
        for all in 0..=9 {
            let whole = held(column, record, &memory, &row, all);
            over_a_full_run += (whole.0 == 0 && record.last > 1_000 && whole.1.last < 10) as u32;
            for n in 0..=all {
                let mut both = at_once(record, &memory, &row, n);
                if both.0 == 0 {
                    both = at_once(both.1, &both.2, &row, all - n);
                }
                assert_eq!(both.0 == 0, whole.0 == 0, "{column:?} {record:?} {row:?}, {n} of {all}");
                assert!(both.0 != 0 || both == whole, "{column:?} {record:?} {row:?}, {n} of {all}");
            }
            done += (whole.0 == 0) as u32;
            refused += (whole.0 != 0) as u32;
        }
    }
    assert!(done > 1_000 && refused > 1_000 && over_a_full_run > 100, "{done} {refused} {over_a_full_run}");
}

/// A record of numbers that are likely to say something.
fn forged(column: Column, chance: &mut Chance) -> BuilderRecord {
    let (kind, encoding, width) = column.numbers();
    let mut small = || if chance.one_in(9) { (chance.number() >> chance.below(64)) as usize } else { chance.below(6) as usize };
    let mut record = BuilderRecord {
        kind,
        encoding,
        width,
        target: small(),
        key_target: small(),
        rows: small(),
        runs: small(),
        entries: small(),
        bytes: small(),
        last: small(),
        null: small(),
        counts: small(),
    };
    if !chance.one_in(8) {
        // bytes that go with the items
        let stored = [record.rows, record.rows, record.runs, record.runs, record.entries][encoding];
        record.bytes = stored.wrapping_mul([1, 2, 4, 8, 4, 8, 8, 8, width, 2, 2, 8][kind]);
    }
    if encoding >= 2 {
        // near a full run, or a limit
        match chance.below(6) {
            0 | 1 => record.last = FULL + 2 - chance.below(14) as usize,
            2 => record.rows = MOST_ROWS - chance.below(14) as usize,
            3 => record.counts = (1 << 24) - chance.below(120) as usize,
            _ => {}
        }
    }
    record
}

/// Areas of numbers that are likely to say something; some are short.
fn damaged(chance: &mut Chance) -> Memory {
    let mut memory = Memory::none().and_noise([60, 12, 3, 12, 12, 12], chance);
    memory.items.iter_mut().for_each(|byte| *byte %= 2);
    let mut end = 0;
    for slot in &mut memory.ends {
        end += 2;
        *slot = if chance.one_in(12) { chance.below(14) as u32 } else { end };
    }
    memory.keys.iter_mut().for_each(|key| *key = i32::MIN + key.rem_euclid(4));
    memory.lens.iter_mut().for_each(|len| *len %= 4);
    if chance.one_in(3) {
        let lengths = memory.lengths().map(|len| if chance.one_in(4) { chance.below(len as u64) as usize } else { len });
        memory = memory.first(lengths);
    }
    memory
}

#[test]
fn n_rows_are_taken_by_forged_records_and_damaged_areas_exactly_if_n_single_ones_are() {
    let mut chance = Chance::new(54);
    let (mut seen, mut none, mut split) = ([0u32; 10], [0u32; 10], 0);
    for round in 0..150_000 {
        let column = model::column(round % model::PAIRS, 1 + chance.below(5));
        let (record, memory) = (forged(column, &mut chance), damaged(&mut chance));
        let row = match (chance.below(5), column.kind) {
            (0, _) => Value::Null,
            (_, Kind::Char(_) | Kind::Blob | Kind::String) => {
                Value::Bytes((0..chance.below(4)).map(|_| chance.below(2) as u8).collect())
            }
            (1, _) => Value::Int(chance.number() as i64 >> chance.below(64)),
            _ => Value::Int(chance.below(2) as i64),
        };
        let n = chance.below(12) as usize;
        let (number, next, _) = held(column, record, &memory, &row, n);
        assert!([0, 2, 3, 4, 9].contains(&number));
        if n == 0 {
            assert_eq!(next, record);
            none[number as usize] += 1;
        } else {
            split += (number == 0 && coded(column) && record.last > FULL - 12 && next.last < n) as u32;
            seen[number as usize] += 1;
        }

        // more rows than a block has are 3, if they are not 9 or 2; in runs that takes a while to find
        if coded(column) && !chance.one_in(16) {
            continue;
        }
        let most = if coded(column) { MOST_ROWS } else { 1 << 20 };
        let many = (most + 1).saturating_add((chance.number() >> chance.below(64)) as usize);
        let answer = at_once(record, &memory, &row, many);
        let number = if [2, 9].contains(&number) { number } else { 3 };
        assert!(answer == (number, record, memory), "{record:?}, {many} times {row:?}");
    }
    for number in [0, 2, 3, 4, 9] {
        assert!(seen[number] > 100, "{number} was seen {} times", seen[number]);
    }
    assert!([0, 2, 9].iter().all(|number| none[*number] > 100) && none[3] + none[4] == 0, "of no rows {none:?}");
    assert!(split > 100, "{split} went over a full run");
}

#[test]
fn where_a_run_is_full() {
    let mut chance = Chance::new(55);
    for pair in (0..model::PAIRS).filter(|pair| pair % 5 >= 2) {
        let column = model::column(pair, 3);
        let keyed = column.encoding == Encoding::Dictionary;
        let empty = created(column);
        for row in [a_row(column.kind), Value::Null] {
            let memory = Memory::none().and_noise(room_for(column, &row, 2), &mut chance);
            let (number, first, memory) = at_once(empty, &memory, &row, 4_294_967_290);
            assert_eq!((number, first.rows, first.runs, first.last, memory.counts[0]), (0, FULL - 5, 1, FULL - 5, u32::MAX - 5));

            // five of ten join, and the others are a run
            let (number, next, left) = held(column, first, &memory, &row, 10);
            let entries = usize::from(keyed && row != Value::Null);
            assert_eq!(first.entries, entries);
            let bytes = if keyed { first.bytes } else { 2 * first.bytes };
            let due = BuilderRecord { rows: FULL + 5, runs: 2, last: 5, bytes, counts: 6, ..first };
            assert_eq!((number, next), (0, due), "{column:?} {row:?}");
            assert_eq!(left.counts, [u32::MAX, 5]);
            assert_eq!(keyed, left.keys[..2] == [i32::MIN + entries as i32; 2]);
            if !keyed {
                assert_eq!(left.items[..first.bytes], left.items[first.bytes..bytes]);
            }

            // up to the full run, and one row more
            for (n, runs, last) in [(4, 1, FULL - 1), (5, 1, FULL), (6, 2, 1)] {
                let (number, next, left) = held(column, first, &memory, &row, n);
                assert_eq!((number, next.runs, next.last), (0, runs, last), "{column:?} {row:?}, {n} more");
                assert_eq!(left.counts[runs - 1], last as u32);
            }
            // the second run has no slot
            let short = memory.first(needs(column, &first));
            assert_eq!(held(column, first, &short, &row, 5).0, 0);
            assert_eq!(held(column, first, &short, &row, 6).0, 4);
            // full runs only, and the same from nothing
            let more = Memory::none().and_noise(room_for(column, &row, 4), &mut chance);
            let (number, three, left) = at_once(empty, &more, &row, 3 * FULL);
            assert_eq!((number, three.rows, three.runs, three.last, three.counts), (0, 3 * FULL, 3, FULL, 15));
            assert_eq!(left.counts[..3], [u32::MAX; 3]);
            let (number, four, _) = at_once(three, &left, &row, 1);
            assert_eq!((number, four.runs, four.last, four.counts), (0, 4, 1, 16));
        }
    }
}

#[test]
fn the_most_rows_of_a_block() {
    let mut chance = Chance::new(56);
    for encoding in 2..5 {
        let column = Column::numbered(0, encoding, 0).unwrap();
        let keyed = encoding == 4;
        let (empty, row) = (created(column), Value::Int(1));
        let items = if keyed { 1 } else { 65_537 };
        let lengths = [items, 0, if encoding == 3 { 8_193 } else { 0 }, 65_537, if keyed { 65_537 } else { 0 }, 0];
        let memory = Memory::none().and_noise(lengths, &mut chance);
        let (number, record, left) = at_once(empty, &memory, &row, MOST_ROWS);
        let due = BuilderRecord {
            rows: MOST_ROWS,
            runs: 65_537,
            entries: usize::from(keyed),
            bytes: items,
            last: 65_535,
            counts: 5 * 65_536 + 3,
            ..empty
        };
        assert_eq!((number, record), (0, due), "encoding {encoding}");
        assert!(left.counts[..65_536].iter().all(|count| *count == u32::MAX) && left.counts[65_536] == 65_535);
        assert!(left.items.iter().all(|item| *item == 1) && left.keys.iter().all(|key| *key == i32::MIN + 1));
        if encoding == 3 {
            assert!(left.flags[..8_192].iter().all(|byte| *byte == 0xFF) && left.flags[8_192] == 1);
        }
        // in two calls
        for first in [0, 1, FULL - 1, FULL, FULL + 1, 1 << 40, MOST_ROWS - 65_535, MOST_ROWS - 1, MOST_ROWS] {
            let (number, then, half) = at_once(empty, &memory, &row, first);
            assert_eq!((number, then.rows), (0, first));
            assert!(at_once(then, &half, &row, MOST_ROWS - first) == (0, record, left.clone()), "{first} rows first");
        }
        // an area that is one slot short
        for area in (0..6).filter(|area| lengths[*area] > 0) {
            let mut short = lengths;
            short[area] -= 1;
            let short = memory.first(short);
            assert!(at_once(empty, &short, &row, MOST_ROWS) == (4, empty, short), "area {area}");
        }
        // a row more, joining the last run or not, with all room
        let roomy = left.and_noise([9; 6], &mut chance);
        for (row, n, number) in [(&row, 1, 3), (&Value::Null, 1, 3), (&row, usize::MAX, 3), (&row, 0, 0), (&Value::Int(2), 0, 2)] {
            assert!(at_once(record, &roomy, row, n) == (number, record, roomy.clone()), "{n} more");
        }
        for n in [MOST_ROWS + 1, usize::MAX] {
            assert!(at_once(empty, &roomy, &row, n) == (3, empty, roomy.clone()), "{n} at once");
        }

        // by the wrapper, and read back
        let mut builder = Builder::new(column, 0).unwrap();
        assert_eq!(builder.append_times(Row::Int(1), 1 << 48), Err(Refusal::Limit));
        assert_eq!(builder.append_times(Row::Int(1), MOST_ROWS as u64), Ok(()));
        assert_eq!((builder.rows(), builder.append(Row::Int(1))), (MOST_ROWS as u64, Err(Refusal::Limit)));
        let last: Vec<_> =
            Reader::open(column, MOST_ROWS as u64, builder.finish().unwrap()).unwrap().rows_after(MOST_ROWS as u64 - 2).collect();
        assert_eq!(last, [Ok(Value::Int(1)), Ok(Value::Int(1))]);
    }
}

#[test]
fn flags_over_the_edge_of_a_byte_and_counts_of_a_byte_more() {
    // 6 rows and 5 nulls, then 5 rows: the bits behind them in the last byte stay
    let column = Column::new(Kind::I32, Encoding::Nullable);
    let memory = Memory::none().and_noise([64, 0, 2, 0, 0, 0], &mut Chance::new(57));
    let (_, record, memory) = at_once(created(column), &memory, &Value::Int(7), 6);
    let (_, record, memory) = at_once(record, &memory, &Value::Null, 5);
    assert_eq!((memory.flags[0], memory.flags[1] & 7), (0b0011_1111, 0));
    let (number, _, memory) = held(column, record, &memory, &Value::Int(7), 5);
    assert_eq!((number, &memory.flags[..]), (0, &[0b0011_1111, 0b1111_1000][..]));

    // 120 rows and 10 more: a count of two bytes
    for encoding in 2..5 {
        let column = Column::numbered(2, encoding, 0).unwrap();
        let memory = Memory::none().and_noise([8, 0, 1, 1, 1, 0], &mut Chance::new(58));
        let (_, first, memory) = at_once(created(column), &memory, &Value::Int(7), 120);
        assert_eq!((first.last, first.counts), (120, 1));
        for (n, counts) in [(7, 1), (8, 2), (10, 2), (16_263, 2), (16_264, 3), (2_097_032, 4), (268_435_336, 5)] {
            let (number, next, left) = at_once(first, &memory, &Value::Int(7), n);
            assert_eq!((number, next.last, next.counts, left.counts[0]), (0, 120 + n, counts, 120 + n as u32), "{n} more");
        }
        held(column, first, &memory, &Value::Int(7), 10);
    }
}

#[test]
fn refusals_in_their_order() {
    let mut chance = Chance::new(59);
    for pair in 0..model::PAIRS {
        let column = model::column(pair, 3);
        let empty = created(column);
        let row = a_row(column.kind);
        let memory = Memory::none().and_noise(room_for(column, &row, 20), &mut chance);
        let answers = |record, memory: &Memory, row: &Value, number| {
            for n in [0, 1, 7, 2_000_000, MOST_ROWS, MOST_ROWS + 1, usize::MAX] {
                assert!(
                    at_once(record, memory, row, n) == (number, record, memory.clone()),
                    "{column:?}, {n} times {row:?}: {number}"
                );
            }
        };
        let (_, record, memory) = at_once(empty, &memory, &row, 3);
        if let Some(bad) = unfit(column.kind, &mut chance) {
            // 2 comes before 3 and 4
            answers(record, &memory, &bad, 2);
            answers(record, &memory.first(needs(column, &record)), &bad, 2);
            // and 9 before 2
            answers(BuilderRecord { rows: MOST_ROWS + 1, ..record }, &memory, &bad, 9);
        }
        answers(BuilderRecord { rows: MOST_ROWS + 1, ..record }, &memory, &row, 9);
        let mut short = needs(column, &record);
        short[if record.bytes > 0 { 0 } else { 3 }] -= 1;
        answers(record, &memory.first(short), &row, 9);
        // the last item's end or length is wrong, which no call of encodings 0 and 1 looks at
        let mut wrong = memory.clone();
        let stored = [3, 3, 1, 1, 1][column.encoding as usize];
        wrong.ends[stored - 1] += 1;
        wrong.lens[stored - 1] = 4;
        let looked_at = column.kind.is_bytes() && coded(column);
        assert_eq!(held(column, record, &wrong, &row, 0).0, if looked_at { 9 } else { 0 });
        if looked_at {
            answers(record, &wrong, &row, 9);
        }

        // room for one row fewer is 4, and nothing is written
        let exact = memory.first(needs(column, &at_once(record, &memory, &row, 5).1));
        assert_eq!(held(column, record, &exact, &row, 5).0, 0);
        if !coded(column) {
            assert_eq!(held(column, record, &exact, &row, 6).0, 4);
        }
        // no rows change nothing, also a null that is above 1; and rows do
        let nulls = BuilderRecord { null: 5, ..record };
        assert_eq!(held(column, nulls, &memory, &row, 0), (0, nulls, memory.clone()));
        let (_, next, _) = held(column, nulls, &memory, &row, 2);
        assert_eq!(next.null, if coded(column) { 0 } else { 5 });
    }
}

#[test]
fn a_limit_comes_before_room() {
    let none = Memory::none();
    let number = |column, room: &Memory, row: &Value, n| {
        let (number, record, memory) = at_once(created(column), room, row, n);
        assert!(number == 0 || record == created(column) && memory == *room);
        number
    };
    // plain bool, room for ten rows: single appends would meet 4 at the eleventh
    let bools = Column::new(Kind::Bool, Encoding::Plain);
    let ten = none.and_noise([10, 0, 0, 0, 0, 0], &mut Chance::new(60));
    for (n, due) in [(10, 0), (11, 4), (1 << 20, 4), ((1 << 20) + 1, 3), (2_000_000, 3), (MOST_ROWS, 3), (usize::MAX, 3)] {
        assert_eq!(number(bools, &ten, &Value::Int(1), n), due, "{n}");
    }
    let all = none.and_noise([1 << 20, 0, 0, 0, 0, 0], &mut Chance::new(61));
    assert_eq!((number(bools, &all, &Value::Int(1), 1 << 20), number(bools, &all, &Value::Int(1), (1 << 20) + 1)), (0, 3));

    // each item and its end, 2^24 bytes in all; the last three have a multiple of 2^64
    let blobs = Column::new(Kind::Blob, Encoding::Plain);
    let item = |len: usize| Value::Bytes(vec![7; len]);
    for (len, n, due) in [
        (12, 1 << 20, 4),
        (13, 1 << 20, 3),
        (252, 1 << 16, 4),
        (252, (1 << 16) + 1, 3),
        ((1 << 24) - 4, 1, 4),
        ((1 << 24) - 3, 1, 3),
        ((1 << 24) - 4, 2, 3),
        (1 << 20, 1 << 44, 3),
        (1 << 24, 1 << 40, 3),
        (1 << 24, 1 << 63, 3),
    ] {
        assert_eq!(number(blobs, &none, &item(len), n), due, "{n} of {len} bytes");
    }
    // in runs an item is stored for each run, in a dictionary once
    let [runs, flagged, keys] = [2, 3, 4].map(|encoding| Column::numbered(9, encoding, 0).unwrap());
    for (len, n, due) in [(246, MOST_ROWS, 4), (247, MOST_ROWS, 3), (1 << 20, 15 * FULL, 4), (1 << 20, 16 * FULL, 3)] {
        assert_eq!(number(runs, &none, &item(len), n), due, "{n} of {len} bytes in runs");
        assert_eq!(number(flagged, &none, &item(len), n), due, "{n} of {len} bytes in runs with flags");
        assert_eq!(number(keys, &none, &item(len), n), 4, "{n} of {len} bytes by keys");
    }
    // the 48 bits
    for column in (0..model::PAIRS).map(|pair| model::column(pair, 3)) {
        let row = a_row(column.kind);
        let most = if coded(column) { MOST_ROWS } else { 1 << 20 };
        assert_eq!((number(column, &none, &row, most), number(column, &none, &row, most + 1)), (4, 3), "{column:?}");
        assert_eq!(number(column, &none, &row, usize::MAX), 3, "{column:?}");
    }
}

#[test]
fn a_refused_call_of_the_wrapper_changes_nothing() {
    let mut chance = Chance::new(62);
    for pair in 0..model::PAIRS {
        let column = model::column(pair, 3);
        let good = a_row(column.kind);
        let mut builder = Builder::new(column, 0).unwrap();
        builder.append_times((&good).into(), 40).unwrap();
        let before = builder.finish();
        for n in [0, 1, 300, u64::MAX] {
            if let Some(bad) = unfit(column.kind, &mut chance) {
                assert_eq!(builder.append_times((&bad).into(), n), Err(Refusal::Item), "{column:?}");
            }
            // a row of another sort
            let other = if column.kind.is_bytes() { Row::Int(0) } else { Row::Bytes(b"") };
            assert_eq!(builder.append_times(other, n), Err(Refusal::Item), "{column:?}");
        }
        for n in [1 << 48, (1 << 48) - 40, u64::MAX] {
            assert_eq!(builder.append_times((&good).into(), n), Err(Refusal::Limit), "{column:?}");
            assert_eq!(builder.append_times(Row::Null, n), Err(Refusal::Limit), "{column:?}");
        }
        assert_eq!(builder.append_times((&good).into(), 0), Ok(()));
        assert_eq!(builder.append_times(Row::Null, 0), Ok(()));
        assert_eq!((builder.rows(), builder.finish()), (40, before));
    }
}
