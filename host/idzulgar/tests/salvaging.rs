//! A dictionary column with unknown keys given back, against the model of document 02, which goes row by row: all kinds, blocks that no
//! builder makes, room and lists that are short, every refusal and their order, damaged blocks; and blocks of few runs and many rows, against
//! the builder.
mod model;

use idzulgar::calls::Descriptor;
use idzulgar::{compare, salvage, Builder, Column, Encoding, Kind, Reader, Refusal, Row, Value};
use model::differences::{Lent, ENCODINGS};
use model::salvages::{self, block_by, entries_and_runs, key_of, keys_in, set_key, Salvaged};
use model::{held, loose, Chance};

/// The key of a null, and the most rows of a run and of a block.
const NULL: i32 = i32::MIN;
const MOST_COUNT: u64 = u32::MAX as u64;
const MOST_ROWS: u64 = (1 << 48) - 1;

fn dictionary(kind: Kind) -> Column {
    Column::new(kind, Encoding::Dictionary)
}

/// Each kind, char with this width.
fn kinds(width: u64) -> impl Iterator<Item = Kind> {
    (0..model::PAIRS / 5).map(move |kind| model::column(5 * kind, width).kind)
}

/// The block that the wrapper's builder gives for rows that come with how many there are of each.
fn built<'a>(kind: Kind, rows: impl IntoIterator<Item = (&'a Value, u64)>) -> Lent {
    let mut builder = Builder::new(dictionary(kind), 4096).expect("a pair");
    rows.into_iter().for_each(|(row, times)| builder.append_times(Row::from(row), times).expect("a row that fits"));
    Lent::new(dictionary(kind), builder.rows(), builder.finish().expect("memory"))
}

/// The same of single rows.
fn built_of(kind: Kind, rows: &[Value]) -> Lent {
    built(kind, rows.iter().map(|row| (row, 1)))
}

/// The wrapper's salvage.
fn by_wrapper(lent: &Lent, most: usize) -> Result<Salvaged, Refusal> {
    let salvaged = salvage(lent.column().expect("a pair"), lent.descriptor.rows as u64, &lent.block, most)?;
    let ranges = salvaged.lost.into_iter().map(|range| (*range.start() as usize, *range.end() as usize)).collect();
    Ok(Salvaged { block: salvaged.block, ranges })
}

/// All rows of a sound block, as the wrapper reads them.
fn rows_read(lent: &Lent) -> Vec<Value> {
    let reader = Reader::open(lent.column().expect("a pair"), lent.descriptor.rows as u64, &lent.block[..]).expect("a sound block");
    reader.rows().collect::<Result<_, _>>().expect("rows that fit into memory")
}

/// Salvages a block of which nothing but keys is bad, by the call and by the wrapper: into just as much memory as it takes, into more, and into
/// less. What comes of it isn't longer, is sound, is the builder's block of its rows, and loses nothing if it is salvaged again.
fn salvaged(lent: &Lent) -> Salvaged {
    let kind = lent.column().expect("a pair").kind;
    let most = entries_and_runs(&lent.block).1.div_ceil(2);
    let found = held::salvage(lent, most, most, lent.block.len()).expect("no other fault, and room for all");
    let (slots, room) = (found.ranges.len(), found.block.len());
    assert_eq!(held::salvage(lent, slots, slots + 2, room).as_ref(), Ok(&found));
    assert_eq!(held::salvage(lent, slots + 2, slots, room + 9).as_ref(), Ok(&found));
    assert_eq!(held::salvage(lent, slots, slots, room - 1), Err(4));
    assert_eq!(held::salvage(lent, most, most, 0), Err(4));
    assert_eq!(by_wrapper(lent, slots).as_ref(), Ok(&found));
    assert_eq!(by_wrapper(lent, usize::MAX).as_ref(), Ok(&found));
    if slots > 0 {
        for (firsts, lasts) in [(slots - 1, slots), (slots, slots - 1), (0, most), (0, 0)] {
            assert_eq!(held::salvage(lent, firsts, lasts, room), Err(4));
        }
        assert_eq!(by_wrapper(lent, slots - 1), Err(Refusal::Room));
    }
    let sound = Lent { block: found.block.clone(), ..*lent };
    let (rows, _) = salvages::repaired(kind, &lent.block);
    assert_eq!(rows_read(&sound), rows);
    assert_eq!(built_of(kind, &rows), sound);
    assert_eq!(held::salvage(&sound, 0, 0, room), Ok(Salvaged { block: found.block.clone(), ranges: vec![] }));
    found
}

#[test]
fn the_sample_of_an_unknown_key() {
    // document 01's J: "ab" null "ab" "c", and the key of the last names no entry
    let block = |entries: u8, last: u8, rest: &[u8]| {
        let head = [0, 0, 0, 0, 0, 0, 0, 28, 0, 0, 0, entries, 4, 0, 0, 0, 4, 0, 0, 0, 1, 1, 1, 1];
        let keys = [1, 0, 0, 0x80, 0, 0, 0, 0x80, 1, 0, 0, 0x80, last, 0, 0, 0x80];
        [&head[..], &keys, rest].concat()
    };
    let lent = Lent::new(dictionary(Kind::Blob), 4, block(2, 3, b"\x02\0\0\0\x03\0\0\0abc"));
    assert_eq!(lent.number(), 15);
    assert_eq!(salvaged(&lent), Salvaged { block: block(1, 0, b"\x02\0\0\0ab"), ranges: vec![(3, 3)] });
}

#[test]
fn any_keys_damaged() {
    let mut chance = Chance::new(71);
    // of each kind: no ranges, one, more; a shorter block; entries left out; runs joined; a null among the lost rows
    let mut seen = [[0u32; 7]; 12];
    for round in 0..30_000 {
        let kind = model::column(5 * (round % 12), 1 + chance.below(6)).kind;
        let rows = model::some_rows(kind, if chance.one_in(20) { 200 } else { 16 }, &mut chance);
        let mut lent = match chance.below(3) {
            0 => built_of(kind, &rows),
            1 => Lent::new(dictionary(kind), rows.len() as u64, model::block_of(dictionary(kind), &rows)),
            _ => Lent::new(dictionary(kind), rows.len() as u64, loose::block_of(dictionary(kind), &rows, &mut chance)),
        };
        salvages::spoil_keys(&mut lent.block, &mut chance);
        let found = salvaged(&lent);
        let (before, after) = (entries_and_runs(&lent.block), entries_and_runs(&found.block));
        let lost = found.ranges.iter().flat_map(|range| range.0..=range.1);
        let told = [
            found.ranges.is_empty(),
            found.ranges.len() == 1,
            found.ranges.len() > 1,
            found.block.len() < lent.block.len(),
            after.0 < before.0,
            after.1 < before.1,
            lost.into_iter().any(|row| rows[row] == Value::Null),
        ];
        seen[round as usize % 12].iter_mut().zip(told).for_each(|(seen, told)| *seen += told as u32);
    }
    assert!(seen.as_flattened().iter().all(|count| *count > 200), "{seen:?}");
}

#[test]
fn sound_blocks_lose_nothing() {
    let mut chance = Chance::new(72);
    let (mut same_bytes, mut other_bytes) = (0, 0);
    for round in 0..12_000 {
        let kind = model::column(5 * (round % 12), 1 + chance.below(6)).kind;
        let column = dictionary(kind);
        let rows = model::some_rows(kind, 40, &mut chance);
        let stored: Vec<Value> = rows.iter().map(|row| model::stored(column, row)).collect();
        let n = rows.len() as u64;
        for lent in [built_of(kind, &rows), Lent::new(column, n, loose::block_of(column, &rows, &mut chance))] {
            let found = salvaged(&lent);
            assert_eq!(found, Salvaged { block: built_of(kind, &stored).block, ranges: vec![] });
            assert_eq!(compare((column, n, &lent.block), (column, n, &found.block), 0), Ok(vec![]));
            *(if found.block == lent.block { &mut same_bytes } else { &mut other_bytes }) += 1;
        }
        // a builder's block comes back as it is, if it reads as the rows that were appended
        let lent = built_of(kind, &rows);
        assert!(rows != stored || salvaged(&lent).block == lent.block, "{lent:?}");
    }
    assert!(same_bytes > 10_000 && other_bytes > 5_000, "{same_bytes} {other_bytes}");
}

/// Two rows of a kind that aren't the same.
fn two_rows(kind: Kind) -> [Value; 2] {
    match kind {
        Kind::F64 => [Value::F64(-0.0), Value::F64(0.0)],
        _ if kind.is_bytes() => [Value::Bytes(b"a".to_vec()), Value::Bytes(Vec::new())],
        _ => [Value::Int(1), Value::Int(0)],
    }
}

#[test]
fn every_choice_of_keys_for_few_runs() {
    let mut salvaged_blocks = 0;
    for kind in kinds(2) {
        let [one, other] = two_rows(kind);
        // two entries, or two that read the same and one that no key names
        for entries in [vec![one.clone(), other.clone()], vec![one.clone(), one.clone(), other]] {
            let unknown = key_of(entries.len() as u64);
            let keys = [NULL, key_of(0), key_of(1), unknown, -1];
            for runs in 0..=4 {
                for choice in 0..keys.len().pow(runs) {
                    let place = |run: u32| choice / keys.len().pow(run) % keys.len();
                    let runs: Vec<(i32, u64)> = (0..runs).map(|run| (keys[place(run)], 1 + u64::from(run % 2))).collect();
                    let rows = runs.iter().map(|run| run.1).sum();
                    salvaged(&Lent::new(dictionary(kind), rows, block_by(kind, &entries, &runs)));
                    salvaged_blocks += 1;
                }
            }
        }
    }
    assert_eq!(salvaged_blocks, 12 * 2 * (1 + 5 + 25 + 125 + 625));
}

#[test]
fn the_first_key_that_names_no_entry() {
    for kind in kinds(3) {
        let entries: Vec<Value> = two_rows(kind).into();
        for count in 0..=2 {
            for (key, is_lost) in [
                (NULL, false),
                (key_of(0), count == 0),
                (key_of(1), count < 2),
                (key_of(2), true),
                (key_of(3), true),
                (-1, true),
                (0, true),
                (1, true),
                (i32::MAX, true),
            ] {
                let lent = Lent::new(dictionary(kind), 5, block_by(kind, &entries[..count], &[(NULL, 2), (key, 2), (NULL, 1)]));
                let found = salvaged(&lent);
                assert_eq!(found.ranges, if is_lost { vec![(2, 3)] } else { vec![] }, "{kind:?}, {count} entries, key {key}");
            }
        }
    }
}

#[test]
fn entries_that_are_equal_unused_or_end_in_a_nul() {
    let text = |text: &str| Value::Bytes(text.as_bytes().to_vec());
    // char 3: "x NUL y" is stored beside "x", which reads the same, and behind "abc" comes one that reads as ""
    let entries = ["x\0y", "abc", "x", "\0bc", "", "de", "x\0z"].map(text);
    let keys = |places: &[(u64, u64)]| places.iter().map(|(place, count)| (key_of(*place), *count)).collect::<Vec<_>>();
    let lent =
        |kind, runs: &[(i32, u64)]| Lent::new(dictionary(kind), runs.iter().map(|run| run.1).sum(), block_by(kind, &entries, runs));
    // "x" "x" "x" "" "" null "x" "abc", of which the null is lost
    let runs = keys(&[(2, 1), (0, 1), (6, 1), (4, 1), (3, 1), (7, 1), (0, 1), (1, 1)]);
    let due = built(Kind::Char(3), [(&text("x"), 3), (&text(""), 2), (&Value::Null, 1), (&text("x"), 1), (&text("abc"), 1)]);
    assert_eq!(salvaged(&lent(Kind::Char(3), &runs)), Salvaged { block: due.block, ranges: vec![(5, 5)] });
    // the same as strings, where each is another
    let stored = |place: usize| (&entries[place], 1);
    let rows = [stored(2), stored(0), stored(6), stored(4), stored(3), (&Value::Null, 1), stored(0), stored(1)];
    for kind in [Kind::Blob, Kind::String] {
        assert_eq!(salvaged(&lent(kind, &runs)), Salvaged { block: built(kind, rows).block, ranges: vec![(5, 5)] });
    }
    // of bools any byte but 0 is 1
    let mut bools = Lent::new(
        dictionary(Kind::Bool),
        4,
        block_by(Kind::Bool, &[1, 1, 0, 1].map(Value::Int), &keys(&[(3, 1), (0, 1), (9, 1), (1, 1)])),
    );
    let end = bools.block.len();
    bools.block[end - 4..].copy_from_slice(&[2, 255, 0, 128]);
    let due = built(Kind::Bool, [(&Value::Int(1), 2), (&Value::Null, 1), (&Value::Int(1), 1)]);
    assert_eq!(salvaged(&bools), Salvaged { block: due.block, ranges: vec![(2, 2)] });
    // of floats each has its own bits
    let floats = [0.0, -0.0, f64::NAN, -f64::NAN, f64::NAN].map(Value::F64);
    let lent =
        Lent::new(dictionary(Kind::F64), 6, block_by(Kind::F64, &floats, &keys(&[(1, 1), (0, 1), (4, 1), (2, 1), (3, 1), (5, 1)])));
    let rows = [(&floats[1], 1), (&floats[0], 1), (&floats[2], 2), (&floats[3], 1), (&Value::Null, 1)];
    assert_eq!(salvaged(&lent), Salvaged { block: built(Kind::F64, rows).block, ranges: vec![(5, 5)] });
}

#[test]
fn no_rows_and_no_entries() {
    for kind in kinds(2) {
        let none = built_of(kind, &[]);
        assert_eq!(none.block, [0; 12]);
        assert_eq!(salvaged(&none), Salvaged { block: vec![0; 12], ranges: vec![] });
        // entries that no row has go
        let lent = Lent::new(dictionary(kind), 0, block_by(kind, &two_rows(kind), &[]));
        assert_eq!(salvaged(&lent), Salvaged { block: vec![0; 12], ranges: vec![] });
        // all rows are lost, and with them the entries
        let lent = Lent::new(dictionary(kind), 9, block_by(kind, &two_rows(kind), &[(key_of(2), 2), (-1, 3), (0, 4)]));
        let due = built(kind, [(&Value::Null, 9)]);
        assert_eq!(salvaged(&lent), Salvaged { block: due.block, ranges: vec![(0, 8)] });
    }
}

#[test]
fn room_and_lists_of_each_length() {
    let entries: Vec<Value> = (0..4).map(Value::Int).collect();
    let runs: Vec<(i32, u64)> = (0..9).map(|run| (key_of(if run % 2 == 0 { 4 } else { run / 2 }), 1)).collect();
    let lent = Lent::new(dictionary(Kind::I32), 9, block_by(Kind::I32, &entries, &runs));
    let found = salvaged(&lent);
    assert_eq!((found.ranges.len(), found.block.len()), (5, lent.block.len()));
    for room in 0..lent.block.len() + 5 {
        for firsts in 0..8 {
            for lasts in 0..8 {
                let answer = held::salvage(&lent, firsts, lasts, room);
                let is_short = firsts < 5 || lasts < 5 || room < found.block.len();
                assert_eq!(answer, if is_short { Err(4) } else { Ok(found.clone()) }, "{firsts} and {lasts} slots, room {room}");
            }
        }
    }
    for most in 0..9 {
        assert_eq!(by_wrapper(&lent, most), if most < 5 { Err(Refusal::Room) } else { Ok(found.clone()) });
    }
}

/// What can be wrong with a block or its descriptor: what it is, its number, and how it is done.
type Fault = (&'static str, u8, fn(&mut Lent));

/// A column of strings, six rows in four runs, of which one key is unknown, and what can be wrong with it beside that, in the order in which it
/// is told. Two of them can be wrong at once.
fn faults() -> (Lent, Vec<Fault>) {
    let texts = ["ab", "é", "x"].map(|text| Value::Bytes(text.as_bytes().to_vec()));
    let runs = [(key_of(1), 1), (key_of(3), 2), (NULL, 1), (key_of(0), 2)];
    let lent = Lent::new(dictionary(Kind::String), 6, block_by(Kind::String, &texts, &runs));
    // 12 bytes of lengths; 8 of lengths, 4 counts and 4 keys of the key block; 3 ends; 5 bytes of text
    assert_eq!(lent.block.len(), 12 + 8 + 4 + 16 + 12 + 5);
    let faults: Vec<Fault> = vec![
        ("another encoding", 1, |lent| lent.descriptor.encoding = 2),
        ("the zero bit", 1, |lent| lent.descriptor.zero = 1),
        ("a width", 1, |lent| lent.descriptor.width = 1),
        ("too many rows", 3, |lent| lent.descriptor.rows = 1 << 48),
        ("too many entries", 3, |lent| lent.block[8..12].copy_from_slice(&65_537u32.to_be_bytes())),
        ("key block cut", 10, |lent| lent.block[..8].fill(0xFF)),
        ("too many runs", 3, |lent| lent.block[12..16].copy_from_slice(&1_048_577u32.to_le_bytes())),
        ("no runs", 13, |lent| lent.block[12..16].fill(0)),
        ("counts cut", 10, |lent| lent.block[16..20].fill(0x7F)),
        ("a count of 0", 13, |lent| lent.block[20] = 0),
        ("a bad count", 12, |lent| lent.block[21..23].copy_from_slice(&[0x80, 0])),
        ("a row too few", 16, |lent| lent.descriptor.rows += 1),
        ("an end that falls", 14, |lent| lent.block[40] = 5),
        ("an end too low", 11, |lent| lent.block[48] = 4),
        ("no text", 17, |lent| lent.block[55] = b'e'),
    ];
    (lent, faults)
}

#[test]
fn the_first_refusal_of_the_order_is_given() {
    let (lent, faults) = faults();
    assert_eq!((lent.number(), salvaged(&lent).ranges), (15, vec![(1, 2)]));
    // rows and runs are one field of two faults each: the later one undoes the earlier
    let one_field =
        |one: &str, other: &str| matches!((one, other), ("too many rows", "a row too few") | ("too many runs", "no runs"));
    for (place, (what, number, change)) in faults.iter().enumerate() {
        let mut first = lent.clone();
        change(&mut first);
        for (firsts, lasts, room) in [(1, 1, 57), (9, 9, 99), (0, 1, 57), (1, 0, 57), (1, 1, 10), (0, 0, 0)] {
            assert_eq!(held::salvage(&first, firsts, lasts, room), Err(*number), "{what}");
        }
        for (later, _, change) in &faults[place + 1..] {
            let mut both = first.clone();
            change(&mut both);
            if !one_field(what, later) {
                assert_eq!(held::salvage(&both, 1, 1, 57), Err(*number), "{what}, {later}");
            }
        }
        // with good keys it is the number that opening gives, but for the encoding, which opening takes
        let mut good = first.clone();
        if *what != "key block cut" && *what != "counts cut" {
            set_key(&mut good.block, 1, key_of(2));
        }
        assert!(*what == "another encoding" || good.number() == *number, "{what}");
    }
}

#[test]
fn no_other_encoding() {
    let mut chance = Chance::new(73);
    for round in 0..2_000 {
        for encoding in &ENCODINGS[..4] {
            let column = Column::new(model::column(5 * (round % 12), 3).kind, *encoding);
            let rows = model::some_rows(column.kind, 12, &mut chance);
            let lent = Lent::new(column, rows.len() as u64, model::block_of(column, &rows));
            assert_eq!(held::salvage(&lent, 9, 9, 999), Err(1));
            assert_eq!(held::salvage(&lent, 0, 0, 0), Err(1));
            assert_eq!(by_wrapper(&lent, 9), Err(Refusal::Column));
        }
    }
    // numbers that are no column's
    let lent = built_of(Kind::I32, &[Value::Int(7)]);
    for (kind, encoding, width, zero) in [
        (12, 4, 0, 0),
        (2 + (1 << 8), 4, 0, 0),
        (2 + (1 << 32), 4, 0, 0),
        (usize::MAX, 4, 0, 0),
        (2, 5, 0, 0),
        (2, 4 + 8, 0, 0),
        (2, 4 + 256, 0, 0),
        (2, 4 + (1 << 32), 0, 0),
        (2, usize::MAX, 0, 0),
        (2, 4, 4, 0),
        (2, 4, 1 << 8, 0),
        (8, 4, 0, 0),
        (8, 4, 256, 0),
        (8, 4, 257, 0),
        (2, 4, 0, 1),
        (2, 4, 0, 2),
        (2, 4, 0, 1 << 8),
        (2, 4, 0, 1 << 32),
        (2, 4, 0, usize::MAX),
    ] {
        for rows in [1, 2, 1 << 48] {
            let lent = Lent { descriptor: Descriptor { kind, encoding, width, zero, rows }, block: lent.block.clone() };
            assert_eq!(held::salvage(&lent, 9, 9, 99), Err(1), "{:?}", lent.descriptor);
        }
    }
}

#[test]
fn damaged_blocks() {
    let mut chance = Chance::new(74);
    let mut seen = [0u32; 26];
    for round in 0..150_000 {
        let column = model::column(5 * (round % 12) + 4, 1 + chance.below(6));
        let rows = model::some_rows(column.kind, 16, &mut chance);
        let mut block = if chance.one_in(2) { model::block_of(column, &rows) } else { loose::block_of(column, &rows, &mut chance) };
        salvages::spoil_keys(&mut block, &mut chance);
        let (block, n) = model::damaged(&block, rows.len() as u64, &mut chance);
        let room = if chance.one_in(4) { chance.below(block.len() as u64 + 1) as usize } else { block.len() };
        let slots = if chance.one_in(4) { chance.below(3) as usize } else { 20 };
        let lent = Lent::new(column, n, block);
        let answer = held::salvage(&lent, slots, 20, room);
        // a block that opens loses nothing, and one that only its keys keep from opening loses some rows
        match (lent.number(), &answer) {
            (0, Ok(found)) => assert!(found.ranges.is_empty()),
            (15, Ok(found)) => assert!(!found.ranges.is_empty()),
            (0 | 15, Err(4)) => {}
            // the keys' rule comes before the entries'
            (15, Err(number)) => assert!(matches!(number, 10 | 11 | 14 | 17), "{number}"),
            (number, answer) => assert_eq!(*answer, Err(number)),
        }
        seen[answer.map_or_else(usize::from, |_| 0)] += 1;
    }
    assert!([0, 3, 4, 10, 11, 12, 13, 14, 16, 17].iter().all(|number| seen[*number] > 20) && seen[15] == 0, "{seen:?}");
}

/// A block by its entries and runs as they are given, and what is due for it: the builder's block of the repaired rows, appended run by run, and
/// the ranges.
fn by_runs(kind: Kind, entries: &[Value], runs: &[(i32, u64)]) -> (Lent, Salvaged) {
    let rows: u64 = runs.iter().map(|run| run.1).sum();
    let lent = Lent::new(dictionary(kind), rows, block_by(kind, entries, runs));
    let (mut repaired, mut ranges, mut row) = (Vec::new(), Vec::<(usize, usize)>::new(), 0);
    for (key, count) in runs {
        let count = *count as usize;
        // null's is 0, and the entries' are counted from 1 on
        let slot = (*key as i64 - NULL as i64) as usize;
        let entry = if slot > 0 { entries.get(slot - 1) } else { None };
        repaired.push((entry.unwrap_or(&Value::Null), count as u64));
        if slot > entries.len() {
            match ranges.last_mut() {
                Some(range) if range.1 + 1 == row => range.1 += count,
                _ => ranges.push((row, row + count - 1)),
            }
        }
        row += count;
    }
    (lent, Salvaged { block: built(kind, repaired).block, ranges })
}

/// Salvages such a block, which may have any number of rows. What comes of it isn't longer, is sound, and loses nothing if it is salvaged again.
fn salvaged_by_runs(kind: Kind, entries: &[Value], runs: &[(i32, u64)]) -> (Lent, Salvaged) {
    let (lent, due) = by_runs(kind, entries, runs);
    let (slots, room) = (due.ranges.len(), due.block.len());
    let what = || format!("{entries:?} {:?}", &runs[..runs.len().min(20)]);
    assert!(held::given_back(&lent, slots, slots, lent.block.len()).as_ref() == Ok(&due), "{}", what());
    assert!(held::given_back(&lent, slots, slots, room).as_ref() == Ok(&due), "{}", what());
    assert_eq!(held::given_back(&lent, slots, slots, room - 1), Err(4), "{}", what());
    if slots > 0 {
        assert_eq!(held::given_back(&lent, slots - 1, slots, room), Err(4), "{}", what());
        assert_eq!(held::given_back(&lent, slots, slots - 1, room), Err(4), "{}", what());
        assert_eq!(by_wrapper(&lent, slots - 1), Err(Refusal::Room), "{}", what());
    }
    assert!(by_wrapper(&lent, slots).as_ref() == Ok(&due), "{}", what());
    let sound = Lent { block: due.block.clone(), ..lent };
    assert_eq!(sound.number(), 0, "{}", what());
    assert!(held::given_back(&sound, 0, 0, room) == Ok(Salvaged { block: due.block.clone(), ranges: vec![] }), "{}", what());
    (lent, due)
}

/// The run counts of a dictionary block.
fn counts_in(block: &[u8]) -> Vec<u64> {
    model::counts_of(dictionary(Kind::I64), block)
}

#[test]
fn runs_that_join_past_the_most_rows_of_a_run() {
    let [seven, nine] = [7, 9].map(Value::Int);
    let entries = [seven.clone(), seven, nine];
    let (one, same, other, unknown) = (key_of(0), key_of(1), key_of(2), key_of(3));
    const MOST: u64 = MOST_COUNT;
    for (runs, due) in [
        // full, and a row more
        (vec![(unknown, MOST), (NULL, 1)], vec![MOST, 1]),
        (vec![(NULL, 1), (unknown, MOST)], vec![MOST, 1]),
        (vec![(unknown, MOST - 1), (-1, 1)], vec![MOST]),
        (vec![(unknown, MOST - 1), (-1, 2)], vec![MOST, 1]),
        (vec![(one, MOST), (same, MOST), (one, MOST)], vec![MOST; 3]),
        (vec![(one, MOST - 1), (same, MOST), (one, 1)], vec![MOST; 2]),
        (vec![(one, 5), (same, MOST), (one, MOST), (same, 5)], vec![MOST, MOST, 10]),
        // lost rows join nulls on both sides, and not the rows behind them
        (vec![(NULL, 3), (unknown, MOST), (0, MOST), (NULL, 4), (other, 2)], vec![MOST, MOST, 7, 2]),
        (vec![(other, 2), (unknown, MOST), (other, 2)], vec![2, MOST, 2]),
        // counts of one byte that come to two, and of four to five
        (vec![(unknown, 64), (NULL, 64)], vec![128]),
        (vec![(unknown, 127), (NULL, 1), (-1, 16_384 - 128)], vec![16_384]),
        (vec![(unknown, 1 << 27), (NULL, 1 << 27)], vec![1 << 28]),
        (vec![(same, 1 << 27), (one, (1 << 27) - 1)], vec![(1 << 28) - 1]),
    ] {
        let (lent, found) = salvaged_by_runs(Kind::I64, &entries, &runs);
        assert_eq!(counts_in(&found.block), due, "{runs:?}");
        assert!(found.block.len() <= lent.block.len(), "{runs:?}");
    }
}

#[test]
fn long_runs_by_chance() {
    const TELLING: [u64; 12] =
        [1, 2, 127, 128, 16_383, 1 << 14, 1 << 21, 1 << 28, 1 << 31, 0xF000_0000, MOST_COUNT - 1, MOST_COUNT];
    let mut chance = Chance::new(75);
    let (mut split, mut most, mut shorter) = (0, 0, 0);
    for round in 0..12_000 {
        let kind = model::column(5 * (round % 12), 1 + chance.below(6)).kind;
        let rows = model::some_rows(kind, 6, &mut chance);
        // as they are read, since that is how they come back
        let entries: Vec<Value> = rows.iter().map(|row| model::stored(Column::new(kind, Encoding::Plain), row)).collect();
        let keys = entries.len() as u64 + 3;
        let runs: Vec<(i32, u64)> = (0..1 + chance.below(14))
            .map(|_| (key_of(chance.below(keys)).wrapping_sub(1), TELLING[chance.below(12) as usize]))
            .collect();
        let (lent, found) = salvaged_by_runs(kind, &entries, &runs);
        let (before, after) = (counts_in(&lent.block), counts_in(&found.block));
        split += after.windows(2).any(|pair| pair[0] == MOST_COUNT && !before.windows(2).any(|other| other == pair)) as u32;
        shorter += (found.block.len() < lent.block.len()) as u32;
        assert!(found.block.len() <= lent.block.len());
        most = most.max(lent.descriptor.rows);
    }
    assert!(split > 1_000 && most > 1 << 35 && shorter > 5_000, "{split} {most} {shorter}");
}

#[test]
fn the_greatest_number_of_rows() {
    // at most 4,294,967,295 rows a run: so many take 65,537 runs
    let entries = [Value::Int(3), Value::Int(4), Value::Int(3)];
    let runs = |key: &dyn Fn(usize) -> i32| {
        let mut runs: Vec<(i32, u64)> = (0..65_536).map(|run| (key(run), MOST_COUNT)).collect();
        runs.push((key(65_536), MOST_ROWS - 65_536 * MOST_COUNT));
        runs
    };
    let rows = MOST_ROWS as usize;
    // all lost; none; every second; one in the midst; equal rows by two keys
    let (_, found) = salvaged_by_runs(Kind::I64, &entries, &runs(&|run| key_of(3 + run as u64 % 2)));
    assert_eq!(found.ranges, [(0, rows - 1)]);
    let (lent, found) = salvaged_by_runs(Kind::I64, &entries[..2], &runs(&|run| key_of(run as u64 % 2)));
    assert!(found.ranges.is_empty() && found.block == lent.block);
    let (_, found) = salvaged_by_runs(Kind::I64, &entries, &runs(&|run| key_of(2 + run as u64 % 2)));
    assert_eq!(found.ranges.len(), 32_768);
    let (_, found) = salvaged_by_runs(Kind::I64, &entries, &runs(&|run| if run == 65_536 { -1 } else { key_of(1) }));
    assert_eq!(found.ranges, [(65_536 * MOST_COUNT as usize, rows - 1)]);
    let (_, found) = salvaged_by_runs(Kind::I64, &entries, &runs(&|run| key_of(2 * (run as u64 % 2))));
    assert_eq!((found.ranges.len(), entries_and_runs(&found.block)), (0, (1, 65_537)));
    // one row more is a limit passed
    let (mut lent, _) = by_runs(Kind::I64, &entries, &runs(&|_| 0));
    lent.descriptor.rows += 1;
    assert_eq!((held::given_back(&lent, 1, 1, lent.block.len()), by_wrapper(&lent, 1)), (Err(3), Err(Refusal::Limit)));
}

#[test]
fn the_most_runs_ranges_and_entries() {
    const RUNS: usize = 1 << 20;
    let one = [Value::Int(5)];
    // every second row lost: the most ranges that a block can have
    let runs: Vec<(i32, u64)> = (0..RUNS).map(|run| (key_of(run as u64 % 2), 1)).collect();
    let (lent, found) = salvaged_by_runs(Kind::I32, &one, &runs);
    assert_eq!((found.ranges.len(), found.block.len()), (RUNS / 2, lent.block.len()));
    assert!(by_wrapper(&lent, usize::MAX).as_ref() == Ok(&found));
    // every second row null: all of them are one run
    let runs: Vec<(i32, u64)> = (0..RUNS).map(|run| (if run % 2 == 0 { NULL } else { -1 }, 1)).collect();
    let (_, found) = salvaged_by_runs(Kind::I32, &one, &runs);
    assert_eq!((found.ranges.len(), counts_in(&found.block)), (RUNS / 2, vec![RUNS as u64]));
    // a run more than there can be
    let mut lent = lent;
    lent.block[12..16].copy_from_slice(&(RUNS as u32 + 1).to_le_bytes());
    assert_eq!(held::given_back(&lent, 0, 0, 0), Err(3));

    // the most entries, of which the last, the first and one in the midst are used
    let entries: Vec<Value> = (0..65_536).map(Value::Int).collect();
    for kind in [Kind::I32, Kind::I64, Kind::F64] {
        let entries: Vec<Value> = match kind {
            Kind::F64 => (0..65_536).map(|place| Value::F64(place as f64)).collect(),
            _ => entries.clone(),
        };
        let (_, found) =
            salvaged_by_runs(kind, &entries, &[(key_of(65_535), 1), (key_of(0), 1), (key_of(65_536), 1), (key_of(777), 1)]);
        assert_eq!((&found.ranges[..], entries_and_runs(&found.block)), (&[(2, 2)][..], (3, 4)));
    }
    let texts: Vec<Value> = (0..65_536u32).map(|place| Value::Bytes(format!("{place:05}").into_bytes())).collect();
    for kind in [Kind::Char(5), Kind::Blob, Kind::String] {
        let runs = [(key_of(65_535), 2), (key_of(65_536), 1), (key_of(1), 1), (key_of(65_535), 1)];
        let (_, found) = salvaged_by_runs(kind, &texts, &runs);
        assert_eq!((&found.ranges[..], entries_and_runs(&found.block)), (&[(2, 2)][..], (2, 4)));
    }
    // as many that read the same: all rows are one entry
    let equal = vec![Value::Int(1); 65_536];
    let runs: Vec<(i32, u64)> = (0..65_537).map(|place| (key_of(place), 1)).collect();
    let (_, found) = salvaged_by_runs(Kind::Bool, &equal, &runs);
    assert_eq!((&found.ranges[..], counts_in(&found.block)), (&[(65_536, 65_536)][..], vec![65_536, 1]));
}

#[test]
fn the_longest_block() {
    const LONGEST: usize = 1 << 24;
    // 12 bytes of lengths; 8 of lengths, three counts and three keys of the key block; two ends; texts
    let head = 12 + 8 + 3 * 5 + 2 * 4;
    for more in 0..2 {
        let long = Value::Bytes(vec![b'x'; LONGEST - head - 1 + more]);
        let runs = [(key_of(0), 1), (key_of(2), 1), (key_of(1), 1)];
        let block = block_by(Kind::String, &[long.clone(), Value::Bytes(vec![b'y'])], &runs);
        let lent = Lent::new(dictionary(Kind::String), 3, block);
        assert_eq!(lent.block.len(), LONGEST + more);
        let answer = held::given_back(&lent, 1, 1, lent.block.len());
        if more > 0 {
            assert!(answer == Err(3) && by_wrapper(&lent, 1) == Err(Refusal::Limit));
            continue;
        }
        // both entries are used still: the block is as long as before, and its second key is null's
        let found = answer.expect("room for all");
        assert!(by_wrapper(&lent, 1).as_ref() == Ok(&found));
        let mut due = lent.block.clone();
        set_key(&mut due, 1, NULL);
        assert!(found == Salvaged { block: due, ranges: vec![(1, 1)] });
        // without the long one it is short
        let mut spoiled = lent.clone();
        set_key(&mut spoiled.block, 0, -1);
        let found = by_wrapper(&spoiled, 1).expect("room for all");
        assert_eq!(
            found,
            Salvaged {
                block: built(Kind::String, [(&Value::Null, 2), (&Value::Bytes(vec![b'y']), 1)]).block,
                ranges: vec![(0, 1)]
            }
        );
    }
}

#[test]
fn the_wrapper_refuses_as_the_call_does() {
    let lent = built_of(Kind::I16, &[Value::Int(1), Value::Int(2), Value::Int(2)]);
    let mut bad = lent.clone();
    set_key(&mut bad.block, 0, -1);
    assert_eq!(keys_in(&bad.block), [-1, key_of(1)]);
    let column = dictionary(Kind::I16);
    let nothing_lost = |block: &[u8]| Ok(idzulgar::Salvaged { block: block.to_vec(), lost: vec![] });
    assert_eq!(salvage(column, 3, &lent.block, 0), nothing_lost(&lent.block));
    assert_eq!(salvage(column, 3, &bad.block, 0), Err(Refusal::Room));
    let due = built(Kind::I16, [(&Value::Null, 1), (&Value::Int(2), 2)]).block;
    assert_eq!(salvage(column, 3, &bad.block, 1), Ok(idzulgar::Salvaged { block: due, lost: vec![0..=0] }));
    for (column, rows, block, due) in [
        (Column::new(Kind::I16, Encoding::RunLength), 3, &bad.block[..], Refusal::Column),
        (dictionary(Kind::Char(0)), 3, &bad.block, Refusal::Column),
        (column, u64::MAX, &bad.block, Refusal::Limit),
        (column, 1 << 48, &[], Refusal::Limit),
        (column, 0, &[], Refusal::Cut),
        (column, 2, &bad.block, Refusal::Sum),
        (column, 3, &bad.block[..bad.block.len() - 1], Refusal::Length),
        (dictionary(Kind::I32), 3, &bad.block, Refusal::Length),
        (dictionary(Kind::Blob), 3, &bad.block, Refusal::Cut),
    ] {
        for most in [0, 1, usize::MAX] {
            assert_eq!(salvage(column, rows, block, most), Err(due), "{column:?} {rows}");
        }
    }
}
