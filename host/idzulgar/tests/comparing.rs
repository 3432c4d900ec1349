//! Two columns compared, against the model of document 02, which goes row by row: all pairs of encodings, blocks that no builder makes, lists
//! that are short, every refusal and their order, damaged blocks, and blocks of few runs and many rows.
mod model;

use std::slice;

use idzulgar::calls::Descriptor;
use idzulgar::{compare, write_sheet, Builder, Column, Encoding, Kind, Refusal, Row, Sheet, Value};
use model::differences::{self, default_of, encodings, Lent, ENCODINGS};
use model::held;
use model::{loose, Chance};

/// More slots than the short lists here have ranges.
const SLOTS: usize = 400;

const KINDS: [Kind; 12] = [
    Kind::Bool,
    Kind::I16,
    Kind::I32,
    Kind::I64,
    Kind::Date,
    Kind::Timestamp,
    Kind::TimestampTz,
    Kind::Interval,
    Kind::Char(3),
    Kind::Blob,
    Kind::String,
    Kind::F64,
];

fn lent(column: Column, rows: &[Value]) -> Lent {
    Lent::new(column, rows.len() as u64, model::block_of(column, rows))
}

/// A builder's block of some rows, or one that no builder makes.
fn some_lent(column: Column, rows: &[Value], chance: &mut Chance) -> Lent {
    let block = if chance.one_in(2) { model::block_of(column, rows) } else { loose::block_of(column, rows, chance) };
    Lent::new(column, rows.len() as u64, block)
}

/// The wrapper's compare.
fn by_wrapper(one: &Lent, other: &Lent, most: usize) -> Result<Vec<(usize, usize)>, Refusal> {
    let [a, b] = [one, other].map(|lent| (lent.column().expect("a pair"), lent.descriptor.rows as u64, &lent.block[..]));
    let ranges = compare(a, b, most)?;
    Ok(ranges.into_iter().map(|range| (*range.start() as usize, *range.end() as usize)).collect())
}

/// The ranges of two sound blocks, in this order and exchanged.
fn both_ways(one: &Lent, other: &Lent, slots: usize) -> Vec<(usize, usize)> {
    let found = held::ranges(one, other, slots, slots).expect("sound blocks, and room for the ranges");
    let what = || [one, other].map(|lent| format!("{:?} {}", lent.descriptor, held::start_of(&lent.block)));
    assert_eq!(held::ranges(other, one, slots, slots).as_ref(), Ok(&found), "{:?} exchanged", what());
    found
}

#[test]
fn any_two_columns_of_a_kind() {
    let mut chance = Chance::new(61);
    // of each pair of encodings: equal columns, columns that differ, in two ranges or more, and with rows that one of them alone has
    let mut seen = [[[0u32; 4]; 5]; 5];
    for round in 0..45_000 {
        let kind = KINDS[round % 12];
        let kind = if kind == Kind::Char(3) { Kind::Char(1 + chance.below(6) as u8) } else { kind };
        let (a, b) = encodings().nth(round / 12 % 25).expect("25 pairs");
        let rows = model::some_rows(kind, if chance.one_in(20) { 200 } else { 16 }, &mut chance);
        let changed = differences::from(kind, &rows, &mut chance);
        let one = some_lent(Column::new(kind, a), &rows, &mut chance);
        let other = some_lent(Column::new(kind, b), &changed, &mut chance);
        let ranges = held::compare(&one, &other, SLOTS, SLOTS).expect("sound blocks");
        let count = ranges.len();
        for (one, other) in [(&one, &other), (&other, &one)] {
            assert_eq!(held::compare(one, other, count, count).as_ref(), Ok(&ranges));
            assert_eq!(by_wrapper(one, other, count).as_ref(), Ok(&ranges));
            if count > 0 {
                for (firsts, lasts) in [(count - 1, count), (count, count - 1), (count - 1, SLOTS), (0, 0)] {
                    assert_eq!(held::compare(one, other, firsts, lasts), Err(4));
                }
                assert_eq!(by_wrapper(one, other, count - 1), Err(Refusal::Room));
            }
        }
        let seen = &mut seen[a as usize][b as usize];
        seen[0] += ranges.is_empty() as u32;
        seen[1] += !ranges.is_empty() as u32;
        seen[2] += (count > 1) as u32;
        seen[3] += (rows.len() != changed.len()) as u32;
    }
    assert!(seen.as_flattened().as_flattened().iter().all(|count| *count > 100), "{seen:?}");
}

/// Every list of at most so many rows over some rows.
fn lists(letters: &[Value], most: u32) -> Vec<Vec<Value>> {
    let mut all = vec![Vec::new()];
    let mut from = 0;
    for _ in 0..most {
        let to = all.len();
        for place in from..to {
            for letter in letters {
                all.push([&all[place][..], slice::from_ref(letter)].concat());
            }
        }
        from = to;
    }
    all
}

#[test]
fn every_two_short_lists() {
    let mut compared = 0;
    for kind in KINDS {
        let other = match kind {
            Kind::F64 => Value::F64(-0.0),
            _ if kind.is_bytes() => Value::Bytes(b"a".to_vec()),
            _ => Value::Int(1),
        };
        let lists = lists(&[Value::Null, default_of(kind), other], 3);
        assert_eq!(lists.len(), 1 + 3 + 9 + 27);
        for (a, b) in encodings() {
            let (a, b) = (Column::new(kind, a), Column::new(kind, b));
            let blocks = |column: Column| lists.iter().map(|rows| lent(column, rows)).collect::<Vec<_>>();
            for (rows, one) in lists.iter().zip(blocks(a)) {
                for (changed, other) in lists.iter().zip(blocks(b)) {
                    let stored =
                        |column: Column, rows: &[Value]| rows.iter().map(|row| model::stored(column, row)).collect::<Vec<_>>();
                    let due = differences::ranges(&stored(a, rows), &stored(b, changed));
                    assert_eq!(held::ranges(&one, &other, 2, 2), Ok(due), "{a:?} {rows:?} and {b:?} {changed:?}");
                    compared += 1;
                }
            }
        }
    }
    assert_eq!(compared, 12 * 25 * 40 * 40);
}

/// Whether two columns of a row each are the same, in this order and exchanged.
fn are_same(one: &Lent, other: &Lent) -> bool {
    match both_ways(one, other, 1)[..] {
        [] => true,
        [(0, 0)] => false,
        ref ranges => panic!("{ranges:?} of a row each: {one:?} and {other:?}"),
    }
}

#[test]
fn a_null_is_no_value() {
    for kind in KINDS {
        for (a, b) in encodings() {
            let (a, b) = (Column::new(kind, a), Column::new(kind, b));
            let [null, default] = [Value::Null, default_of(kind)];
            let holds_null = |column: Column| !matches!(column.encoding, Encoding::Plain | Encoding::RunLength);
            let of = |column, row: &Value| lent(column, slice::from_ref(row));
            assert!(are_same(&of(a, &default), &of(b, &default)), "{a:?} {b:?}");
            assert_eq!(are_same(&of(a, &null), &of(b, &default)), !holds_null(a), "{a:?} {b:?}");
            assert_eq!(are_same(&of(a, &null), &of(b, &null)), holds_null(a) == holds_null(b), "{a:?} {b:?}");
        }
    }
}

#[test]
fn rows_are_compared_as_they_are_read() {
    let plain = |kind, block: &[u8], rows| Lent::new(Column::new(kind, Encoding::Plain), rows, block.to_vec());
    let same = |kind, one: &[u8], other: &[u8]| are_same(&plain(kind, one, 1), &plain(kind, other, 1));
    // a bool byte that isn't 0 is 1
    assert!(same(Kind::Bool, &[1], &[255]) && same(Kind::Bool, &[2], &[128]) && !same(Kind::Bool, &[0], &[128]));
    // a char item ends at its first NUL, whatever is behind it
    assert!(same(Kind::Char(4), b"a\0bc", b"a\0\xFF\0") && same(Kind::Char(4), b"\0abc", b"\0\0\0\0"));
    assert!(!same(Kind::Char(4), b"ab\0c", b"a\0bc") && !same(Kind::Char(4), b"abcd", b"abc\0"));
    // other kinds keep theirs
    let blob = |bytes: &[u8]| [&(bytes.len() as u32).to_le_bytes(), bytes].concat();
    for kind in [Kind::Blob, Kind::String] {
        assert!(same(kind, &blob(b"a\0b"), &blob(b"a\0b")) && !same(kind, &blob(b"a\0b"), &blob(b"a\0c")));
        assert!(
            !same(kind, &blob(b"a\0"), &blob(b"a")) && !same(kind, &blob(b"\0"), &blob(b"")) && same(kind, &blob(b""), &blob(b""))
        );
    }
    // strings are the same by their bytes: one character or two that look like it
    assert!(!same(Kind::String, &blob("é".as_bytes()), &blob("e\u{301}".as_bytes())));
    // floats are the same by their bits
    let float = |bits: u64| bits.to_le_bytes();
    let nans = [0x7FF8 << 48, 0xFFF8 << 48, (0x7FF8 << 48) + 1, (0x7FF0 << 48) + 1];
    for one in nans {
        for other in nans {
            assert_eq!(same(Kind::F64, &float(one), &float(other)), one == other);
        }
    }
    assert!(!same(Kind::F64, &float(0), &float(1 << 63)) && same(Kind::F64, &float(1 << 63), &float(1 << 63)));
    // every bit of an integer counts
    for kind in [Kind::I64, Kind::Timestamp, Kind::TimestampTz, Kind::Interval, Kind::F64] {
        assert!((0..64).all(|bit| !same(kind, &float(0), &float(1 << bit))), "{kind:?}");
    }
    for kind in [Kind::I32, Kind::Date] {
        assert!((0..32).all(|bit| !same(kind, &0u32.to_le_bytes(), &(1u32 << bit).to_le_bytes())), "{kind:?}");
    }
    assert!((0..16).all(|bit| !same(Kind::I16, &0u16.to_le_bytes(), &(1u16 << bit).to_le_bytes())));
}

/// A row that isn't null, by a number.
fn row_of(kind: Kind, number: usize) -> Value {
    match kind {
        Kind::F64 => Value::F64(number as f64),
        Kind::Bool => Value::Int(number as i64 % 2),
        _ if kind.is_bytes() => Value::Bytes(vec![b'a' + number as u8; 1 + number % 2]),
        _ => Value::Int(number as i64 - 1),
    }
}

#[test]
fn no_row_all_rows_and_every_second_row() {
    for kind in KINDS {
        for (a, b) in encodings() {
            let (a, b) = (Column::new(kind, a), Column::new(kind, b));
            for len in [0, 1, 2, 3, 7, 8, 9, 16, 17, 64, 65, 200] {
                let rows = |number: &dyn Fn(usize) -> usize| (0..len).map(|place| row_of(kind, number(place))).collect::<Vec<_>>();
                let zeros = lent(a, &rows(&|_| 0));
                assert_eq!(both_ways(&zeros, &lent(b, &rows(&|_| 0)), 0), []);
                let whole = if len == 0 { vec![] } else { vec![(0, len - 1)] };
                assert_eq!(both_ways(&zeros, &lent(b, &rows(&|_| 1)), 1), whole);
                for odd in 0..2 {
                    let second = lent(b, &rows(&|place| place % 2));
                    let due: Vec<(usize, usize)> = (0..len).filter(|place| place % 2 != odd).map(|place| (place, place)).collect();
                    let to = lent(a, &rows(&|_| odd));
                    assert_eq!(both_ways(&to, &second, due.len()), due, "{a:?} {b:?} {len} rows");
                }
                // one row at each place
                for place in (0..len).filter(|place| len < 20 || *place % 31 == 0 || place + 1 == len) {
                    let changed = lent(b, &rows(&|at| (at == place) as usize));
                    assert_eq!(both_ways(&zeros, &changed, 1), [(place, place)], "{a:?} {b:?} {len} rows");
                }
            }
        }
    }
}

#[test]
fn rows_that_one_column_alone_has() {
    for kind in KINDS {
        for (a, b) in encodings() {
            let (a, b) = (Column::new(kind, a), Column::new(kind, b));
            for (len, more) in [(0, 1), (0, 9), (1, 1), (1, 30), (8, 1), (8, 8), (9, 120)] {
                let rows: Vec<Value> = (0..len + more).map(|place| row_of(kind, place % 2)).collect();
                let longer = lent(b, &rows);
                assert_eq!(both_ways(&lent(a, &rows[..len]), &longer, 1), [(len, len + more - 1)], "{a:?} {b:?}");
                // all of them equal, so that a run of the longer one goes on behind the end of the shorter
                let run = vec![row_of(kind, 1); len + more];
                assert_eq!(both_ways(&lent(a, &run[..len]), &lent(b, &run), 1), [(len, len + more - 1)], "{a:?} {b:?}");
                // nulls are rows too
                let nulls = vec![Value::Null; more];
                let shorter = lent(a, &[]);
                assert_eq!(both_ways(&shorter, &lent(b, &nulls), 1), [(0, more - 1)], "{a:?} {b:?}");
                if len > 1 {
                    // a row that differs just before them is of their range, and one a row before that isn't
                    let mut changed = rows[..len].to_vec();
                    changed[len - 1] = row_of(kind, len % 2);
                    assert_eq!(both_ways(&lent(a, &changed), &longer, 1), [(len - 1, len + more - 1)], "{a:?} {b:?}");
                    changed[len - 1] = rows[len - 1].clone();
                    changed[len - 2] = row_of(kind, (len - 1) % 2);
                    let due = [(len - 2, len - 2), (len, len + more - 1)];
                    assert_eq!(both_ways(&lent(a, &changed), &longer, 2), due, "{a:?} {b:?}");
                }
            }
        }
    }
}

#[test]
fn the_same_rows_in_one_block_or_in_two() {
    let mut chance = Chance::new(62);
    let mut other_bytes = 0;
    for round in 0..6_000 {
        let column = model::column(round % model::PAIRS, 1 + chance.below(6));
        let rows = model::some_rows(column.kind, 60, &mut chance);
        let n = rows.len() as u64;
        let one = lent(column, &rows);
        let other = Lent::new(column, n, loose::block_of(column, &rows, &mut chance));
        let stored: Vec<Value> = rows.iter().map(|row| model::stored(column, row)).collect();
        assert_eq!(model::rows_of(column, n, &other.block, n), stored);
        other_bytes += (one.block != other.block) as u32;
        for (one, other) in [(&one, &other), (&other, &one), (&one, &one.clone()), (&one, &one), (&other, &other)] {
            assert_eq!(held::compare(one, other, 0, 0), Ok(vec![]));
            assert_eq!(by_wrapper(one, other, 0), Ok(vec![]));
        }
    }
    assert!(other_bytes > 3_000, "{other_bytes}");
}

#[test]
fn lists_of_each_length() {
    let rows = |second: i64| (0..11).map(|place| Value::Int(if place % 3 == 1 { second } else { place })).collect::<Vec<_>>();
    let due = vec![(1, 1), (4, 4), (7, 7), (10, 10)];
    for (a, b) in encodings() {
        let one = lent(Column::new(Kind::I32, a), &rows(-1));
        let other = lent(Column::new(Kind::I32, b), &rows(-2));
        for firsts in 0..9 {
            for lasts in (0..9).chain([300]) {
                let answer = held::compare(&one, &other, firsts, lasts);
                assert_eq!(answer, if firsts < 4 || lasts < 4 { Err(4) } else { Ok(due.clone()) }, "{firsts} and {lasts} slots");
                // no ranges need no slots, and leave all as they were
                assert_eq!(held::compare(&one, &one, firsts, lasts), Ok(vec![]));
            }
        }
        for most in 0..9 {
            assert_eq!(by_wrapper(&one, &other, most), if most < 4 { Err(Refusal::Room) } else { Ok(due.clone()) });
            assert_eq!(by_wrapper(&one, &one, most), Ok(vec![]));
        }
        assert_eq!(by_wrapper(&one, &other, usize::MAX).as_ref(), Ok(&due));
    }
}

/// A column of i32 as it is and spoiled in some ways, each with opening's number.
fn spoiled(encoding: Encoding, rows: &[i64]) -> Vec<(Lent, u8)> {
    let sound = lent(Column::new(Kind::I32, encoding), &rows.iter().map(|row| Value::Int(*row)).collect::<Vec<_>>());
    let with = |change: &dyn Fn(&mut Descriptor)| {
        let mut lent = sound.clone();
        change(&mut lent.descriptor);
        lent
    };
    let shorter = Lent { block: sound.block[..sound.block.len() - 1].to_vec(), ..sound };
    vec![
        (with(&|_| ()), 0),
        (with(&|descriptor| descriptor.zero = 1), 1),
        (with(&|descriptor| descriptor.encoding = 5), 1),
        (with(&|descriptor| descriptor.rows = 1 << 48), 3),
        (shorter, 11),
    ]
}

#[test]
fn the_first_refusal_of_the_order_is_given() {
    let mut seen = [0u32; 26];
    for (a, b) in encodings() {
        for (one, first) in spoiled(a, &[1, 2, 3]) {
            for (other, second) in spoiled(b, &[1, 5, 3, 4]) {
                for (kind, width) in [(0, 0), (1, 0), (0, 1), (1, 1), (1 << 40, 0), (0, 256)] {
                    let mut other = other.clone();
                    other.descriptor.kind += kind;
                    other.descriptor.width += width;
                    for slots in [(2, 2), (1, 2), (2, 1), (0, 0)] {
                        let due = match (kind + width, first, second, slots) {
                            (0, 0, 0, (2, 2)) => Ok(vec![(1, 1), (3, 3)]),
                            (0, 0, 0, _) => Err(4),
                            (0, 0, second, _) => Err(second),
                            (0, first, _, _) => Err(first),
                            _ => Err(25),
                        };
                        assert_eq!(held::compare(&one, &other, slots.0, slots.1), due, "{one:?} {other:?} {slots:?}");
                        seen[due.map_or_else(usize::from, |_| 0)] += 1;
                    }
                }
            }
        }
    }
    assert!([0, 1, 3, 4, 11, 25].iter().all(|number| seen[*number] > 20), "{seen:?}");
}

/// A kind's number and a width.
type KindAndWidth = (usize, usize);

#[test]
fn kinds_and_widths_are_compared_as_numbers_before_any_opening() {
    let lent = |kind, width, rows| Lent { descriptor: Descriptor { kind, encoding: 0, width, zero: 0, rows }, block: Vec::new() };
    // kind and width of both; blocks of no bytes and no rows, which are sound in each kind
    let cases: [(KindAndWidth, KindAndWidth, u8); 33] = [
        ((2, 0), (2, 0), 0),
        ((8, 255), (8, 255), 0),
        // kinds that are laid out alike
        ((9, 0), (10, 0), 25),
        ((8, 1), (10, 0), 25),
        ((2, 0), (4, 0), 25),
        ((3, 0), (5, 0), 25),
        ((5, 0), (6, 0), 25),
        ((3, 0), (11, 0), 25),
        ((0, 0), (8, 1), 25),
        // widths of char
        ((8, 1), (8, 2), 25),
        ((8, 255), (8, 254), 25),
        ((8, 0), (8, 1), 25),
        ((8, 256), (8, 0), 25),
        ((8, 257), (8, 1), 25),
        ((8, 0), (8, 0), 1),
        ((8, 256), (8, 256), 1),
        // widths of a kind that has none
        ((2, 4), (2, 0), 25),
        ((2, 0), (2, 4), 25),
        ((2, 4), (2, 4), 1),
        ((2, 1 << 32), (2, 0), 25),
        ((2, 1 << 63), (2, 0), 25),
        // kinds that there are none of
        ((12, 0), (13, 0), 25),
        ((12, 0), (12, 0), 1),
        ((12, 1), (12, 2), 25),
        ((12, 0), (2, 0), 25),
        ((2, 0), (12, 0), 25),
        ((2 + 16, 0), (2, 0), 25),
        ((2 + 256, 0), (2, 0), 25),
        ((2 + (1 << 16), 0), (2, 0), 25),
        ((2 + (1 << 32), 0), (2, 0), 25),
        ((2 + (1 << 63), 0), (2, 0), 25),
        ((usize::MAX, usize::MAX), (usize::MAX, usize::MAX), 1),
        ((usize::MAX, 0), (0, usize::MAX), 25),
    ];
    for ((kind, width), (other_kind, other_width), number) in cases {
        let (one, other) = (lent(kind, width, 0), lent(other_kind, other_width, 0));
        let due = if number == 0 { Ok(vec![]) } else { Err(number) };
        assert_eq!(held::compare(&one, &other, 1, 1), due, "{one:?} {other:?}");
        assert_eq!(held::compare(&other, &one, 0, 0), due, "{one:?} {other:?}");
        // rows that a block of no bytes hasn't are opening's own, and come behind 25
        let (one, other) = (lent(kind, width, 1), lent(other_kind, other_width, usize::MAX));
        let opening = match (kind, width) {
            _ if number != 0 => number,
            (9 | 10, 0) => 10,
            _ => 11,
        };
        assert_eq!(held::compare(&one, &other, 1, 1), Err(opening), "{one:?} {other:?}");
        assert_eq!(held::compare(&other, &one, 1, 1), Err(if number != 0 { number } else { 3 }), "{one:?} {other:?}");
    }
    // an encoding that there is none of is opening's 1 of its own block
    for encoding in [5, 6, 7, 255, 256, 1 << 32, usize::MAX] {
        let (sound, mut bad) = (lent(2, 0, 0), lent(2, 0, 0));
        bad.descriptor.encoding = encoding;
        let cut = lent(2, 0, 1);
        assert_eq!(held::compare(&bad, &sound, 1, 1), Err(1));
        assert_eq!(held::compare(&sound, &bad, 1, 1), Err(1));
        assert_eq!((held::compare(&bad, &cut, 1, 1), held::compare(&cut, &bad, 1, 1)), (Err(1), Err(11)));
    }
}

#[test]
fn any_zero_bit_but_0_is_1_of_its_own_block() {
    let sound = lent(Column::new(Kind::I16, Encoding::Plain), &[Value::Int(7), Value::Int(8)]);
    let cut = Lent { block: vec![7], ..sound.clone() };
    let too_many = Lent { descriptor: Descriptor { rows: usize::MAX, ..sound.descriptor }, ..sound.clone() };
    for zero in [1, 2, 255, 256, 1 << 16, 1 << 32, 1 << 48, 1 << 63, usize::MAX] {
        let set = |lent: &Lent| Lent { descriptor: Descriptor { zero, ..lent.descriptor }, ..lent.clone() };
        assert_eq!(held::compare(&set(&sound), &sound, 1, 1), Err(1), "{zero}");
        assert_eq!(held::compare(&sound, &set(&sound), 1, 1), Err(1), "{zero}");
        assert_eq!(held::compare(&set(&sound), &set(&sound), 1, 1), Err(1), "{zero}");
        // it comes before all else of its block, and behind all of the block before it
        assert_eq!(held::compare(&set(&cut), &too_many, 1, 1), Err(1), "{zero}");
        assert_eq!(held::compare(&set(&too_many), &cut, 1, 1), Err(1), "{zero}");
        assert_eq!(held::compare(&cut, &set(&sound), 1, 1), Err(11), "{zero}");
        assert_eq!(held::compare(&too_many, &set(&cut), 1, 1), Err(3), "{zero}");
        assert_eq!(held::compare(&sound, &set(&too_many), 1, 1), Err(1), "{zero}");
        // and behind 25
        let mut unlike = set(&sound);
        unlike.descriptor.kind = 2;
        assert_eq!((held::compare(&unlike, &sound, 1, 1), held::compare(&sound, &unlike, 1, 1)), (Err(25), Err(25)), "{zero}");
    }
}

/// A number near another, or any.
fn some_number(number: usize, chance: &mut Chance) -> usize {
    match chance.below(4) {
        0 => number.wrapping_add(1),
        1 => number.wrapping_sub(1),
        2 => number.wrapping_add(1 << chance.below(64)),
        _ => (chance.number() >> chance.below(64)) as usize,
    }
}

/// Changes a number of a descriptor, or some of its block.
fn damaged(lent: &mut Lent, chance: &mut Chance) {
    let d = &mut lent.descriptor;
    match chance.below(12) {
        0 => d.kind = some_number(d.kind, chance),
        1 => d.encoding = some_number(d.encoding, chance),
        2 => d.width = some_number(d.width, chance),
        3 => d.zero = some_number(d.zero, chance),
        4 => d.rows = some_number(d.rows, chance),
        5 => d.encoding = chance.below(5) as usize,
        _ => {
            let (block, rows) = model::damaged(&lent.block, d.rows as u64, chance);
            (lent.block, d.rows) = (block, rows as usize);
        }
    }
}

#[test]
fn damaged_columns_get_their_number_and_write_nothing() {
    let mut chance = Chance::new(63);
    let (mut seen, mut sound_all_the_same) = ([0u32; 26], 0);
    for round in 0..120_000 {
        let column = model::column(round % model::PAIRS, 1 + chance.below(5));
        let other_column = Column::new(column.kind, ENCODINGS[chance.below(5) as usize]);
        let rows = model::some_rows(column.kind, 10, &mut chance);
        let changed = differences::from(column.kind, &rows, &mut chance);
        let mut one = some_lent(column, &rows, &mut chance);
        let mut other = some_lent(other_column, &changed, &mut chance);
        let before = (one.clone(), other.clone());
        let which = chance.below(3);
        if which != 1 {
            damaged(&mut one, &mut chance);
        }
        if which != 0 {
            damaged(&mut other, &mut chance);
        }
        let (firsts, lasts) = (chance.below(12) as usize, chance.below(12) as usize);
        let answer = held::compare(&one, &other, firsts, lasts);
        sound_all_the_same += (answer.is_ok() && before != (one, other)) as u32;
        seen[answer.map_or_else(usize::from, |_| 0)] += 1;
    }
    for number in [0, 1, 3, 4, 10, 11, 12, 13, 14, 15, 16, 17, 25] {
        assert!(seen[number] > 100, "{number} was seen {} times", seen[number]);
    }
    assert!(sound_all_the_same > 3_000, "{sound_all_the_same}");
    assert_eq!((seen[2], seen[6], seen[7], seen[9], seen[20], seen[21], seen[22]), (0, 0, 0, 0, 0, 0, 0));
}

#[test]
fn each_byte_of_a_short_column_changed() {
    let mut seen = [0u32; 26];
    for kind in [Kind::Bool, Kind::I16, Kind::Char(2), Kind::Blob, Kind::String, Kind::F64] {
        for encoding in ENCODINGS {
            let rows = [0, 0, 1].map(|number| row_of(kind, number)).into_iter().chain([Value::Null]).collect::<Vec<_>>();
            let one = lent(Column::new(kind, encoding), &rows);
            for at in 0..one.block.len() {
                for byte in 0..=255 {
                    let mut other = one.clone();
                    other.block[at] = byte;
                    let answers = [held::compare(&one, &other, 2, 2), held::compare(&other, &one, 2, 2)];
                    assert_eq!(answers[0], answers[1], "{one:?} {at} {byte}");
                    let [answer, _] = answers;
                    seen[answer.map_or_else(usize::from, |_| 0)] += 1;
                }
            }
        }
    }
    assert!([0, 3, 10, 11, 12, 13, 14, 15, 16, 17].iter().all(|number| seen[*number] > 0), "{seen:?}");
}

/// A column of i64 by its runs: a value, and how many rows of it.
fn by_runs(encoding: Encoding, runs: &[(i64, u64)]) -> Lent {
    let column = Column::new(Kind::I64, encoding);
    let counted: Vec<(Value, u64)> = runs.iter().map(|(value, count)| (Value::Int(*value), *count)).collect();
    Lent::new(column, runs.iter().map(|run| run.1).sum(), loose::block_of_counted(column, &counted))
}

/// The same in each encoding that has runs.
fn each_by_runs(runs: &[(i64, u64)]) -> [Lent; 3] {
    [Encoding::RunLength, Encoding::RunLengthNullable, Encoding::Dictionary].map(|encoding| by_runs(encoding, runs))
}

#[test]
fn two_to_the_40_rows_in_257_runs() {
    // 256 runs of the same length and one of what is left of 2^40 rows; neighbours are never equal
    let each = (1u64 << 40) / 257;
    let last = (1u64 << 40) - 256 * each;
    let runs: Vec<(i64, u64)> = (0..257).map(|run| (run % 7, if run < 256 { each } else { last })).collect();
    for one in each_by_runs(&runs) {
        assert_eq!(one.descriptor.rows, 1 << 40);
        for other in each_by_runs(&runs) {
            assert_eq!(both_ways(&one, &other, 0), []);
            assert_eq!(by_wrapper(&one, &other, 0), Ok(vec![]));
        }
        for place in [0, 1, 128, 255, 256] {
            // a run of another value; two side by side are one range, and two with one between them are two
            let start = |run: usize| (each * run as u64) as usize;
            let end = |run: usize| if run < 257 { start(run) } else { 1 << 40 };
            for more in [vec![], vec![place + 1], vec![place + 2]] {
                let mut changed = runs.clone();
                for run in [&[place][..], &more].concat().into_iter().filter(|run| *run < 257) {
                    changed[run].0 = 9;
                }
                let due = match more[..] {
                    [next] if next == place + 1 && next < 257 => vec![(start(place), end(next + 1) - 1)],
                    [next] if next == place + 2 && next < 257 => {
                        vec![(start(place), end(place + 1) - 1), (start(next), end(next + 1) - 1)]
                    }
                    _ => vec![(start(place), end(place + 1) - 1)],
                };
                for other in each_by_runs(&changed) {
                    assert_eq!(both_ways(&one, &other, due.len()), due, "run {place} and {more:?}");
                    assert_eq!(by_wrapper(&one, &other, due.len()).as_ref(), Ok(&due));
                    assert_eq!(held::ranges(&one, &other, due.len() - 1, due.len()), Err(4));
                }
            }
        }
        // a row more of one run and less of the next: the row between them differs, and so does a row at the end
        let mut moved = runs.clone();
        moved[99].1 += 1;
        moved[100].1 -= 1;
        let at = 100 * each as usize;
        for other in each_by_runs(&moved) {
            assert_eq!(both_ways(&one, &other, 1), [(at, at)]);
        }
        moved[256].1 += 1;
        for other in each_by_runs(&moved) {
            assert_eq!(both_ways(&one, &other, 2), [(at, at), (1 << 40, 1 << 40)]);
        }
        // each run in two
        let halves: Vec<(i64, u64)> = runs.iter().flat_map(|run| [(run.0, 1), (run.0, run.1 - 1)]).collect();
        for other in each_by_runs(&halves) {
            assert_eq!(both_ways(&one, &other, 0), []);
        }
    }
}

#[test]
fn the_greatest_number_of_rows() {
    let most = (1u64 << 48) - 1;
    let greatest = u64::from(u32::MAX);
    let runs = |other: i64| {
        let mut runs = vec![(3, greatest); 65_536];
        runs.push((other, most - 65_536 * greatest));
        runs
    };
    let (rows, tail) = (most as usize, (65_536 * greatest) as usize);
    for one in each_by_runs(&runs(4)) {
        assert_eq!(one.descriptor.rows, rows);
        for other in each_by_runs(&runs(4)) {
            assert_eq!(both_ways(&one, &other, 0), []);
        }
        for other in each_by_runs(&runs(5)) {
            assert_eq!(both_ways(&one, &other, 1), [(tail, rows - 1)]);
        }
        // against a run less, and against a few rows of each encoding
        for shorter in each_by_runs(&runs(4)[..65_536]) {
            assert_eq!(both_ways(&one, &shorter, 1), [(tail, rows - 1)]);
        }
        for encoding in ENCODINGS {
            let column = Column::new(Kind::I64, encoding);
            assert_eq!(both_ways(&one, &lent(column, &[]), 1), [(0, rows - 1)]);
            assert_eq!(both_ways(&one, &lent(column, &[3, 3, 3].map(Value::Int)), 1), [(3, rows - 1)]);
            assert_eq!(both_ways(&one, &lent(column, &[3, 4, 3].map(Value::Int)), 2), [(1, 1), (3, rows - 1)]);
            assert_eq!(both_ways(&one, &lent(column, &[3, 3, 4].map(Value::Int)), 1), [(2, rows - 1)]);
            assert_eq!(by_wrapper(&one, &lent(column, &[Value::Int(4)]), 1), Ok(vec![(0, rows - 1)]));
        }
    }
    // one row more is a limit passed, of the first or of the second
    let mut above = runs(4);
    above[65_536].1 += 1;
    for (one, above) in each_by_runs(&runs(4)).iter().zip(&each_by_runs(&above)) {
        assert_eq!((held::ranges(one, above, 1, 1), held::ranges(above, one, 1, 1)), (Err(3), Err(3)));
    }
}

#[test]
fn rows_in_long_runs_differ_where_single_rows_do() {
    let mut chance = Chance::new(64);
    let (mut with_ranges, mut most) = (0, 0);
    for round in 0..20_000 {
        let kind = KINDS[round % 12];
        let with_runs = &ENCODINGS[2..];
        let (a, b) = (with_runs[round / 12 % 3], with_runs[round / 36 % 3]);
        let rows = model::some_rows(kind, if round % 50 == 0 { 400 } else { 20 }, &mut chance);
        let changed = differences::from(kind, &rows, &mut chance);
        let columns = [Column::new(kind, a), Column::new(kind, b)];
        let one = some_lent(columns[0], &rows, &mut chance);
        let other = some_lent(columns[1], &changed, &mut chance);
        let single = held::compare(&one, &other, SLOTS, SLOTS).expect("sound blocks");
        // as many rows for each as the longest run can bear, or fewer
        let longest = [&one, &other].iter().zip(columns).flat_map(|(lent, column)| model::counts_of(column, &lent.block)).max();
        let greatest = u64::from(u32::MAX) / longest.unwrap_or(1);
        let times = [greatest, 1 + chance.below(greatest), 2][chance.below(3) as usize];
        let longer = [(&one, columns[0]), (&other, columns[1])]
            .map(|(lent, column)| Lent::new(column, lent.descriptor.rows as u64 * times, loose::times(column, &lent.block, times)));
        most = longer.iter().fold(most, |most, lent| most.max(lent.descriptor.rows));
        let times = times as usize;
        let due: Vec<(usize, usize)> = single.iter().map(|(first, last)| (first * times, (last + 1) * times - 1)).collect();
        assert_eq!(both_ways(&longer[0], &longer[1], due.len()), due, "{times} times {rows:?} and {changed:?}");
        assert_eq!(by_wrapper(&longer[0], &longer[1], due.len()), Ok(due));
        with_ranges += !single.is_empty() as u32;
    }
    assert!(with_ranges > 10_000 && most > 1 << 38, "{with_ranges} {most}");
}

#[test]
fn the_most_ranges_and_one_slot_less() {
    // runs of two rows against runs that begin a row later: rows are equal and different by turns
    const RUNS: usize = 1 << 20;
    let ends = |run: usize| (run / 2 % 2) as i64;
    let one: Vec<(i64, u64)> = (0..RUNS).map(|run| ((run % 2) as i64, 2)).collect();
    let other: Vec<(i64, u64)> = (0..RUNS).map(|run| ((run % 2) as i64, if run == 0 { 1 } else { 2 })).collect();
    let (one, mut other) = (by_runs(Encoding::RunLength, &one), by_runs(Encoding::RunLength, &other));
    assert_eq!((one.descriptor.rows, other.descriptor.rows), (2 * RUNS, 2 * RUNS - 1));
    // rows 0 0 1 1 0 0 1 1 .. and 0 1 1 0 0 1 1 0 ..; the last one is of the first column alone
    let due: Vec<(usize, usize)> = (0..2 * RUNS).filter(|row| ends(*row) != ends(row + 1)).map(|row| (row, row)).collect();
    assert_eq!(due.len(), RUNS);
    assert!(both_ways(&one, &other, RUNS) == due);
    assert!(held::compare(&one, &other, RUNS, RUNS + 1).as_ref() == Ok(&due));
    for (firsts, lasts) in [(RUNS - 1, RUNS), (RUNS, RUNS - 1), (0, 0)] {
        assert!(held::ranges(&one, &other, firsts, lasts) == Err(4));
    }
    // the wrapper has memory for as many as there can be, and not for one less
    assert!(by_wrapper(&one, &other, usize::MAX).as_ref() == Ok(&due));
    assert!(by_wrapper(&other, &one, RUNS).as_ref() == Ok(&due));
    assert!(by_wrapper(&one, &other, RUNS - 1) == Err(Refusal::Room));

    // rows that are an item each: the most of them, every second one changed
    let plain = |rows: &dyn Fn(usize) -> u8| {
        Lent::new(Column::new(Kind::Bool, Encoding::Plain), RUNS as u64, (0..RUNS).map(rows).collect())
    };
    let (zeros, seconds) = (plain(&|_| 0), plain(&|row| (row % 2) as u8));
    let due: Vec<(usize, usize)> = (0..RUNS / 2).map(|row| (2 * row + 1, 2 * row + 1)).collect();
    assert!(both_ways(&zeros, &seconds, RUNS / 2) == due);
    assert!(held::ranges(&zeros, &seconds, RUNS / 2, RUNS / 2 - 1) == Err(4));
    assert_eq!(both_ways(&zeros, &plain(&|_| 1), 1), [(0, RUNS - 1)]);
    // the second column has a run more than there can be
    other.block[..4].copy_from_slice(&(RUNS as u32 + 1).to_le_bytes());
    assert_eq!((held::ranges(&one, &other, 0, 0), held::ranges(&other, &one, 0, 0)), (Err(3), Err(3)));
}

#[test]
fn long_items_that_differ_in_a_byte() {
    let long = |byte: u8, at: usize, len: usize| {
        let mut bytes = vec![b'a'; len];
        bytes[at] = byte;
        Value::Bytes(bytes)
    };
    const LEN: usize = 1 << 20;
    for kind in [Kind::Blob, Kind::String] {
        for (a, b) in encodings() {
            let (a, b) = (Column::new(kind, a), Column::new(kind, b));
            let rows = [long(b'a', 0, LEN), long(b'a', 0, 5), long(b'a', 0, LEN)];
            let one = lent(a, &rows);
            assert_eq!(both_ways(&one, &lent(b, &rows), 0), []);
            for at in [0, 1, 7, 8, LEN / 2, LEN - 1] {
                let other = [rows[0].clone(), rows[1].clone(), long(b'b', at, LEN)];
                assert_eq!(both_ways(&one, &lent(b, &other), 1), [(2, 2)], "{a:?} {b:?} {at}");
            }
            let shorter = [long(b'a', 0, LEN - 1), rows[1].clone(), rows[2].clone()];
            assert_eq!(both_ways(&one, &lent(b, &shorter), 1), [(0, 0)], "{a:?} {b:?}");
        }
    }
    for width in [1, 2, 7, 8, 9, 16, 17, 254, 255] {
        for (a, b) in encodings() {
            let (a, b) = (Column::new(Kind::Char(width), a), Column::new(Kind::Char(width), b));
            let len = width as usize;
            let one = lent(a, &[long(b'a', 0, len)]);
            assert_eq!(both_ways(&one, &lent(b, &[long(b'a', 0, len)]), 0), []);
            for at in 0..len {
                assert_eq!(both_ways(&one, &lent(b, &[long(b'b', at, len)]), 1), [(0, 0)], "{a:?} {b:?} {at}");
                assert_eq!(
                    both_ways(&one, &lent(b, &[long(b'a', 0, at + 1)]), 1).len(),
                    (at + 1 < len) as usize,
                    "{a:?} {b:?} {at}"
                );
            }
        }
    }
}

#[test]
fn the_wrapper_refuses_as_the_call_does() {
    let ints = Column::new(Kind::I16, Encoding::Plain);
    let sound = (ints, 2, &[1, 0, 2, 0][..]);
    let cut = (ints, 2, &[1, 0, 2][..]);
    let too_many = (ints, u64::MAX, &[][..]);
    let no_width = (Column::new(Kind::Char(0), Encoding::Plain), 0, &[][..]);
    let no_text = (Column::new(Kind::String, Encoding::Plain), 1, &[1, 0, 0, 0, 0xFF][..]);
    for (a, b, due) in [
        (sound, sound, Ok(vec![])),
        (sound, (ints, 2, &[1, 0, 3, 0]), Ok(vec![1..=1])),
        (sound, (ints, 0, &[]), Ok(vec![0..=1])),
        (sound, cut, Err(Refusal::Length)),
        (cut, too_many, Err(Refusal::Length)),
        (too_many, cut, Err(Refusal::Limit)),
        (sound, too_many, Err(Refusal::Limit)),
        (no_width, no_width, Err(Refusal::Column)),
        (no_width, (Column::new(Kind::Char(1), Encoding::Plain), 0, &[]), Err(Refusal::Unlike)),
        (no_text, no_text, Err(Refusal::Text)),
        (no_text, (Column::new(Kind::Blob, Encoding::Plain), 1, no_text.2), Err(Refusal::Unlike)),
        (cut, no_text, Err(Refusal::Unlike)),
    ] {
        assert_eq!(compare(a, b, 1), due, "{a:?} {b:?}");
        // with no memory for a range all is as before, but where there is one
        let without = if due.as_ref().is_ok_and(|ranges| !ranges.is_empty()) { Err(Refusal::Room) } else { due };
        assert_eq!(compare(a, b, 0), without, "{a:?} {b:?}");
    }
    assert_eq!((Refusal::Unlike.number(), Refusal::check(25)), (25, Err(Refusal::Unlike)));
}

#[test]
fn the_columns_of_two_sheet_files() {
    let block = |column, rows: &[Row]| {
        let mut builder = Builder::new(column, 4096).expect("a pair");
        rows.iter().for_each(|row| builder.append(*row).expect("a row that fits"));
        builder.finish().expect("a block")
    };
    let (runs, entries) = (Encoding::RunLengthNullable, Encoding::Dictionary);
    let sheet = |rates: &[Row], rate_encoding, names: &[Row], name_encoding| {
        let columns = [Column::new(Kind::F64, rate_encoding), Column::new(Kind::String, name_encoding)];
        let blocks = [block(columns[0], rates), block(columns[1], names)];
        let lens = [rates.len() as u64, names.len() as u64];
        write_sheet(&[(columns[0], lens[0], &blocks[0]), (columns[1], lens[1], &blocks[1])]).expect("sound blocks")
    };
    let rates = [Row::F64(0.0375), Row::F64(0.0375), Row::Null, Row::F64(0.0)];
    let later = [Row::F64(0.0375), Row::F64(0.04), Row::F64(0.0), Row::F64(-0.0), Row::Null];
    let names = ["Zoë".into(), "Ann".into(), "Ann".into()];
    let files = [sheet(&rates, runs, &names, Encoding::Plain), sheet(&later, entries, &names[..2], entries)];
    // the reader's record has the numbers that the directory has
    let [old, new] = files.each_ref().map(|file| Sheet::new(&file[..]));
    let changed = |j| {
        let parts = [&old, &new].map(|sheet| sheet.column(j).expect("a sound column").into_parts());
        let [a, b] = parts.map(|(block, record)| {
            let column = Column::numbered(record.kind as u64, record.encoding as u64, record.width as u64).expect("a pair");
            (column, record.rows as u64, block)
        });
        compare(a, b, 10)
    };
    assert_eq!((changed(0), changed(1)), (Ok(vec![1..=4]), Ok(vec![2..=2])));
}
