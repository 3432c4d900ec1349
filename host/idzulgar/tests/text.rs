//! Text, against Rust's own test of it (`std::str::from_utf8`): opening and appending of char and string, on all strings of up to two
//! bytes, and on those of three and four bytes over the ends of the ranges that the Unicode Standard's table 3-7 has. (All strings of three
//! bytes are tried by `host/oracle/run text`.) And bytes that stop being text after a block was opened.
mod model;

use idzulgar::calls::{self, Areas};
use idzulgar::{Batch, Builder, Column, Encoding, Kind, Reader, Refusal, Row, Value};

/// The first and last bytes of the table's ranges, and those beside them.
const ENDS: [u8; 24] = [
    0x00, 0x7F, 0x80, 0x8F, 0x90, 0x9F, 0xA0, 0xBF, 0xC0, 0xC1, 0xC2, 0xDF, 0xE0, 0xE1, 0xEC, 0xED, 0xEE, 0xEF, 0xF0, 0xF1, 0xF3,
    0xF4, 0xF5, 0xFF,
];

const WIDTH: usize = 4;
const CHAR: usize = 8;
const STRING: usize = 10;

/// All strings that are tried, one after another.
fn each(mut tried: impl FnMut(&[u8])) {
    tried(&[]);
    for a in 0..=255 {
        tried(&[a]);
        (0..=255).for_each(|b| tried(&[a, b]));
    }
    for a in ENDS {
        for b in ENDS {
            for c in ENDS {
                tried(&[a, b, c]);
                ENDS.iter().for_each(|d| tried(&[a, b, c, *d]));
            }
        }
    }
}

/// How many strings are tried.
const TRIED: u32 = 1 + 256 + 65_536 + 13_824 + 331_776;

fn number(is_text: bool, refusal: Refusal) -> u8 {
    if is_text {
        0
    } else {
        refusal.number()
    }
}

#[test]
fn opening_refuses_exactly_what_rust_takes_for_no_text() {
    let (mut texts, mut strings, mut chars) = (0, 0, 0);
    each(|bytes| {
        let is_text = std::str::from_utf8(bytes).is_ok();
        assert_eq!(model::is_text(bytes), is_text, "the model on {bytes:02X?}");
        texts += is_text as u32;

        let mut block = (bytes.len() as u32).to_le_bytes().to_vec();
        block.extend(bytes);
        let answer = calls::open(STRING, 0, 0, 1, &block);
        assert_eq!(answer.number, number(is_text, Refusal::Text), "string {bytes:02X?}");
        strings += 1;

        // up to the first NUL, which the padding has too
        let mut item = bytes.to_vec();
        item.resize(WIDTH, 0);
        let cut = bytes.iter().position(|byte| *byte == 0).map_or(bytes, |nul| &bytes[..nul]);
        let answer = calls::open(CHAR, 0, WIDTH, 1, &item);
        assert_eq!(answer.number, number(std::str::from_utf8(cut).is_ok(), Refusal::Text), "char {bytes:02X?}");
        chars += 1;
    });
    assert_eq!((strings, chars), (TRIED, TRIED));
    assert!(texts > 17_000 && texts < TRIED / 2, "{texts} are text");
}

#[test]
fn appending_refuses_exactly_what_rust_takes_for_no_text() {
    let string = calls::create(STRING, 0, 0, 0).builder;
    let char = calls::create(CHAR, 0, WIDTH, 0).builder;
    let mut tried = 0;
    each(|bytes| {
        let due = number(std::str::from_utf8(bytes).is_ok(), Refusal::Item);
        for builder in [string, char] {
            let (mut items, mut ends, mut lens) = ([0x55; WIDTH], [0x55; 1], [0x55; 1]);
            let areas =
                Areas { items: &mut items, ends: &mut ends, flags: &mut [], counts: &mut [], keys: &mut [], lens: &mut lens };
            let answer = calls::append(builder, areas, true, 0, bytes);
            assert_eq!(answer.number, due, "kind {} {bytes:02X?}", builder.kind);
            if due == 0 {
                assert_eq!((answer.builder.rows, &items[..bytes.len()]), (1, bytes));
            } else {
                assert_eq!((answer.builder, items, ends, lens), (builder, [0x55; WIDTH], [0x55; 1], [0x55; 1]));
            }
        }
        tried += 1;
    });
    assert_eq!(tried, TRIED);
}

/// The columns of char and string.
fn columns() -> impl Iterator<Item = Column> {
    let of = |kind| (0..5).map(move |encoding| Column::numbered(kind, encoding, if kind == 8 { 6 } else { 0 }).unwrap());
    of(8).chain(of(10))
}

#[test]
fn text_goes_in_as_text_and_comes_back_as_text() {
    for column in columns() {
        let mut builder = Builder::new(column, 0).unwrap();
        let rows = ["", "a", "é", "é", "€", "𐍈é", "\u{feff}", "\u{ffff}"];
        for row in rows {
            builder.append(row.into()).unwrap();
            assert_eq!(builder.append(Row::Bytes(&[row.as_bytes(), b"\xC3"].concat())), Err(Refusal::Item), "{column:?}");
        }
        builder.append(Row::Null).unwrap();
        let null = if matches!(column.encoding, Encoding::Plain | Encoding::RunLength) { Some("") } else { None };
        let due: Vec<Option<&str>> = rows.into_iter().map(Some).chain([null]).collect();

        let block = builder.finish().unwrap();
        let mut reader = Reader::open(column, 9, &block[..]).unwrap();
        let values: Vec<Value> = reader.clone().rows().collect::<Result<_, _>>().unwrap();
        assert_eq!(values.iter().map(Value::text).collect::<Vec<_>>(), due, "{column:?}");
        let mut batch = Batch::new(column.kind, 9, 64).unwrap();
        assert_eq!(reader.read(0, 9, &mut batch), Ok(9));
        assert_eq!(batch.iter().map(Row::text).collect::<Vec<_>>(), due, "{column:?}");
    }
}

#[test]
fn what_has_become_no_text_is_handed_out_and_said_to_be_none() {
    for column in columns() {
        let rows = [Value::Bytes("aé".into()), Value::Null, Value::Bytes("€".into()), Value::Bytes("€".into())];
        let mut block = model::block_of(column, &rows);
        let (kind, encoding, width) = column.numbers();
        let record = calls::open(kind, encoding, width, 4, &block).reader;
        assert_eq!((record.kind, record.rows), (kind, 4));
        // the two bytes of é become a cut character and a byte that starts none
        let at = block.windows(2).position(|two| two == [0xC3, 0xA9]).expect("é is stored");
        block[at + 1] = 0xFF;
        assert_eq!(Reader::open(column, 4, &block[..]).unwrap_err(), Refusal::Text, "{column:?}");

        let mut reader = Reader::from_parts(&block[..], record).unwrap();
        let mut batch = Batch::new(column.kind, 4, 64).unwrap();
        assert_eq!(reader.read(0, 4, &mut batch), Ok(4), "{column:?}");
        assert_eq!(batch.get(0), Some(Row::Bytes(b"a\xC3\xFF")));
        assert_eq!(batch.iter().map(|row| row.text().is_some()).collect::<Vec<_>>()[2..], [true, true]);
        assert_eq!(batch.get(0).and_then(Row::text), None);

        let read: Vec<Value> = Reader::from_parts(&block[..], record).unwrap().rows().collect::<Result<_, _>>().unwrap();
        assert_eq!((read[0].text(), read[3].text()), (None, Some("€")), "{column:?}");
    }
}

#[test]
fn an_item_that_is_no_text_is_found_wherever_it_stands() {
    let (mut sound, mut refused) = (0, 0);
    for column in columns() {
        for place in 0..20 {
            // each row its own, so that none joins another; one is a null
            let rows: Vec<Value> = (0..20u8)
                .map(|row| match (row == place, row % 7) {
                    (true, _) => Value::Bytes(vec![b'a' + row, 0xC3]),
                    (_, 6) => Value::Null,
                    _ => Value::Bytes(vec![b'a' + row; 1 + row as usize % 6]),
                })
                .collect();
            let block = model::block_of(column, &rows);
            assert_eq!(Reader::open(column, 20, &block[..]).unwrap_err(), Refusal::Text, "{column:?} {place}");
            refused += 1;
            let blob = Column::new(Kind::Blob, column.encoding);
            if column.kind == Kind::String {
                assert!(Reader::open(blob, 20, &block[..]).is_ok(), "{column:?} {place}");
                sound += 1;
            }
        }
    }
    assert_eq!((refused, sound), (200, 100));
}

#[test]
fn items_under_a_null_and_entries_that_no_key_names_are_looked_at() {
    // encoding, rows, block: of string and of char 1
    let cases: [(Encoding, u64, &[u8], &[u8]); 4] = [
        (Encoding::Nullable, 1, &[1, 0, 0, 0, 0xFF, 0, 1, 0, 0, 0], &[0xFF, 0, 1, 0, 0, 0]),
        (
            Encoding::RunLengthNullable,
            2,
            &[1, 0, 0, 0, 1, 0, 0, 0, 2, 1, 0, 0, 0, 0xFF, 0, 1, 0, 0, 0],
            &[1, 0, 0, 0, 1, 0, 0, 0, 2, 0xFF, 0, 1, 0, 0, 0],
        ),
        (
            Encoding::Dictionary,
            0,
            &[0, 0, 0, 0, 0, 0, 0, 0, 0, 0, 0, 1, 1, 0, 0, 0, 0xFF],
            &[0, 0, 0, 0, 0, 0, 0, 0, 0, 0, 0, 1, 0xFF],
        ),
        (
            Encoding::Dictionary,
            1,
            &[0, 0, 0, 0, 0, 0, 0, 13, 0, 0, 0, 1, 1, 0, 0, 0, 1, 0, 0, 0, 1, 0, 0, 0, 0x80, 1, 0, 0, 0, 0xFF],
            &[0, 0, 0, 0, 0, 0, 0, 13, 0, 0, 0, 1, 1, 0, 0, 0, 1, 0, 0, 0, 1, 0, 0, 0, 0x80, 0xFF],
        ),
    ];
    for (encoding, rows, string, char) in cases {
        for (kind, block) in [(Kind::String, string), (Kind::Char(1), char)] {
            let column = Column::new(kind, encoding);
            assert_eq!(Reader::open(column, rows, block).unwrap_err(), Refusal::Text, "{column:?}");
            let text: Vec<u8> = block.iter().map(|byte| if *byte == 0xFF { b'a' } else { *byte }).collect();
            assert!(Reader::open(column, rows, text).is_ok(), "{column:?}");
        }
        assert!(Reader::open(Column::new(Kind::Blob, encoding), rows, string).is_ok());
    }
    // a key that names no entry comes first
    let mut unknown = cases[3].2.to_vec();
    unknown[21] = 2;
    assert_eq!(Reader::open(Column::new(Kind::String, Encoding::Dictionary), 1, unknown).unwrap_err(), Refusal::Key);
}
