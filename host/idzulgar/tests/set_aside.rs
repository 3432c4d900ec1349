//! What a builder sets aside for rows that are appended at once: what they need, never more than a block can have, and nothing for rows that
//! it refuses. And what salvaging sets aside.
use std::alloc::{GlobalAlloc, Layout, System};
use std::cell::Cell;

use idzulgar::{salvage, Builder, Column, Encoding, Kind, Refusal, Row};

thread_local! {
    /// The bytes that this thread asked for.
    static ASKED: Cell<usize> = const { Cell::new(0) };
}

/// The system's allocator, which counts what it is asked for.
struct Counting;

fn count(bytes: usize) {
    ASKED.set(ASKED.get() + bytes);
}

// SAFETY: each call is passed on to the system's allocator as it is.
unsafe impl GlobalAlloc for Counting {
    unsafe fn alloc(&self, layout: Layout) -> *mut u8 {
        count(layout.size());
        System.alloc(layout)
    }

    unsafe fn realloc(&self, pointer: *mut u8, layout: Layout, size: usize) -> *mut u8 {
        count(size.saturating_sub(layout.size()));
        System.realloc(pointer, layout, size)
    }

    unsafe fn dealloc(&self, pointer: *mut u8, layout: Layout) {
        System.dealloc(pointer, layout);
    }
}

#[global_allocator]
static COUNTING: Counting = Counting;

/// Appends a row n times: the answer, and the bytes that the builder's memory grew by.
fn append(builder: &mut Builder, row: Row<'_>, n: u64) -> (Result<(), Refusal>, usize) {
    let before = ASKED.get();
    let answer = builder.append_times(row, n);
    (answer, ASKED.get() - before)
}

fn created(kind: Kind, encoding: Encoding) -> Builder {
    Builder::new(Column::new(kind, encoding), 0).expect("a pair")
}

#[test]
fn what_equal_rows_need() {
    const MOST_ROWS: u64 = (1 << 48) - 1;
    let long = vec![b'x'; 1 << 20];
    let cases = [
        // each row's item; with it a bit, an end or a length
        (Kind::Bool, Encoding::Plain, Row::Int(1), 1 << 20, 1 << 20),
        (Kind::I64, Encoding::Plain, Row::Null, 1 << 20, 8 << 20),
        (Kind::I16, Encoding::Nullable, Row::Null, 1 << 20, (2 << 20) + (1 << 17)),
        (Kind::Blob, Encoding::Plain, Row::Bytes(b"abc"), 1_000, 7_000),
        (Kind::Char(5), Encoding::Plain, Row::Bytes(b"abc"), 1_000, 6_000),
        // each run's item and count
        (Kind::Bool, Encoding::RunLength, Row::Int(1), MOST_ROWS, 5 * 65_537),
        (Kind::I64, Encoding::RunLengthNullable, Row::Int(1), MOST_ROWS, 12 * 65_537 + 8_193),
        // the entry, and each run's count and key
        (Kind::String, Encoding::Dictionary, Row::Bytes(&long), MOST_ROWS, (1 << 20) + 8 * 65_537),
    ];
    for (kind, encoding, row, n, due) in cases {
        let mut builder = created(kind, encoding);
        let (answer, bytes) = append(&mut builder, row, n);
        // an area has 64 slots at least
        assert!(answer == Ok(()) && (due..due + 1_024).contains(&bytes), "{kind:?} {encoding:?}: {answer:?}, {bytes} bytes");
        for many in [1 << 48, u64::MAX] {
            assert_eq!(append(&mut builder, row, many), (Err(Refusal::Limit), 0), "{kind:?} {encoding:?}, {many} more");
            assert_eq!(append(&mut created(kind, encoding), row, many), (Err(Refusal::Limit), 0), "{kind:?} {encoding:?}, {many}");
        }
    }
}

#[test]
fn no_area_is_longer_than_a_block() {
    let long = vec![b'x'; 1 << 20];
    let mut builder = created(Kind::Blob, Encoding::Plain);
    let (first, second) = (append(&mut builder, Row::Bytes(&long), 9), append(&mut builder, Row::Bytes(&long), 6));
    assert_eq!((first.0, second.0), (Ok(()), Ok(())));
    // twice as long as before would be 18 MB
    assert!(first.1 + second.1 <= (1 << 24) + 1_024, "{} and {} bytes", first.1, second.1);
    assert_eq!(append(&mut builder, Row::Bytes(&long), 1), (Err(Refusal::Limit), 0));
}

#[test]
fn what_salvaging_needs() {
    let column = Column::new(Kind::I64, Encoding::Dictionary);
    let mut builder = created(Kind::I64, Encoding::Dictionary);
    (0..100).for_each(|row| builder.append(Row::Int(row % 2)).expect("a row that fits"));
    let mut block = builder.finish().expect("memory");
    // the keys lie behind 20 bytes of lengths and 100 of counts
    block[120 + 4 * 30] = 99;
    let asked = |rows, block: &[u8], most| {
        let before = ASKED.get();
        let answer = salvage(column, rows, block, most).map(|salvaged| salvaged.lost);
        (answer, ASKED.get() - before)
    };
    // room for the block, two slots for each range that is asked for, and the range that is given
    let len = block.len();
    let given = std::mem::size_of::<std::ops::RangeInclusive<u64>>();
    assert_eq!(asked(100, &block, 1), (Ok(vec![30..=30]), len + 16 + given));
    assert_eq!(asked(100, &block, 10), (Ok(vec![30..=30]), len + 160 + given));
    assert_eq!(asked(100, &block, 0), (Err(Refusal::Room), len));
    // but no more slots than a block of that length can have ranges, or any block
    assert_eq!(asked(100, &block, usize::MAX), (Ok(vec![30..=30]), len + 16 * (len / 10) + given));
    assert_eq!(asked(0, &vec![0; 1 << 24], usize::MAX), (Err(Refusal::Length), (1 << 24) + (16 << 19)));
    // a block that is too long is refused, and needs no room of its length
    assert_eq!(asked(0, &vec![0; 1 << 26], 0), (Err(Refusal::Limit), 1 << 24));
}
