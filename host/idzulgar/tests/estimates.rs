//! How far the estimate is from the finished length: the bounds over random lists of all pairs, the blocks that meet them, and the room that
//! `finish` sets aside.
mod model;

use idzulgar::{Builder, Column, Encoding, Kind, Refusal, Row};
use model::Chance;

/// What the estimate leaves out, whatever the rows.
fn beyond(encoding: Encoding) -> u64 {
    match encoding {
        Encoding::Plain => 0,
        Encoding::Nullable | Encoding::RunLength => 4,
        Encoding::RunLengthNullable | Encoding::Dictionary => 8,
    }
}

/// The runs of a finished block, by its own bytes: those of a dictionary are its key block's, which stands behind twelve bytes.
fn runs(encoding: Encoding, block: &[u8]) -> u64 {
    let head = match encoding {
        Encoding::Plain | Encoding::Nullable => return 0,
        Encoding::RunLength | Encoding::RunLengthNullable => block,
        Encoding::Dictionary => &block[12..],
    };
    head.get(..4).map_or(0, |count| u32::from_le_bytes(count.try_into().unwrap()) as u64)
}

/// Holds a builder's block to the bounds, and its room to the block.
fn hold(builder: &Builder, column: Column, rows: usize) {
    let block = builder.finish().unwrap();
    let (estimate, beyond) = (builder.estimate().unwrap(), beyond(column.encoding));
    let (len, runs) = (block.len() as u64, runs(column.encoding, &block));
    let room = builder.finish_room().unwrap();
    assert_eq!(room as u64, estimate + beyond + 3 * runs, "{column:?}");
    assert!(len <= room as u64, "{column:?}, {rows} rows: {len} bytes, room for {room}");
    if runs == 0 && rows > 0 {
        assert_eq!(len, estimate + beyond, "{column:?}, {rows} rows");
    } else if rows > 0 {
        assert!(len + runs >= estimate + beyond, "{column:?}, {rows} rows: {len} bytes in {runs} runs, estimated at {estimate}");
    }
    assert_eq!(builder.finish_into(&mut vec![0; room]), Ok(block.len()));
    if let Some(short) = block.len().checked_sub(1) {
        assert_eq!(builder.finish_into(&mut vec![0; short]), Err(Refusal::Room));
    }
}

#[test]
fn random_lists() {
    let mut chance = Chance::new(14);
    for place in 0..22_000 {
        let column = model::column(place % model::PAIRS, 1 + chance.below(20));
        let mut builder = Builder::new(column, 1 << 14).unwrap();
        let mut rows = 0;
        hold(&builder, column, rows);
        for row in model::some_rows(column.kind, 12, &mut chance) {
            // counts of one to five bytes, where rows are in runs
            let most = if matches!(column.encoding, Encoding::Plain | Encoding::Nullable) { 6 } else { 33 };
            let bits = chance.below(most);
            let n = chance.below(1 << bits);
            builder.append_times((&row).into(), n).unwrap();
            rows += n as usize;
        }
        hold(&builder, column, rows);
    }
}

/// A list that meets a bound: its encoding, its row and how often that comes, the block and the estimate; how many runs stand on the bound's
/// left, and what each adds on its right.
fn met(encoding: Encoding, row: Row<'_>, n: u64, block: &[u8], estimate: u64, runs_on_the_left: u64, per_run: u64) {
    let mut builder = Builder::new(Column::new(Kind::Bool, encoding), 1 << 14).unwrap();
    builder.append_times(row, n).unwrap();
    assert_eq!(builder.finish().unwrap(), block);
    assert_eq!(builder.estimate(), Ok(estimate));
    assert_eq!(block.len() as u64 + runs_on_the_left, estimate + beyond(encoding) + per_run);
}

#[test]
fn blocks_that_meet_them() {
    let one = Row::Int(1);
    let many = 1 << 28;
    met(Encoding::RunLength, one, 1, &[1, 0, 0, 0, 1, 0, 0, 0, 1, 1], 7, 1, 0);
    met(Encoding::RunLength, one, many, &[1, 0, 0, 0, 5, 0, 0, 0, 128, 128, 128, 128, 1, 1], 7, 0, 3);
    met(Encoding::RunLengthNullable, one, 1, &[1, 0, 0, 0, 1, 0, 0, 0, 1, 1, 1, 1, 0, 0, 0], 8, 1, 0);
    met(Encoding::RunLengthNullable, one, many, &[1, 0, 0, 0, 5, 0, 0, 0, 128, 128, 128, 128, 1, 1, 1, 1, 0, 0, 0], 8, 0, 3);
    let null = [0, 0, 0, 0, 0, 0, 0, 13, 0, 0, 0, 0, 1, 0, 0, 0, 1, 0, 0, 0, 1, 0, 0, 0, 128];
    met(Encoding::Dictionary, Row::Null, 1, &null, 18, 1, 0);
    let keys = [0, 0, 0, 0, 0, 0, 0, 17, 0, 0, 0, 1, 1, 0, 0, 0, 5, 0, 0, 0, 128, 128, 128, 128, 1, 1, 0, 0, 128, 1];
    met(Encoding::Dictionary, one, many, &keys, 19, 0, 3);
}

/// Room that the bound doesn't give is refused: the largest blocks need all of it.
#[test]
fn none_of_it_is_spare() {
    for encoding in [Encoding::RunLength, Encoding::RunLengthNullable, Encoding::Dictionary] {
        let mut builder = Builder::new(Column::new(Kind::Bool, encoding), 1 << 14).unwrap();
        for place in 0..4 {
            builder.append_times(Row::Int(place % 2), 1 << 28).unwrap();
        }
        let room = builder.finish_room().unwrap();
        assert_eq!(builder.finish_into(&mut vec![0; room]), Ok(room));
        assert_eq!(builder.finish_into(&mut vec![0; room - 1]), Err(Refusal::Room));
    }
}
