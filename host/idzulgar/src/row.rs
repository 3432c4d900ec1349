//! One row by the second engine.
use crate::calls;
use crate::{Batch, Column, Kind, Refusal, Value};

/// The most bytes that a block can have: a longer one is refused, and needs no room.
const BLOCK_BYTES: usize = 1 << 24;

/// Row `row` of a block of `rows` rows, counted from 0, by the second engine: it has no function in common with the one behind all other
/// calls, keeps nothing, and finds the row from the block's start each time.
///
/// Of a sound block it gives what a fresh [`Reader`](crate::Reader) gives after passing over as many rows. A call tests the whole block,
/// whichever row it asks for, so it is for checking what a reader gave, and not for reading: see the example `night`, which asks both engines
/// for rows of many files.
///
/// Refused as [`Reader::open`](crate::Reader::open) refuses the block; then as [`Refusal::TooFar`] if there is no such row. Memory is set aside
/// for the longest row that a block of this length can have; if there isn't as much, it is [`Refusal::Room`].
///
/// ```
/// use idzulgar::{row, Builder, Column, Encoding, Kind, Reader, Refusal, Row, Value};
///
/// let column = Column::new(Kind::F64, Encoding::Dictionary);
/// let mut builder = Builder::new(column, 4096)?;
/// for rate in [Some(0.0375), Some(0.0375), None, Some(0.041)] {
///     builder.append(rate.map_or(Row::Null, Row::F64))?;
/// }
/// let block = builder.finish()?;
/// assert_eq!(row(column, 4, &block, 1)?, Value::F64(0.0375));
/// assert_eq!(row(column, 4, &block, 2)?, Value::Null);
/// assert_eq!(row(column, 4, &block, 4), Err(Refusal::TooFar));
///
/// // each row asked of both engines
/// for (place, given) in (0..).zip(Reader::open(column, 4, &block[..])?.rows()) {
///     assert_eq!(row(column, 4, &block, place)?, given?);
/// }
///
/// // a byte is missing, and it doesn't matter which row is asked for
/// assert_eq!(row(column, 4, &block[1..], 0), Err(Refusal::Cut));
/// # Ok::<(), Refusal>(())
/// ```
pub fn row(column: Column, rows: u64, block: &[u8], row: u64) -> Result<Value, Refusal> {
    let most = match column.kind {
        Kind::Char(width) => usize::from(width),
        _ => block.len().min(BLOCK_BYTES),
    };
    let mut batch = Batch::new(column.kind, 1, most).map_err(|_| Refusal::Room)?;
    let place = usize::try_from(row).unwrap_or(usize::MAX);
    let answer =
        calls::row(column.descriptor(rows), block, place, &mut batch.values, &mut batch.flags, &mut batch.ends, &mut batch.bytes);
    Refusal::check(answer.number)?;
    batch.rows = 1;
    batch.get(0).map(Value::from).ok_or(Refusal::Disagree)
}
