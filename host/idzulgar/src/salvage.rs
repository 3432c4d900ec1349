//! A dictionary column with unknown keys, given back.
use std::ops::RangeInclusive;

use crate::batch::zeros;
use crate::calls;
use crate::ranges::Slots;
use crate::{Column, Refusal};

/// The most bytes that a block can have: a longer one is refused, and needs no room.
const BLOCK_BYTES: usize = 1 << 24;

/// The most ranges that a block can have: it has at most 1,048,576 runs, and between two ranges lies one that isn't lost.
const MOST_RANGES: usize = 1 << 19;

/// The fewest bytes that a range takes: a run has a byte of its count and four of its key, and behind each range but the last comes a run that
/// isn't lost. The last one has the lengths at the block's head instead.
const RANGE_BYTES: usize = 10;

/// What [`salvage`] gives back: a sound block, and which of its rows were lost.
#[derive(Clone, Debug, PartialEq, Eq)]
pub struct Salvaged {
    /// The block that a [`Builder`](crate::Builder) gives for the rows, of which those that were lost are null.
    pub block: Vec<u8>,
    /// The rows that were lost, counted from 0: ranges that ascend, each as long as it can be.
    pub lost: Vec<RangeInclusive<u64>>,
}

/// The rows of a dictionary column of which some keys name no entry, which [`Reader::open`](crate::Reader::open) refuses as [`Refusal::Key`].
///
/// A row whose key names no entry is lost: it becomes null, and is told as lost, so that nobody takes it for a row that was null before. All
/// others stay. A sound block has no lost rows, and gives a block of equal rows. The block is never longer than the one that was given, and
/// is opened with the same column and number of rows. Runs are taken as wholes, however many rows they have.
///
/// Memory is set aside for a block as long as the one that was given, and for `most` ranges, or for as many as a block of that length can have.
/// Refused as [`Refusal::Column`] if the encoding isn't dictionary; as [`Reader::open`](crate::Reader::open) refuses the block as if every key
/// were good; as [`Refusal::Room`] if there are more ranges than `most`, or if there isn't the memory.
///
/// ```
/// use idzulgar::{salvage, Builder, Column, Encoding, Kind, Reader, Refusal, Row};
///
/// // a rate table: two months at 3.75 %, one without a rate, two at 4.1 %, and one more at 3.75 %
/// let column = Column::new(Kind::F64, Encoding::Dictionary);
/// let mut builder = Builder::new(column, 4096)?;
/// for rate in [Some(0.0375), Some(0.0375), None, Some(0.041), Some(0.041), Some(0.0375)] {
///     builder.append(rate.map_or(Row::Null, Row::F64))?;
/// }
/// let mut block = builder.finish()?;
///
/// // four runs: their keys lie behind 20 bytes of lengths and 4 of counts. The third one comes to name an entry that there isn't
/// block[24 + 2 * 4] = 9;
/// assert_eq!(Reader::open(column, 6, &block[..]).unwrap_err(), Refusal::Key);
///
/// // the months at 4.1 % are lost, and that is told; the month without a rate isn't, and the others have theirs
/// let salvaged = salvage(column, 6, &block, 100)?;
/// assert_eq!(salvaged.lost, [3..=4]);
/// let reader = Reader::open(column, 6, &salvaged.block[..])?;
/// let rates: Result<Vec<Option<f64>>, Refusal> = reader.rows().map(|row| row.map(|value| value.f64())).collect();
/// assert_eq!(rates?, [Some(0.0375), Some(0.0375), None, None, None, Some(0.0375)]);
///
/// // the block that came of it is sound: nothing is lost of it, and a builder's block comes back as it is
/// let again = salvage(column, 6, &salvaged.block, 0)?;
/// assert_eq!((&again.block, &again.lost[..]), (&salvaged.block, &[][..]));
///
/// // one range, and memory for none; another fault of the block; and runs, which have no keys
/// assert_eq!(salvage(column, 6, &block, 0), Err(Refusal::Room));
/// assert_eq!(salvage(column, 7, &block, 100), Err(Refusal::Sum));
/// assert_eq!(salvage(Column::new(Kind::F64, Encoding::RunLength), 6, &block, 100), Err(Refusal::Column));
/// # Ok::<(), Refusal>(())
/// ```
pub fn salvage(column: Column, rows: u64, block: &[u8], most: usize) -> Result<Salvaged, Refusal> {
    let mut slots = Slots::new(most.min(MOST_RANGES).min(block.len() / RANGE_BYTES))?;
    let mut out = zeros(block.len().min(BLOCK_BYTES)).map_err(|_| Refusal::Room)?;
    let answer = calls::salvage(column.descriptor(rows), block, &mut slots.firsts, &mut slots.lasts, &mut out);
    Refusal::check(answer.number)?;
    out.truncate(answer.len);
    Ok(Salvaged { block: out, lost: slots.ranges(answer.ranges)? })
}
