//! A sound block read by the port and by the original through the same calls.
use idzulgar::{row, Batch, Column, Encoding, Reader, Value};

use crate::model::{self, Chance};
use crate::{caught, padded, reader};

/// A call on both readers: rows to pass over, and rows to give at most. They are never both 0, which the port refuses.
#[derive(Debug)]
struct Call {
    skip: u64,
    size: usize,
}

impl Call {
    /// A call on readers with some rows left: a skip, a batch, or both in one.
    fn some(left: u64, chance: &mut Chance) -> Call {
        let skip = match chance.below(8) {
            0 => chance.below(left + 1),
            1..=3 => chance.below(left.min(9) + 1),
            _ => 0,
        };
        let size = match chance.below(8) {
            0 | 1 if skip > 0 => 0,
            2 | 3 => 1 + chance.below(60),
            _ => 1 + chance.below(7),
        };
        Call { skip, size: size as usize }
    }
}

/// What the calls came to: of the same answers how many calls and how many nulls.
pub enum Read {
    Same(u64, u64),
    Panicked,
    Differs(String),
}

/// Reads a block that the port has opened by random calls on both sides, and asks the second engine for a row.
pub fn read_both(mut port: Reader<&[u8]>, column: Column, n: u64, block: &[u8], chance: &mut Chance, batch: &mut Batch) -> Read {
    let Some(mut original) = caught(|| reader(column, n as usize, padded(block))) else { return Read::Panicked };
    let mut rows = Vec::new();
    let (mut calls, mut nulls) = (0, 0);
    for _ in 0..3 + chance.below(12) {
        let left = match port.remaining() {
            Ok(left) => left,
            Err(refusal) => return Read::Differs(format!("the port's remaining is refused: {refusal}")),
        };
        let Some(other) = caught(|| original.remaining()) else { return Read::Panicked };
        if left != other as u64 {
            return Read::Differs(format!("remaining {left}, the original's {other}"));
        }
        let call = Call::some(left, chance);
        calls += 1;
        let given = match port.read(call.skip, call.size, batch) {
            Ok(given) => given,
            Err(refusal) => return Read::Differs(format!("the port refuses {call:?}: {refusal}")),
        };
        let Some(others) = caught(|| original.read(call.skip as usize, call.size, &mut rows)) else { return Read::Panicked };
        let same = given == others && given == rows.len() && batch.iter().map(Value::from).eq(rows.iter().cloned());
        if !same {
            let given = batch.iter().collect::<Vec<_>>();
            return Read::Differs(format!("{call:?} gives {given:?}, the original {rows:?} ({others})"));
        }
        nulls += rows.iter().filter(|row| **row == Value::Null).count() as u64;
        if port.nulls() != nulls {
            return Read::Differs(format!("after {call:?} the count of nulls is {}, the original gave {nulls}", port.nulls()));
        }
    }
    if n > 0 {
        // which row is told by the block's own bytes, so that the calls stay those of the seed
        let place = block.iter().fold(n, |sum, byte| sum.wrapping_mul(257).wrapping_add(u64::from(*byte))) % n;
        let Some(others) = caught(|| reader(column, n as usize, padded(block)).read(place as usize, 1, &mut rows)) else {
            return Read::Panicked;
        };
        let shown = row(column, n, block, place);
        if others != 1 || shown.as_ref().ok() != rows.first() {
            return Read::Differs(format!("row {place} of the second engine is {shown:?}, the original's {rows:?} ({others})"));
        }
    }
    Read::Same(calls, nulls)
}

/// The departure that explains why the original panics on a sound block.
pub fn departure(column: Column, n: u64, block: &[u8]) -> &'static str {
    if n == 0 && !matches!(column.encoding, Encoding::Plain | Encoding::Nullable) {
        return "read here, the original panics: a block of no rows with runs or keys";
    }
    if model::counts_of(column, block).iter().any(|count| *count >= 0xF000_0000) {
        return "read here, the original panics: a run count with fifth byte 0x0F";
    }
    "DIFFERENCE: read here, the original panics"
}
