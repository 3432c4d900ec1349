//! Ranges of rows, as the calls write them: the first row of each to one list, the last to another.
use std::ops::RangeInclusive;

use crate::batch::zeros;
use crate::Refusal;

/// The two lists that a call is lent.
pub(crate) struct Slots {
    pub(crate) firsts: Vec<usize>,
    pub(crate) lasts: Vec<usize>,
}

impl Slots {
    /// Memory for so many ranges.
    pub(crate) fn new(most: usize) -> Result<Slots, Refusal> {
        let slots = || zeros(most).map_err(|_| Refusal::Room);
        Ok(Slots { firsts: slots()?, lasts: slots()? })
    }

    /// As many ranges as were written.
    pub(crate) fn ranges(&self, written: usize) -> Result<Vec<RangeInclusive<u64>>, Refusal> {
        let mut ranges = Vec::new();
        ranges.try_reserve_exact(written).map_err(|_| Refusal::Room)?;
        ranges.extend(self.firsts.iter().zip(&self.lasts).take(written).map(|(first, last)| *first as u64..=*last as u64));
        Ok(ranges)
    }
}
