//! The builder that keeps its memory.
use crate::calls::{self, Areas, BuilderRecord};
use crate::{Column, Encoding, Kind, Refusal, Row};

/// Rows appended so far, on the way to a block.
///
/// ```
/// use idzulgar::{Builder, Column, Encoding, Kind, Refusal, Row};
///
/// let mut builder = Builder::new(Column::new(Kind::Blob, Encoding::Dictionary), 4096)?;
/// for row in [Row::Bytes(b"ab"), Row::Null, Row::Bytes(b"ab"), Row::Bytes(b"c")] {
///     builder.append(row)?;
/// }
/// assert_eq!((builder.rows(), builder.estimate()?), (4, 47));
/// assert_eq!(builder.finish()?.len(), 51);
/// assert_eq!(builder.append(Row::Int(5)), Err(Refusal::Item));
/// # Ok::<(), Refusal>(())
/// ```
#[derive(Clone, Debug)]
pub struct Builder {
    record: BuilderRecord,
    column: Column,
    items: Vec<u8>,
    ends: Vec<u32>,
    flags: Vec<u8>,
    counts: Vec<u32>,
    keys: Vec<i32>,
    lens: Vec<u8>,
}

/// A row as the calls take it: whether it is present, its integer, its bytes. A row of the wrong sort is refused; a float's row may also
/// be the integer that its bits are.
fn parts<'a>(kind: Kind, row: Row<'a>) -> Result<(bool, i64, &'a [u8]), Refusal> {
    match row {
        Row::Null => Ok((false, 0, &[])),
        Row::Int(value) if !kind.is_bytes() => Ok((true, value, &[])),
        Row::Bytes(bytes) if kind.is_bytes() => Ok((true, 0, bytes)),
        Row::F64(value) if kind == Kind::F64 => Ok((true, value.to_bits() as i64, &[])),
        _ => Err(Refusal::Item),
    }
}

/// The most that a block can have: bytes, stored items or runs, a dictionary's entries, and rows in one run.
const MOST_BYTES: usize = 1 << 24;
const MOST_ITEMS: usize = 1 << 20;
const MOST_ENTRIES: usize = 1 << 16;
const MOST_COUNT: usize = u32::MAX as usize;

/// Makes an area long enough for a need, and then some, so that growing is rare; never longer than the most that a block can have of it.
fn grow<T: Clone + Default>(area: &mut Vec<T>, need: usize, most: usize) -> Result<(), Refusal> {
    if need.min(most) > area.len() {
        let len = need.max(area.len().saturating_mul(2)).max(64).min(most);
        area.try_reserve_exact(len - area.len()).map_err(|_| Refusal::Room)?;
        area.resize(len, T::default());
    }
    Ok(())
}

/// A target as the calls take it.
fn bytes_of(target: u64) -> usize {
    usize::try_from(target).unwrap_or(usize::MAX)
}

impl Builder {
    /// A builder with nothing appended. The target is the size in bytes that [`Builder::should_finish`] holds blocks to; no memory
    /// is set aside for it. A dictionary's keys are held to the same target, apart from its entries. (They used to be held to 0, and a block
    /// to be finished after each row: [`Builder::with_key_target`] goes on so if it is asked for 0.)
    ///
    /// A column that is cut where `should_finish` says so:
    ///
    /// ```
    /// use idzulgar::{Builder, Column, Encoding, Kind, Refusal, Row};
    ///
    /// let mut builder = Builder::new(Column::new(Kind::I32, Encoding::Dictionary), 64)?;
    /// let mut blocks = Vec::new();
    /// for row in [Row::Int(1), Row::Int(2)].into_iter().cycle().take(40) {
    ///     if builder.should_finish(row)? {
    ///         blocks.push((builder.rows(), builder.finish()?));
    ///         builder.restart()?;
    ///     }
    ///     builder.append(row)?;
    /// }
    /// blocks.push((builder.rows(), builder.finish()?));
    /// // 16 keys have 64 bytes
    /// assert_eq!(blocks.iter().map(|block| block.0).collect::<Vec<_>>(), [16, 16, 8]);
    /// # Ok::<(), Refusal>(())
    /// ```
    pub fn new(column: Column, target: u64) -> Result<Self, Refusal> {
        let (kind, encoding, width) = column.numbers();
        Builder::created(column, calls::create(kind, encoding, width, bytes_of(target)))
    }

    /// The same with a target of its own for a dictionary's keys, of which each run takes 4 bytes. With 0 a dictionary is to be finished as
    /// soon as it has a row. The other encodings don't look at it.
    ///
    /// ```
    /// use idzulgar::{Builder, Column, Encoding, Kind, Refusal, Row};
    ///
    /// let mut builder = Builder::with_key_target(Column::new(Kind::I32, Encoding::Dictionary), 4096, 0)?;
    /// assert_eq!(builder.should_finish(Row::Int(7)), Ok(false));
    /// builder.append(Row::Int(7))?;
    /// assert_eq!(builder.should_finish(Row::Int(7)), Ok(true));
    ///
    /// // in runs, which have no keys, the same rows go on
    /// let mut builder = Builder::with_key_target(Column::new(Kind::I32, Encoding::RunLength), 4096, 0)?;
    /// builder.append(Row::Int(7))?;
    /// assert_eq!(builder.should_finish(Row::Int(7)), Ok(false));
    /// # Ok::<(), Refusal>(())
    /// ```
    pub fn with_key_target(column: Column, target: u64, key_target: u64) -> Result<Self, Refusal> {
        let (kind, encoding, width) = column.numbers();
        let (target, key_target) = (bytes_of(target), bytes_of(key_target));
        Builder::created(column, calls::create_with_key_target(kind, encoding, width, target, key_target))
    }

    /// The builder that creation answered, without memory.
    fn created(column: Column, answer: calls::Creation) -> Result<Self, Refusal> {
        Refusal::check(answer.number)?;
        Ok(Builder {
            record: answer.builder,
            column,
            items: Vec::new(),
            ends: Vec::new(),
            flags: Vec::new(),
            counts: Vec::new(),
            keys: Vec::new(),
            lens: Vec::new(),
        })
    }

    /// Begins the next block of the same column in the same memory, with the same targets.
    pub fn restart(&mut self) -> Result<(), Refusal> {
        let BuilderRecord { kind, encoding, width, target, key_target, .. } = self.record;
        let answer = calls::create_with_key_target(kind, encoding, width, target, key_target);
        Refusal::check(answer.number)?;
        self.record = answer.builder;
        Ok(())
    }

    /// The column.
    pub fn column(&self) -> Column {
        self.column
    }

    /// How many rows were appended.
    pub fn rows(&self) -> u64 {
        self.record.rows as u64
    }

    fn call(&mut self, row: (bool, i64, &[u8]), times: usize) -> calls::Appended {
        let areas = Areas {
            items: &mut self.items,
            ends: &mut self.ends,
            flags: &mut self.flags,
            counts: &mut self.counts,
            keys: &mut self.keys,
            lens: &mut self.lens,
        };
        calls::append_times(self.record, areas, row.0, row.1, row.2, times)
    }

    /// Makes room for a row so many times, as much as it takes if it joins no run and is no entry yet. The call has been refused as 4, and so
    /// wasn't 3: the block can have these rows, and what they need is within its limits.
    fn make_room(&mut self, item_len: usize, times: usize) -> Result<(), Refusal> {
        let record = self.record;
        let encoding = self.column.encoding;
        let coded = !matches!(encoding, Encoding::Plain | Encoding::Nullable);
        let more_runs = times.div_ceil(MOST_COUNT);
        let (stored, more, most) = match encoding {
            Encoding::Plain | Encoding::Nullable => (record.rows, times, MOST_ITEMS),
            Encoding::RunLength | Encoding::RunLengthNullable => (record.runs, more_runs, MOST_ITEMS),
            Encoding::Dictionary => (record.entries, 1, MOST_ENTRIES),
        };
        let item = match self.column.kind {
            Kind::Bool => 1,
            Kind::I16 => 2,
            Kind::I32 | Kind::Date => 4,
            Kind::I64 | Kind::Timestamp | Kind::TimestampTz | Kind::Interval | Kind::F64 => 8,
            Kind::Char(width) => usize::from(width),
            Kind::Blob | Kind::String => item_len,
        };
        let stored = stored.saturating_add(more);
        let runs = record.runs.saturating_add(more_runs);
        grow(&mut self.items, record.bytes.saturating_add(item.saturating_mul(more)), MOST_BYTES)?;
        if matches!(self.column.kind, Kind::Blob | Kind::String) {
            grow(&mut self.ends, stored, most)?;
        }
        if matches!(self.column.kind, Kind::Char(_)) {
            grow(&mut self.lens, stored, most)?;
        }
        if matches!(encoding, Encoding::Nullable | Encoding::RunLengthNullable) {
            grow(&mut self.flags, stored.div_ceil(8), most / 8)?;
        }
        if coded {
            grow(&mut self.counts, runs, MOST_ITEMS)?;
        }
        if encoding == Encoding::Dictionary {
            grow(&mut self.keys, runs, MOST_ITEMS)?;
        }
        Ok(())
    }

    /// Appends a row. A refused row changes nothing: [`Refusal::Item`] if the row doesn't fit the kind, [`Refusal::Limit`] if the
    /// block would pass a limit. A row of char or string is given by its bytes or, with `into`, as `&str`.
    pub fn append(&mut self, row: Row<'_>) -> Result<(), Refusal> {
        self.append_times(row, 1)
    }

    /// Appends a row `n` times, all or none; done, it leaves what `n` single appends do. In runs and dictionaries many rows take no longer
    /// than one, but for a run more every 4,294,967,295 rows.
    ///
    /// Refused as a single row is: [`Refusal::Item`] if the row doesn't fit the kind, also if `n` is 0, which else changes nothing;
    /// [`Refusal::Limit`] if the block would pass a limit with all these rows, and then no memory is set aside for them.
    /// [`Builder::should_finish`] asks of one next row: a plain or nullable block can pass its target by `n - 1` items.
    ///
    /// A payment schedule, three months without a payment and 360 with the same:
    ///
    /// ```
    /// use idzulgar::{Builder, Column, Encoding, Kind, Reader, Refusal, Row, Value};
    ///
    /// let column = Column::new(Kind::I64, Encoding::RunLengthNullable);
    /// let mut builder = Builder::new(column, 4096)?;
    /// builder.append_times(Row::Null, 3)?;
    /// builder.append_times(Row::Int(89_123), 360)?;
    /// assert_eq!(builder.rows(), 363);
    /// let block = builder.finish()?;
    ///
    /// // the same block as by single appends
    /// let mut one_by_one = Builder::new(column, 4096)?;
    /// for month in 0..363 {
    ///     one_by_one.append(if month < 3 { Row::Null } else { Row::Int(89_123) })?;
    /// }
    /// assert_eq!(one_by_one.finish()?, block);
    /// let last: Result<Vec<Value>, Refusal> = Reader::open(column, 363, block)?.rows_after(361).collect();
    /// assert_eq!(last?, [Value::Int(89_123), Value::Int(89_123)]);
    ///
    /// // all or none: a block has at most 281,474,976,710,655 rows
    /// assert_eq!(builder.append_times(Row::Int(89_123), (1 << 48) - 363), Err(Refusal::Limit));
    /// assert_eq!(builder.rows(), 363);
    /// builder.append_times(Row::Int(89_123), (1 << 48) - 364)?;
    /// assert_eq!(builder.rows(), (1 << 48) - 1);
    /// # Ok::<(), Refusal>(())
    /// ```
    pub fn append_times(&mut self, row: Row<'_>, n: u64) -> Result<(), Refusal> {
        let row = parts(self.column.kind, row)?;
        let times = usize::try_from(n).map_err(|_| Refusal::Limit)?;
        let mut answer = self.call(row, times);
        if Refusal::check(answer.number) == Err(Refusal::Room) {
            self.make_room(row.2.len(), times)?;
            answer = self.call(row, times);
        }
        Refusal::check(answer.number)?;
        self.record = answer.builder;
        Ok(())
    }

    /// Whether to finish the block before a next row, by the target; of a dictionary also by the keys' target, which says the same of any
    /// next row.
    pub fn should_finish(&self, next: Row<'_>) -> Result<bool, Refusal> {
        let (present, _, bytes) = parts(self.column.kind, next)?;
        let answer = calls::should_finish(self.record, present, bytes.len());
        Refusal::check(answer.number)?;
        Ok(answer.full)
    }

    /// The estimated size of the block.
    pub fn estimate(&self) -> Result<u64, Refusal> {
        let answer = calls::estimate(self.record);
        Refusal::check(answer.number)?;
        Ok(answer.size as u64)
    }

    /// Writes the block into lent room, and answers its length. Finishing changes nothing: it can be done again, and appending can
    /// go on.
    pub fn finish_into(&self, out: &mut [u8]) -> Result<usize, Refusal> {
        let answer = calls::finish(self.record, &self.items, &self.ends, &self.flags, &self.counts, &self.keys, &self.lens, out);
        Refusal::check(answer.number)?;
        Ok(answer.len)
    }

    /// Room that is enough for [`finish_into`](Builder::finish_into): the estimate, 4 bytes for each length that it leaves out, and 3 more
    /// of each run's count. The theorem `room-is-enough` (crates/estimate_laws) says so of every builder that calls alone have made; where each
    /// count takes five bytes the block has just so many.
    ///
    /// ```
    /// # use idzulgar::{Builder, Column, Encoding, Kind, Row};
    /// let mut builder = Builder::new(Column::new(Kind::Bool, Encoding::RunLength), 1 << 14)?;
    /// builder.append_times(Row::Int(1), 1 << 28)?;
    /// assert_eq!((builder.estimate()?, builder.finish_room()?, builder.finish()?.len()), (7, 14, 14));
    /// # Ok::<(), idzulgar::Refusal>(())
    /// ```
    pub fn finish_room(&self) -> Result<usize, Refusal> {
        let beyond = match self.column.encoding {
            Encoding::Plain => 0,
            Encoding::Nullable | Encoding::RunLength => 4,
            Encoding::RunLengthNullable | Encoding::Dictionary => 8,
        };
        Ok((self.estimate()? as usize).saturating_add(beyond + 3 * self.record.runs))
    }

    /// The block of the rows appended so far.
    pub fn finish(&self) -> Result<Vec<u8>, Refusal> {
        let most = self.finish_room()?;
        let mut block = Vec::new();
        block.try_reserve_exact(most).map_err(|_| Refusal::Room)?;
        block.resize(most, 0);
        let len = self.finish_into(&mut block)?;
        block.truncate(len);
        Ok(block)
    }
}
