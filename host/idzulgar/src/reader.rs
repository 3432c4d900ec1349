//! The reader that keeps its block.
use crate::calls::{self, ReaderRecord};
use crate::{Batch, Column, Kind, Refusal, Value};

/// A sound block, opened, and where reading stands.
///
/// A clone goes on from the same place by itself.
#[derive(Clone, Debug)]
pub struct Reader<B> {
    block: B,
    record: ReaderRecord,
    kind: Kind,
}

impl<B: AsRef<[u8]>> Reader<B> {
    /// Opens a block of `rows` rows: exactly a sound block is opened.
    pub fn open(column: Column, rows: u64, block: B) -> Result<Self, Refusal> {
        let (kind, encoding, width) = column.numbers();
        let rows = usize::try_from(rows).map_err(|_| Refusal::Limit)?;
        let answer = calls::open(kind, encoding, width, rows, block.as_ref());
        Refusal::check(answer.number)?;
        Ok(Reader { block, record: answer.reader, kind: column.kind })
    }

    /// A reader from its parts, as [`Reader::into_parts`] gives them, or from a record that was stored. Any record will do: one
    /// that doesn't go with the block is refused by the calls.
    pub fn from_parts(block: B, record: ReaderRecord) -> Result<Self, Refusal> {
        let column =
            Column::numbered(record.kind as u64, record.encoding as u64, record.width as u64).map_err(|_| Refusal::Disagree)?;
        Ok(Reader { block, record, kind: column.kind })
    }

    /// The block and the record.
    pub fn into_parts(self) -> (B, ReaderRecord) {
        (self.block, self.record)
    }

    /// What the rows are.
    pub fn kind(&self) -> Kind {
        self.kind
    }

    /// The block.
    pub fn block(&self) -> &B {
        &self.block
    }

    /// How many rows are left.
    pub fn remaining(&self) -> Result<u64, Refusal> {
        let answer = calls::remaining(self.record);
        Refusal::check(answer.number)?;
        Ok(answer.rows as u64)
    }

    /// How many of the rows given since opening were null. Rows passed over aren't counted, and a refused read counts none. In
    /// [`Encoding::Plain`](crate::Encoding::Plain) and [`Encoding::RunLength`](crate::Encoding::RunLength), which have no nulls, it stays 0.
    ///
    /// It is the record's number as it stands. A record put together by hand can have any there: the calls refuse one that is above the rows
    /// given and passed over as [`Refusal::Disagree`], and add to any other.
    ///
    /// The iterator of [`Reader::rows`] and of [`Reader::rows_after`] reads ahead: the count of the reader inside it is of all rows that were
    /// read, those that the iterator hasn't handed out yet among them. Read by batches where the count is wanted.
    ///
    /// ```
    /// use idzulgar::{Batch, Column, Encoding, Kind, Reader, Refusal};
    ///
    /// // i16, nullable: 5 null null -2 null
    /// let block = [5, 0, 0, 0, 0, 0, 0xFE, 0xFF, 0, 0, 9, 1, 0, 0, 0];
    /// let column = Reader::open(Column::new(Kind::I16, Encoding::Nullable), 5, &block[..])?;
    ///
    /// // pricing flags a column as thin where more than half of the rows that it got were null
    /// let is_thin = |skip| {
    ///     let mut reader = column.clone();
    ///     let mut batch = Batch::new(Kind::I16, 2, 0).expect("memory for two rows");
    ///     let (mut rows, mut given) = (0, reader.read(skip, 2, &mut batch)?);
    ///     while given > 0 {
    ///         rows += given as u64;
    ///         given = reader.read(0, 2, &mut batch)?;
    ///     }
    ///     Ok((reader.nulls(), rows, 2 * reader.nulls() > rows))
    /// };
    /// assert_eq!(is_thin(0)?, (3, 5, true));
    /// assert_eq!(is_thin(3)?, (1, 2, false)); // the nulls that were passed over aren't counted
    /// assert_eq!(is_thin(6), Err(Refusal::TooFar));
    /// # Ok::<(), Refusal>(())
    /// ```
    pub fn nulls(&self) -> u64 {
        self.record.nulls as u64
    }

    /// Passes over `skip` rows, then reads the next `size` rows, or as many as are left, and answers how many that are: 0 at the end.
    ///
    /// It does both or neither: a refused read leaves the reader before the rows that it was to pass over, and the batch with the rows
    /// that it had. Refused as [`Refusal::TooFar`] if `skip` is above the rows remaining, as [`Refusal::Room`] if the batch hasn't the
    /// memory for all rows to be given, and as [`Refusal::NoRows`] if `skip` and `size` are both 0. If `size` alone is 0, it only passes
    /// over rows, and the batch then has none.
    ///
    /// ```
    /// use idzulgar::{Batch, Column, Encoding, Kind, Reader, Refusal, Row};
    ///
    /// // i32, run-length: 7 7 7 -1
    /// let block = [2, 0, 0, 0, 2, 0, 0, 0, 3, 1, 7, 0, 0, 0, 255, 255, 255, 255];
    /// let mut reader = Reader::open(Column::new(Kind::I32, Encoding::RunLength), 4, &block[..])?;
    ///
    /// // a sheet wants the third row and the fourth, and has memory for one: it gets none, and the reader stands where it stood
    /// let mut short = Batch::new(Kind::I32, 1, 0).expect("memory for a row");
    /// assert_eq!(reader.read(2, 2, &mut short), Err(Refusal::Room));
    /// assert_eq!(reader.remaining()?, 4);
    ///
    /// // so it makes the same call again
    /// let mut batch = Batch::new(Kind::I32, 2, 0).expect("memory for two rows");
    /// assert_eq!(reader.read(2, 2, &mut batch)?, 2);
    /// assert_eq!(batch.iter().collect::<Vec<_>>(), [Row::Int(7), Row::Int(-1)]);
    /// assert_eq!(reader.read(1, 1, &mut batch), Err(Refusal::TooFar));
    /// # Ok::<(), Refusal>(())
    /// ```
    pub fn read(&mut self, skip: u64, size: usize, batch: &mut Batch) -> Result<usize, Refusal> {
        let skip = usize::try_from(skip).map_err(|_| Refusal::TooFar)?;
        let answer = calls::read(
            self.record,
            self.block.as_ref(),
            skip,
            size,
            &mut batch.values,
            &mut batch.flags,
            &mut batch.ends,
            &mut batch.bytes,
        );
        Refusal::check(answer.number)?;
        self.record = answer.reader;
        batch.rows = answer.rows;
        batch.kind = self.kind;
        Ok(answer.rows)
    }

    /// The rows that are left, one after the other. The first refusal is the last item.
    pub fn rows(self) -> Rows<B> {
        self.rows_after(0)
    }

    /// The rows behind the next `skip`, one after the other. The first refusal is the last item. Nothing is passed over before the first
    /// row is asked for; should fewer rows be left, the one item is then [`Refusal::TooFar`].
    ///
    /// ```
    /// use idzulgar::{Column, Encoding, Kind, Reader, Refusal, Value};
    ///
    /// // i16, nullable: 5 null -2
    /// let block = [5, 0, 0, 0, 0xFE, 0xFF, 5, 1, 0, 0, 0];
    /// let reader = Reader::open(Column::new(Kind::I16, Encoding::Nullable), 3, &block[..])?;
    /// let from = |skip| reader.clone().rows_after(skip).collect::<Result<Vec<Value>, Refusal>>();
    /// assert_eq!(from(1)?, [Value::Null, Value::Int(-2)]);
    /// assert_eq!(from(3)?, []);
    /// assert_eq!(from(4), Err(Refusal::TooFar));
    /// # Ok::<(), Refusal>(())
    /// ```
    pub fn rows_after(self, skip: u64) -> Rows<B> {
        Rows { reader: self, skip, batch: None, next: 0, over: false }
    }
}

/// The most bytes that one row can have: those of a whole block.
const ROW_BYTES: usize = 1 << 24;

/// Rows read ahead by an iterator, and the bytes that they are first given.
const AHEAD: usize = 256;
const AHEAD_BYTES: usize = 1 << 16;

/// The rows of a reader: see [`Reader::rows`] and [`Reader::rows_after`].
#[derive(Debug)]
pub struct Rows<B> {
    reader: Reader<B>,
    /// The rows that the first read passes over, however often it is tried; 0 after it.
    skip: u64,
    batch: Option<Batch>,
    next: usize,
    over: bool,
}

impl<B: AsRef<[u8]>> Rows<B> {
    /// Reads some rows ahead: fewer if they are long. A read that is refused hasn't moved, so the next one passes over the same rows.
    fn read_ahead(&mut self) -> Result<usize, Refusal> {
        let kind = self.reader.kind;
        let mut batch = match self.batch.take() {
            Some(batch) => batch,
            None => Batch::new(kind, AHEAD, AHEAD_BYTES).map_err(|_| Refusal::Room)?,
        };
        let mut size = batch.capacity();
        let given = loop {
            match self.reader.read(self.skip, size, &mut batch) {
                Err(Refusal::Room) if size > 1 => size /= 2,
                Err(Refusal::Room) if kind.is_bytes() && batch.bytes.len() < ROW_BYTES => {
                    batch = Batch::new(kind, AHEAD, ROW_BYTES).map_err(|_| Refusal::Room)?;
                    size = batch.capacity();
                }
                answer => break answer,
            }
        };
        self.batch = Some(batch);
        self.skip = 0;
        given
    }
}

impl<B: AsRef<[u8]>> Iterator for Rows<B> {
    type Item = Result<Value, Refusal>;

    fn next(&mut self) -> Option<Self::Item> {
        if self.over {
            return None;
        }
        if let Some(row) = self.batch.as_ref().and_then(|batch| batch.get(self.next)) {
            self.next += 1;
            return Some(Ok(row.into()));
        }
        match self.read_ahead() {
            Ok(0) => {
                self.over = true;
                None
            }
            Ok(_) => {
                self.next = 1;
                self.batch.as_ref().and_then(|batch| batch.get(0)).map(|row| Ok(row.into()))
            }
            Err(refusal) => {
                self.over = true;
                Some(Err(refusal))
            }
        }
    }
}

impl<B: AsRef<[u8]>> std::iter::FusedIterator for Rows<B> {}
