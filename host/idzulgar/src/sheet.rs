//! Sheet files: many columns in one file.
use crate::calls;
use crate::{Column, Reader, Refusal};

/// A sheet file: up to 64 columns, each a block with its kind, encoding and rows in a directory before the blocks.
///
/// Nothing is looked at for a column but its own entry in the directory and its own block: one that is damaged is refused, and every other
/// is read as if it weren't there. The file may be borrowed or owned, as a [`Reader`]'s block may; a column's reader borrows its part of
/// the file, and nothing is copied.
///
/// ```
/// use idzulgar::{write_sheet, Builder, Column, Encoding, Kind, Refusal, Row, Sheet, Value};
///
/// // two columns of one sheet, of four rows and of two
/// let (rates, names) = (Column::new(Kind::F64, Encoding::Dictionary), Column::new(Kind::String, Encoding::Plain));
/// let block = |column, rows: &[Row]| {
///     let mut builder = Builder::new(column, 4096)?;
///     rows.iter().try_for_each(|row| builder.append(*row))?;
///     builder.finish()
/// };
/// let rate_block = block(rates, &[Row::F64(0.0375), Row::Null, Row::F64(0.0375), Row::F64(0.041)])?;
/// let name_block = block(names, &["Zoë".into(), "Ann".into()])?;
/// let file = write_sheet(&[(rates, 4, &rate_block), (names, 2, &name_block)])?;
///
/// let sheet = Sheet::new(&file[..]);
/// assert_eq!(sheet.columns()?, 2);
/// let rows: Result<Vec<Value>, Refusal> = sheet.column(1)?.rows().collect();
/// assert_eq!(rows?, [Value::Bytes("Zoë".into()), Value::Bytes("Ann".into())]);
/// assert_eq!(sheet.column(2).unwrap_err(), Refusal::NoColumn);
///
/// // the last byte of a name is lost: that column isn't text any more, and the rates are as they were
/// let mut damaged = file.clone();
/// *damaged.last_mut().expect("a byte") = 0xFF;
/// let sheet = Sheet::new(damaged);
/// assert_eq!(sheet.column(1).unwrap_err(), Refusal::Text);
/// let mut rows = sheet.column(0)?.rows_after(2);
/// assert_eq!(rows.next(), Some(Ok(Value::F64(0.0375))));
/// # Ok::<(), Refusal>(())
/// ```
#[derive(Clone, Debug)]
pub struct Sheet<B> {
    file: B,
}

impl<B: AsRef<[u8]>> Sheet<B> {
    /// A sheet of any bytes. Nothing is looked at before a column is opened or the columns are counted.
    pub fn new(file: B) -> Self {
        Sheet { file }
    }

    /// The file.
    pub fn file(&self) -> &B {
        &self.file
    }

    /// The file, which the sheet kept.
    pub fn into_file(self) -> B {
        self.file
    }

    /// How many columns the file names: [`Sheet::column`] refuses those from this number on as [`Refusal::NoColumn`], and none below it so.
    ///
    /// What is no sheet file has no number of columns: above 16,777,216 bytes it is refused as [`Refusal::Limit`], with no byte at all,
    /// over 64 columns or a directory that is cut as [`Refusal::Sheet`]. [`Sheet::column`] refuses it just so, whatever the column.
    ///
    /// ```
    /// use idzulgar::{Refusal, Sheet};
    ///
    /// assert_eq!(Sheet::new([0]).columns(), Ok(0));
    /// assert_eq!(Sheet::new([]).columns(), Err(Refusal::Sheet));
    /// assert_eq!(Sheet::new([1; 16]).columns(), Err(Refusal::Sheet)); // the directory of one column has 17 bytes
    /// assert_eq!(Sheet::new([1; 17]).columns(), Ok(1)); // whatever they hold
    /// ```
    pub fn columns(&self) -> Result<usize, Refusal> {
        let file = self.file.as_ref();
        // no file has that column: if that isn't what it is refused for, the file as a whole is
        match Refusal::check(calls::sheet_open(file, usize::MAX).number) {
            Ok(()) | Err(Refusal::NoColumn) => Ok(file.first().map_or(0, |columns| usize::from(*columns))),
            Err(refusal) => Err(refusal),
        }
    }

    /// Opens a column, counted from 0: exactly a sound block that lies in the file behind its directory. The reader is the one that
    /// [`Reader::open`] gives for the block.
    ///
    /// Refused as [`Sheet::columns`] is, then as [`Refusal::NoColumn`] if there is no such column, as [`Refusal::Outside`] if its block
    /// begins before the directory's end or ends behind the file's, and then as [`Reader::open`] refuses the block.
    pub fn column(&self, column: usize) -> Result<Reader<&[u8]>, Refusal> {
        let file = self.file.as_ref();
        let found = calls::sheet_open(file, column);
        Refusal::check(found.number)?;
        let block = file.get(found.from..).and_then(|rest| rest.get(..found.len)).ok_or(Refusal::Outside)?;
        Reader::from_parts(block, found.reader)
    }
}

/// The most bytes that a sheet file can have: room for more would be of no use.
const FILE_BYTES: usize = 1 << 24;

/// The sheet file of some columns, each with the number of its rows and its block. It takes sound blocks only, and opens each to see.
///
/// Refused as [`Refusal::Sheet`] for over 64 columns; then as [`Reader::open`] refuses the first block that isn't sound; then as
/// [`Refusal::Limit`] if the file would be above 16,777,216 bytes. If there isn't the memory for the file and for a copy of the blocks, it
/// is [`Refusal::Room`].
///
/// ```
/// use idzulgar::{write_sheet, Column, Encoding, Kind, Refusal};
///
/// let amounts = Column::new(Kind::I16, Encoding::Plain);
/// let file = write_sheet(&[(amounts, 2, &[7, 0, 255, 255]), (amounts, 0, &[])])?;
/// assert_eq!(file[0], 2);
/// assert_eq!(file[1..17], [0x10, 0, 0, 0, 0, 0, 0, 2, 0, 0, 0, 33, 0, 0, 0, 4]);
/// assert_eq!(file[17..33], [0x10, 0, 0, 0, 0, 0, 0, 0, 0, 0, 0, 37, 0, 0, 0, 0]);
/// assert_eq!(file[33..], [7, 0, 255, 255]);
///
/// assert_eq!(write_sheet(&[(amounts, 2, &[7, 0, 255])]), Err(Refusal::Length));
/// # Ok::<(), Refusal>(())
/// ```
pub fn write_sheet(columns: &[(Column, u64, &[u8])]) -> Result<Vec<u8>, Refusal> {
    let (mut numbers, mut blocks) = (Vec::new(), Vec::new());
    for (column, rows, block) in columns {
        let (kind, encoding, width) = column.numbers();
        let rows = usize::try_from(*rows).unwrap_or(usize::MAX);
        numbers.try_reserve(5).map_err(|_| Refusal::Room)?;
        numbers.extend([kind, encoding, width, rows, block.len()]);
        blocks.try_reserve(block.len()).map_err(|_| Refusal::Room)?;
        blocks.extend_from_slice(block);
    }
    let most = blocks.len().saturating_add(1 + 16 * columns.len()).min(FILE_BYTES);
    let mut file = Vec::new();
    file.try_reserve_exact(most).map_err(|_| Refusal::Room)?;
    file.resize(most, 0);
    let answer = calls::sheet_write(&numbers, &blocks, &mut file);
    Refusal::check(answer.number)?;
    file.truncate(answer.len);
    Ok(file)
}
