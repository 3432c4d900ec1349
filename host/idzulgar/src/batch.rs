//! Memory for rows that are read.
use std::collections::TryReserveError;
use std::hash::{Hash, Hasher};

use crate::Kind;

/// Memory that some rows are read into, a batch, to be used again and again.
///
/// ```
/// use idzulgar::{Batch, Column, Encoding, Kind, Reader, Row};
///
/// // i16, nullable: 5 null -2
/// let block = [5, 0, 0, 0, 0xFE, 0xFF, 5, 1, 0, 0, 0];
/// let mut reader = Reader::open(Column::new(Kind::I16, Encoding::Nullable), 3, &block[..])?;
/// let mut batch = Batch::new(Kind::I16, 1024, 0).expect("memory for 1,024 rows");
/// assert_eq!(reader.read(0, 2, &mut batch)?, 2);
/// assert_eq!(batch.iter().collect::<Vec<_>>(), [Row::Int(5), Row::Null]);
/// assert_eq!(reader.read(0, 1024, &mut batch)?, 1);
/// assert_eq!(batch.get(0), Some(Row::Int(-2)));
/// assert_eq!(reader.read(0, 1024, &mut batch)?, 0);
/// # Ok::<(), idzulgar::Refusal>(())
/// ```
#[derive(Debug)]
pub struct Batch {
    pub(crate) values: Vec<i64>,
    pub(crate) flags: Vec<u8>,
    pub(crate) ends: Vec<u32>,
    pub(crate) bytes: Vec<u8>,
    pub(crate) rows: usize,
    pub(crate) kind: Kind,
}

/// A row of a batch. Rows are equal as in a block: floats exactly when their bits are.
///
/// ```
/// use idzulgar::Row;
///
/// assert_ne!(Row::F64(0.0), Row::F64(-0.0));
/// assert_eq!(Row::F64(f64::NAN), Row::F64(f64::NAN));
/// ```
#[derive(Clone, Copy, Debug)]
pub enum Row<'a> {
    /// No value.
    Null,
    /// A row of a fixed kind but [`Kind::F64`]; of that, a builder also takes the bits so.
    Int(i64),
    /// A row of char, blob or string: see [`Row::text`].
    Bytes(&'a [u8]),
    /// A row of [`Kind::F64`].
    F64(f64),
}

impl<'a> Row<'a> {
    /// The text of a row of char or string; nothing for a null, for a row of a fixed kind, and for bytes that aren't text.
    ///
    /// All rows of a sound block of these kinds are text. They are looked at here all the same: reading doesn't test text again, so a
    /// block that gives other bytes than it was opened with can give some that are none.
    ///
    /// ```
    /// use idzulgar::Row;
    ///
    /// assert_eq!(Row::Bytes(&[0xC3, 0xA9]).text(), Some("é"));
    /// assert_eq!(Row::from("é"), Row::Bytes(&[0xC3, 0xA9]));
    /// assert_eq!((Row::Bytes(&[0xC3]).text(), Row::Null.text(), Row::Int(7).text()), (None, None, None));
    /// ```
    pub fn text(self) -> Option<&'a str> {
        match self {
            Row::Bytes(bytes) => std::str::from_utf8(bytes).ok(),
            _ => None,
        }
    }

    /// The float of a row of [`Kind::F64`]; nothing for a null and for a row of any other kind.
    ///
    /// ```
    /// use idzulgar::Row;
    ///
    /// assert_eq!(Row::F64(0.0375).f64(), Some(0.0375));
    /// assert_eq!((Row::Null.f64(), Row::Int(4607182418800017408).f64()), (None, None));
    /// ```
    pub fn f64(self) -> Option<f64> {
        match self {
            Row::F64(value) => Some(value),
            _ => None,
        }
    }

    /// The row's sort, and its integer, bits or bytes: what tells it from others.
    fn told(&self) -> (u8, u64, &[u8]) {
        match self {
            Row::Null => (0, 0, &[]),
            Row::Int(value) => (1, *value as u64, &[]),
            Row::Bytes(bytes) => (2, 0, bytes),
            Row::F64(value) => (3, value.to_bits(), &[]),
        }
    }
}

impl<'a> From<&'a str> for Row<'a> {
    fn from(text: &'a str) -> Row<'a> {
        Row::Bytes(text.as_bytes())
    }
}

impl PartialEq for Row<'_> {
    fn eq(&self, other: &Self) -> bool {
        self.told() == other.told()
    }
}

impl Eq for Row<'_> {}

impl Hash for Row<'_> {
    fn hash<H: Hasher>(&self, state: &mut H) {
        self.told().hash(state);
    }
}

/// A row that owns its bytes, equal to others as a [`Row`] is.
#[derive(Clone, Debug)]
pub enum Value {
    /// No value.
    Null,
    /// A row of a fixed kind but [`Kind::F64`]; of that, a builder also takes the bits so.
    Int(i64),
    /// A row of char, blob or string: see [`Value::text`].
    Bytes(Vec<u8>),
    /// A row of [`Kind::F64`].
    F64(f64),
}

impl Value {
    /// The text of a row of char or string, as [`Row::text`] gives it.
    pub fn text(&self) -> Option<&str> {
        Row::from(self).text()
    }

    /// The float of a row of [`Kind::F64`]; nothing for a null and for a row of any other kind.
    pub fn f64(&self) -> Option<f64> {
        Row::from(self).f64()
    }
}

impl PartialEq for Value {
    fn eq(&self, other: &Self) -> bool {
        Row::from(self) == Row::from(other)
    }
}

impl Eq for Value {}

impl Hash for Value {
    fn hash<H: Hasher>(&self, state: &mut H) {
        Row::from(self).hash(state);
    }
}

impl From<Row<'_>> for Value {
    fn from(row: Row<'_>) -> Value {
        match row {
            Row::Null => Value::Null,
            Row::Int(value) => Value::Int(value),
            Row::Bytes(bytes) => Value::Bytes(bytes.to_vec()),
            Row::F64(value) => Value::F64(value),
        }
    }
}

impl<'a> From<&'a Value> for Row<'a> {
    fn from(value: &'a Value) -> Row<'a> {
        match value {
            Value::Null => Row::Null,
            Value::Int(value) => Row::Int(*value),
            Value::Bytes(bytes) => Row::Bytes(bytes),
            Value::F64(value) => Row::F64(*value),
        }
    }
}

/// So many zeros, or no memory for them.
pub(crate) fn zeros<T: Clone + Default>(count: usize) -> Result<Vec<T>, TryReserveError> {
    let mut all = Vec::new();
    all.try_reserve_exact(count)?;
    all.resize(count, T::default());
    Ok(all)
}

impl Batch {
    /// Memory for at most `rows` rows of a kind and, for char, blob and string, `bytes` bytes of them. It is set aside at once and never
    /// grows.
    pub fn new(kind: Kind, rows: usize, bytes: usize) -> Result<Self, TryReserveError> {
        let is_bytes = kind.is_bytes();
        let (fixed, variable) = if is_bytes { (0, rows) } else { (rows, 0) };
        Ok(Batch {
            values: zeros(fixed)?,
            flags: zeros(rows)?,
            ends: zeros(variable)?,
            bytes: zeros(if is_bytes { bytes } else { 0 })?,
            rows: 0,
            kind,
        })
    }

    /// How many rows the last read gave.
    pub fn len(&self) -> usize {
        self.rows
    }

    /// Whether the last read gave no rows.
    pub fn is_empty(&self) -> bool {
        self.rows == 0
    }

    /// How many rows there is memory for.
    pub fn capacity(&self) -> usize {
        self.flags.len()
    }

    /// A row of the last read.
    pub fn get(&self, place: usize) -> Option<Row<'_>> {
        if place >= self.rows {
            return None;
        }
        if *self.flags.get(place)? == 0 {
            return Some(Row::Null);
        }
        if !self.kind.is_bytes() {
            let value = *self.values.get(place)?;
            return Some(if self.kind == Kind::F64 { Row::F64(f64::from_bits(value as u64)) } else { Row::Int(value) });
        }
        let from = match place {
            0 => 0,
            _ => *self.ends.get(place - 1)? as usize,
        };
        let to = *self.ends.get(place)? as usize;
        Some(Row::Bytes(self.bytes.get(from..to)?))
    }

    /// The rows of the last read.
    pub fn iter(&self) -> impl Iterator<Item = Row<'_>> + '_ {
        (0..self.rows).map_while(|place| self.get(place))
    }

    /// One integer a row of a fixed kind, 0 for a null; that of a float is its bits.
    pub fn values(&self) -> &[i64] {
        self.values.get(..self.rows).unwrap_or(&[])
    }

    /// 1 for each row that is present, 0 for a null.
    pub fn flags(&self) -> &[u8] {
        self.flags.get(..self.rows).unwrap_or(&[])
    }
}
