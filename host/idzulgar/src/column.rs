//! Kinds, encodings, and their pairs.
use crate::calls::Descriptor;
use crate::Refusal;

/// What a column's rows are.
#[derive(Clone, Copy, Debug, PartialEq, Eq, Hash)]
pub enum Kind {
    /// 0 or 1; any nonzero stored byte reads as 1.
    Bool,
    /// 16 bits.
    I16,
    /// 32 bits.
    I32,
    /// 64 bits.
    I64,
    /// Days, 32 bits.
    Date,
    /// 64 bits.
    Timestamp,
    /// 64 bits.
    TimestampTz,
    /// Months and days, 32 bits each, as one integer: see [`Kind::interval`].
    Interval,
    /// Text of at most this many bytes, padded with NULs; read up to the first NUL. The width is 1 to 255: width 0 is refused when
    /// the column is used.
    Char(u8),
    /// Any bytes.
    Blob,
    /// Text (well-formed UTF-8), laid out as [`Kind::Blob`]: a block with an item that isn't text is refused as [`Refusal::Text`], an
    /// appended row as [`Refusal::Item`]. So it is with char.
    String,
    /// A float of 64 bits, kept and compared by its bits: 0.0 and -0.0 are two rows, and a NaN equals exactly those of the same bits.
    F64,
}

impl Kind {
    /// The months and days of an Interval's integer.
    ///
    /// ```
    /// assert_eq!(idzulgar::Kind::interval((14 << 32) + 0xFFFF_FFFD), (14, -3));
    /// ```
    pub fn interval(value: i64) -> (i32, i32) {
        ((value >> 32) as i32, value as i32)
    }

    /// Whether rows are bytes (char, blob and string) rather than one integer each.
    pub fn is_bytes(self) -> bool {
        matches!(self, Kind::Char(_) | Kind::Blob | Kind::String)
    }
}

/// How a block holds its rows.
#[derive(Clone, Copy, Debug, PartialEq, Eq, Hash)]
pub enum Encoding {
    /// Items one after another. A null is stored as the default.
    Plain,
    /// A plain block and a bitmap of presence.
    Nullable,
    /// Runs of equal rows over a plain block.
    RunLength,
    /// Runs of equal rows over a nullable block.
    RunLengthNullable,
    /// Each different row once, and runs of keys.
    Dictionary,
}

/// A kind and an encoding.
#[derive(Clone, Copy, Debug, PartialEq, Eq, Hash)]
pub struct Column {
    /// What the rows are.
    pub kind: Kind,
    /// How the block holds them.
    pub encoding: Encoding,
}

impl Column {
    /// A kind in an encoding.
    pub fn new(kind: Kind, encoding: Encoding) -> Self {
        Column { kind, encoding }
    }

    /// The column of a kind's, an encoding's and a width's number, as they stand in a block's metadata; the width is 0 for every
    /// kind but char.
    ///
    /// ```
    /// use idzulgar::{Column, Encoding, Kind, Refusal};
    /// assert_eq!(Column::numbered(8, 4, 16), Ok(Column::new(Kind::Char(16), Encoding::Dictionary)));
    /// assert_eq!(Column::numbered(8, 4, 256), Err(Refusal::Column));
    /// assert_eq!(Column::numbered(3, 0, 8), Err(Refusal::Column));
    /// assert_eq!(Column::numbered(10, 4, 0), Ok(Column::new(Kind::String, Encoding::Dictionary)));
    /// assert_eq!(Column::numbered(11, 0, 0), Ok(Column::new(Kind::F64, Encoding::Plain)));
    /// assert_eq!(Column::numbered(12, 0, 0), Err(Refusal::Column));
    /// ```
    pub fn numbered(kind: u64, encoding: u64, width: u64) -> Result<Self, Refusal> {
        let kind = match (kind, width) {
            (0, 0) => Kind::Bool,
            (1, 0) => Kind::I16,
            (2, 0) => Kind::I32,
            (3, 0) => Kind::I64,
            (4, 0) => Kind::Date,
            (5, 0) => Kind::Timestamp,
            (6, 0) => Kind::TimestampTz,
            (7, 0) => Kind::Interval,
            (8, 1..=255) => Kind::Char(width as u8),
            (9, 0) => Kind::Blob,
            (10, 0) => Kind::String,
            (11, 0) => Kind::F64,
            _ => return Err(Refusal::Column),
        };
        let encoding = match encoding {
            0 => Encoding::Plain,
            1 => Encoding::Nullable,
            2 => Encoding::RunLength,
            3 => Encoding::RunLengthNullable,
            4 => Encoding::Dictionary,
            _ => return Err(Refusal::Column),
        };
        Ok(Column { kind, encoding })
    }

    /// The numbers of the kind, the encoding and the width.
    pub fn numbers(self) -> (usize, usize, usize) {
        let (kind, width) = match self.kind {
            Kind::Bool => (0, 0),
            Kind::I16 => (1, 0),
            Kind::I32 => (2, 0),
            Kind::I64 => (3, 0),
            Kind::Date => (4, 0),
            Kind::Timestamp => (5, 0),
            Kind::TimestampTz => (6, 0),
            Kind::Interval => (7, 0),
            Kind::Char(width) => (8, usize::from(width)),
            Kind::Blob => (9, 0),
            Kind::String => (10, 0),
            Kind::F64 => (11, 0),
        };
        (kind, self.encoding as usize, width)
    }

    /// What a block of so many rows is opened by.
    pub(crate) fn descriptor(self, rows: u64) -> Descriptor {
        let (kind, encoding, width) = self.numbers();
        Descriptor { kind, encoding, width, zero: 0, rows: usize::try_from(rows).unwrap_or(usize::MAX) }
    }
}
