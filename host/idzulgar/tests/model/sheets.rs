//! Sheet files, as document 02 has them under (ix): an entry's sixteen bytes, opening a column, and the file of some columns.
use idzulgar::Column;

use super::open_number;

/// The most bytes of a file, and the most columns.
pub const MOST_BYTES: usize = 16777216;
pub const MOST_COLUMNS: usize = 64;

/// Where the directory of so many columns ends.
pub fn directory_end(columns: usize) -> usize {
    1 + 16 * columns
}

/// A column's entry: the descriptor's five fields, and where the block lies.
#[derive(Clone, Copy, Debug, PartialEq)]
pub struct Entry {
    pub kind: u64,
    pub encoding: u64,
    pub width: u64,
    pub zero: u64,
    pub rows: u64,
    pub offset: u64,
    pub length: u64,
}

impl Entry {
    /// The entry of a column whose block lies at a place.
    pub fn new(column: Column, rows: u64, offset: usize, length: usize) -> Entry {
        let (kind, encoding, width) = column.numbers();
        let [kind, encoding, width] = [kind, encoding, width].map(|number| number as u64);
        Entry { kind, encoding, width, zero: 0, rows, offset: offset as u64, length: length as u64 }
    }

    /// The fields in order, each with its bits.
    fn fields(&mut self) -> [(&mut u64, u32); 7] {
        let Entry { kind, encoding, width, zero, rows, offset, length } = self;
        [(kind, 4), (encoding, 3), (width, 8), (zero, 1), (rows, 48), (offset, 32), (length, 32)]
    }

    /// Sixteen bytes are 128 bits, the most significant first.
    pub fn of(bytes: &[u8]) -> Entry {
        let mut entry = Entry { kind: 0, encoding: 0, width: 0, zero: 0, rows: 0, offset: 0, length: 0 };
        let mut bits = (0..128).map(|bit| (bytes[bit / 8] >> (7 - bit % 8) & 1) as u64);
        for (field, count) in entry.fields() {
            *field = bits.by_ref().take(count as usize).fold(0, |number, bit| 2 * number + bit);
        }
        entry
    }

    pub fn bytes(mut self) -> Vec<u8> {
        let mut all = 0u128;
        for (field, count) in self.fields() {
            all = all << count | (*field as u128 & ((1 << count) - 1));
        }
        all.to_be_bytes().to_vec()
    }

    /// Entry j of a file that has it.
    pub fn at(file: &[u8], j: usize) -> Entry {
        Entry::of(&file[directory_end(j)..directory_end(j + 1)])
    }

    /// Its column, if it is one of the pairs and the zero bit isn't set.
    pub fn column(&self) -> Option<Column> {
        Column::numbered(self.kind, self.encoding, self.width).ok().filter(|_| self.zero == 0)
    }
}

/// Opening's number by the numbers of a descriptor.
fn described_number(column: Option<Column>, rows: u64, block: &[u8]) -> u8 {
    column.map_or(1, |column| open_number(column, rows, block))
}

/// How many columns a file has, or why it is none.
pub fn columns(file: &[u8]) -> Result<usize, u8> {
    if file.len() > MOST_BYTES {
        return Err(3);
    }
    match file.first() {
        None => Err(21),
        Some(columns) if *columns as usize > MOST_COLUMNS => Err(21),
        Some(columns) if file.len() < directory_end(*columns as usize) => Err(21),
        Some(columns) => Ok(*columns as usize),
    }
}

/// What column j is, or its number: its entry and its block.
pub fn found(file: &[u8], j: usize) -> Result<(Entry, &[u8]), u8> {
    let columns = columns(file)?;
    if j >= columns {
        return Err(20);
    }
    let entry = Entry::at(file, j);
    if entry.offset < directory_end(columns) as u64 || entry.offset + entry.length > file.len() as u64 {
        return Err(22);
    }
    let block = &file[entry.offset as usize..][..entry.length as usize];
    match described_number(entry.column(), entry.rows, block) {
        0 => Ok((entry, block)),
        number => Err(number),
    }
}

/// A column as it is filed: the number of its rows, and its block.
#[derive(Clone, Debug, PartialEq)]
pub struct Filed {
    pub column: Column,
    pub rows: u64,
    pub block: Vec<u8>,
}

/// The file of some columns: the blocks lie straight behind the directory, in column order.
pub fn file_of(columns: &[Filed]) -> Vec<u8> {
    let mut file = vec![columns.len() as u8];
    let mut offset = directory_end(columns.len());
    for filed in columns {
        file.extend(Entry::new(filed.column, filed.rows, offset, filed.block.len()).bytes());
        offset += filed.block.len();
    }
    columns.iter().for_each(|filed| file.extend(&filed.block));
    file
}

/// What the writer is lent for some columns: five numbers a column, and the blocks one after another.
pub fn lent(columns: &[Filed]) -> (Vec<usize>, Vec<u8>) {
    let (mut numbers, mut blocks) = (Vec::new(), Vec::new());
    for filed in columns {
        let (kind, encoding, width) = filed.column.numbers();
        numbers.extend([kind, encoding, width, filed.rows as usize, filed.block.len()]);
        blocks.extend(&filed.block);
    }
    (numbers, blocks)
}

/// The file that the writer writes into so much room, or its number.
pub fn written(numbers: &[usize], blocks: &[u8], room: usize) -> Result<Vec<u8>, u8> {
    let fives = numbers.chunks_exact(5);
    if !fives.remainder().is_empty() || fives.len() > MOST_COLUMNS {
        return Err(21);
    }
    let (mut columns, mut rest) = (Vec::new(), blocks);
    for five in fives {
        if five[4] > rest.len() {
            return Err(10);
        }
        let (block, behind) = rest.split_at(five[4]);
        let column = Column::numbered(five[0] as u64, five[1] as u64, five[2] as u64).ok();
        match described_number(column, five[3] as u64, block) {
            0 => columns.extend(column.map(|column| Filed { column, rows: five[3] as u64, block: block.to_vec() })),
            number => return Err(number),
        }
        rest = behind;
    }
    let file = file_of(&columns);
    if file.len() > MOST_BYTES {
        return Err(3);
    }
    if file.len() > room {
        return Err(4);
    }
    Ok(file)
}
