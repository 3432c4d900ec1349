//! The night run for blocks of up to 16,777,216 bytes: asks both engines for rows of many files, and prints whether they agree. The program
//! `night` does it for files of at most 65,536 bytes, and is proved; its lines are printed here too.
//!
//!     cargo run --release --example night < LIST
//!
//! Standard input has the files' names, a line each; an empty line is passed over. A file is a descriptor's eight bytes and a block; a line
//! `sheet NAME` names a sheet file (a file whose own name begins so is named by its path, `./sheet NAME`).
//!
//! Each file has a line on standard output, and of a sheet file each column, with its number, counted from 0, behind the name: `same` and how
//! many rows were compared, `refused` and the number, if both engines refuse it so or its length or its entry is refused before they are asked,
//! or `differs` and the first row that does, 0 for a refusal that the other hasn't. All rows are compared if they are at most 2,000, else the
//! first 1,000, the last 1,000 and those whose numbers are powers of two. A sheet file that has no directory has one line, one of no columns has
//! none. The last line says how many files there were, and how many of them differ: it is there only if the list was read to its end.
//!
//! A file that can't be read counts as no bytes, and the reason goes to standard error; so does, after each hundred files, how many there were
//! and how many of them differ. The exit status is 0 if no file differs, 1 if one does, and 2 if the list couldn't be read to its end or a line
//! couldn't be printed.
use std::ffi::OsStr;
use std::fmt::{Display, Formatter};
use std::fs::File;
use std::io::{self, BufRead, Read, Write};
use std::os::unix::ffi::OsStrExt;
use std::process::ExitCode;

use idzulgar::calls::{self, Descriptor, ReaderRecord};
use idzulgar::{Column, Kind, Refusal, Sheet};

/// The most bytes of a block, and those of the descriptor before it.
const MOST_BYTES: usize = 1 << 24;
const HEAD: usize = 8;

/// The rows at either end that are compared of a column of more than twice as many.
const ENDS: usize = 1_000;

/// What lent memory is filled with: no flag.
const FILL: u8 = 0xAA;

/// The most bytes of a line that are kept, as the program keeps them: `sheet ` and one byte more than the longest name that a file can have.
const MOST_LINE: usize = 4_102;

/// What comes of a comparison: so many rows are the same; both refuse the block, by this number; or they differ, first at this row.
#[derive(Clone, Copy, Debug, PartialEq, Eq)]
pub enum Verdict {
    Same(usize),
    Refused(u8),
    Differs(usize),
}

impl Display for Verdict {
    fn fmt(&self, f: &mut Formatter<'_>) -> std::fmt::Result {
        match self {
            Verdict::Same(rows) => write!(f, "same {rows}"),
            Verdict::Refused(number) => write!(f, "refused {number}"),
            Verdict::Differs(row) => write!(f, "differs {row}"),
        }
    }
}

/// What a call is lent: two slots of each area, and a byte more than any row has.
#[derive(PartialEq)]
struct Areas {
    values: [i64; 2],
    flags: [u8; 2],
    ends: [u32; 2],
    bytes: Vec<u8>,
}

impl Areas {
    fn new(bytes: usize) -> Areas {
        Areas { values: [FILL.into(); 2], flags: [FILL; 2], ends: [FILL.into(); 2], bytes: vec![FILL; bytes] }
    }

    fn fill(&mut self) {
        (self.values, self.flags, self.ends) = ([FILL.into(); 2], [FILL; 2], [FILL.into(); 2]);
        self.bytes.fill(FILL);
    }
}

/// A block, what it is opened by, and the memory that each engine is lent.
struct Compared<'a> {
    descriptor: Descriptor,
    block: &'a [u8],
    one: Areas,
    other: Areas,
}

impl<'a> Compared<'a> {
    fn new(descriptor: Descriptor, block: &'a [u8]) -> Self {
        let Descriptor { kind, encoding, width, .. } = descriptor;
        let most = match Column::numbered(kind as u64, encoding as u64, width as u64).map(|column| column.kind) {
            Ok(Kind::Blob | Kind::String) => block.len(),
            Ok(Kind::Char(width)) => usize::from(width),
            _ => 0,
        };
        Compared { descriptor, block, one: Areas::new(most + 1), other: Areas::new(most + 1) }
    }

    /// Asks the second engine for a row: its number, and the bytes written.
    fn ask(&mut self, row: usize) -> (u8, usize) {
        let Areas { values, flags, ends, bytes } = &mut self.other;
        let given = calls::row(self.descriptor, self.block, row, values, flags, ends, bytes);
        (given.number, given.bytes)
    }

    /// Whether a reader that has given nothing yet and the second engine give a row alike: number, bytes and every lent slot.
    fn is_same(&mut self, reader: ReaderRecord, row: usize) -> bool {
        self.one.fill();
        self.other.fill();
        let Areas { values, flags, ends, bytes } = &mut self.one;
        let read = calls::read(reader, self.block, row, 1, values, flags, ends, bytes);
        let rows = usize::from(read.number == 0);
        self.ask(row) == (read.number, read.bytes) && read.rows == rows && self.one == self.other
    }

    /// Whether the second engine refuses row 0 by this number, with no bytes, and leaves all that it was lent.
    fn is_refused(&mut self, number: u8) -> bool {
        self.ask(0) == (number, 0) && self.one == self.other
    }

    /// What comes of a block that the first engine opened with this number. Of no rows the second has none to give, and says so.
    fn verdict(mut self, number: u8, reader: ReaderRecord) -> Verdict {
        let rows = self.descriptor.rows;
        if number == 0 && rows > 0 {
            let differs = chosen(rows).find(|row| !self.is_same(reader, *row));
            return differs.map_or_else(|| Verdict::Same(chosen(rows).count()), Verdict::Differs);
        }
        let (due, verdict) = match number {
            0 => (Refusal::TooFar.number(), Verdict::Same(0)),
            _ => (number, Verdict::Refused(number)),
        };
        if self.is_refused(due) {
            verdict
        } else {
            Verdict::Differs(0)
        }
    }
}

/// Which of so many rows are compared: all up to 2,000, else the first 1,000, the powers of two between, and the last 1,000.
pub fn chosen(rows: usize) -> impl Iterator<Item = usize> {
    let (low, high) = if rows <= 2 * ENDS { (rows, rows) } else { (ENDS, rows - ENDS) };
    let powers = (0..usize::BITS).map(|power| 1 << power).filter(move |row| (low..high).contains(row));
    (0..low).chain(powers).chain(high..rows)
}

/// The fields of eight bytes, the most significant bit first.
fn descriptor_of(bytes: [u8; HEAD]) -> Descriptor {
    let all = u64::from_be_bytes(bytes);
    let field = |from: u32, bits: u32| (all >> from & ((1 << bits) - 1)) as usize;
    Descriptor { kind: field(60, 4), encoding: field(57, 3), width: field(49, 8), zero: field(48, 1), rows: field(0, 48) }
}

/// A file of a descriptor and a block. It is refused first by its length.
pub fn file_verdict(file: &[u8]) -> Verdict {
    let Some((head, block)) = file.split_first_chunk() else { return Verdict::Refused(Refusal::Cut.number()) };
    if block.len() > MOST_BYTES {
        return Verdict::Refused(Refusal::Limit.number());
    }
    let descriptor = descriptor_of(*head);
    let Descriptor { kind, encoding, width, zero, rows } = descriptor;
    let opening = calls::open(kind, encoding, width, rows, block);
    let number = if zero == 0 { opening.number } else { Refusal::Column.number() };
    Compared::new(descriptor, block).verdict(number, opening.reader)
}

/// The columns of a sheet file one by one, or its refusal as a whole.
pub fn sheet_verdicts(file: &[u8]) -> Result<impl Iterator<Item = Verdict> + '_, Refusal> {
    let columns = Sheet::new(file).columns()?;
    Ok((0..columns).map(move |column| column_verdict(file, columns, column)))
}

/// A column of a sheet file. Where its entry names bytes outside the file's blocks the second engine isn't asked.
fn column_verdict(file: &[u8], columns: usize, column: usize) -> Verdict {
    let found = calls::sheet_open(file, column);
    match (entry(file, columns, column), found.number == Refusal::Outside.number()) {
        (Some((descriptor, block)), false) => Compared::new(descriptor, block).verdict(found.number, found.reader),
        (None, true) => Verdict::Refused(found.number),
        _ => Verdict::Differs(0),
    }
}

/// What a column's entry names: its descriptor and its block; nothing if that isn't behind the directory and in the file.
fn entry(file: &[u8], columns: usize, column: usize) -> Option<(Descriptor, &[u8])> {
    let (head, rest) = file.get(1 + 16 * column..)?.split_first_chunk()?;
    let (offset, rest) = rest.split_first_chunk()?;
    let (len, _) = rest.split_first_chunk()?;
    let [offset, len] = [offset, len].map(|field| u32::from_be_bytes(*field) as usize);
    let block = file.get(offset..)?.get(..len)?;
    (offset > 16 * columns).then_some((descriptor_of(*head), block))
}

/// A file whole, or as much of it as tells that it is too long; no bytes where it can't be read, and then the reason is said.
fn read_file(name: &[u8], said: &mut impl Write) -> Vec<u8> {
    let mut file = Vec::new();
    let most = (HEAD + MOST_BYTES + 1) as u64;
    let read = File::open(OsStr::from_bytes(name)).and_then(|opened| opened.take(most).read_to_end(&mut file));
    if let Err(reason) = read {
        say(said, format_args!("{}: {reason}", String::from_utf8_lossy(name)));
        file.clear();
    }
    file
}

/// A line on the way. The run goes on if it can't be written.
fn say(said: &mut impl Write, line: impl Display) {
    _ = writeln!(said, "{line}");
}

/// Prints what is due behind a name, and tells whether it differs.
fn print(out: &mut impl Write, name: &[u8], verdict: Verdict) -> io::Result<bool> {
    out.write_all(name)?;
    writeln!(out, " {verdict}")?;
    Ok(matches!(verdict, Verdict::Differs(_)))
}

/// Compares the file that a line names, prints its lines, and tells whether one differs.
fn compare_line(line: &[u8], out: &mut impl Write, said: &mut impl Write) -> io::Result<bool> {
    let Some(name) = line.strip_prefix(b"sheet ") else { return print(out, line, file_verdict(&read_file(line, said))) };
    let file = read_file(name, said);
    let mut differs = false;
    match sheet_verdicts(&file) {
        Ok(verdicts) => {
            for (column, verdict) in verdicts.enumerate() {
                differs |= print(out, &[name, format!(" {column}").as_bytes()].concat(), verdict)?;
            }
        }
        Err(refusal) => _ = print(out, name, Verdict::Refused(refusal.number()))?,
    }
    Ok(differs)
}

/// How many files there were, and how many of them differ.
#[derive(Clone, Copy, Debug, Default, PartialEq, Eq)]
pub struct Tally {
    pub files: u64,
    pub differs: u64,
}

impl Display for Tally {
    fn fmt(&self, f: &mut Formatter<'_>) -> std::fmt::Result {
        write!(f, "files {} differs {}", self.files, self.differs)
    }
}

/// Compares the files of a list: the lines go to `out`, and what is said on the way to `said`.
pub fn compare_all(list: impl BufRead, out: &mut impl Write, said: &mut impl Write) -> io::Result<Tally> {
    let mut tally = Tally::default();
    for line in list.split(b'\n') {
        let mut line = line?;
        line.truncate(MOST_LINE);
        if line.is_empty() {
            continue;
        }
        tally.differs += u64::from(compare_line(&line, out, said)?);
        tally.files += 1;
        if tally.files % 100 == 0 {
            say(said, tally);
        }
    }
    writeln!(out, "{tally}")?;
    Ok(tally)
}

#[allow(dead_code)]
fn main() -> ExitCode {
    let said = &mut io::stderr();
    match compare_all(io::stdin().lock(), &mut io::stdout().lock(), said) {
        Ok(tally) => ExitCode::from(u8::from(tally.differs > 0)),
        Err(reason) => {
            say(said, format_args!("the list ends here: {reason}"));
            ExitCode::from(2)
        }
    }
}
