//! Why a call was refused.
use std::error::Error;
use std::fmt::{Display, Formatter};

/// Why a call was refused. Nothing has changed then: neither the reader nor lent memory.
#[derive(Clone, Copy, Debug, PartialEq, Eq, Hash)]
#[non_exhaustive]
pub enum Refusal {
    /// 1: kind, encoding or width is not one of the pairs; of a block to be salvaged, the encoding is not dictionary.
    Column,
    /// 2: an appended item doesn't fit its kind: an integer outside it, a char row longer than the width, a char or string row that isn't
    /// text.
    Item,
    /// 3: a limit is passed.
    Limit,
    /// 4: lent room is too short for the whole answer.
    Room,
    /// 6: nothing asked for: a read that passes over no rows and gives none.
    NoRows,
    /// 7: more rows to pass over than remain; no such row ([`row`](crate::row())).
    TooFar,
    /// 9: the record and the lent memory disagree.
    Disagree,
    /// 10: the block is cut.
    Cut,
    /// 11: a length is wrong.
    Length,
    /// 12: a run count is cut, too large or longer than needed.
    Varint,
    /// 13: a run count is 0, or the counts don't fill their section.
    Counts,
    /// 14: the end of a blob or string falls or passes the data.
    Ends,
    /// 15: a dictionary key names no entry; [`salvage`](crate::salvage) gives the other rows back.
    Key,
    /// 16: the run counts don't add up to the rows.
    Sum,
    /// 17: a stored char or string item isn't text.
    Text,
    /// 20: the sheet file has no such column.
    NoColumn,
    /// 21: the sheet file is empty, has over 64 columns, or is cut in its directory; to be written, it would have over 64, or the list of
    /// their numbers is cut.
    Sheet,
    /// 22: a sheet file's block begins before the directory's end or ends behind the file's.
    Outside,
    /// 25: two columns to be compared differ in their kinds or in their widths.
    Unlike,
    /// A number that this version doesn't know.
    Other(u8),
}

/// Each refusal with its number and what it means.
const TABLE: [(u8, Refusal, &str); 19] = [
    (1, Refusal::Column, "kind, encoding or width is not one of the pairs"),
    (2, Refusal::Item, "the item doesn't fit its kind"),
    (
        3,
        Refusal::Limit,
        "a limit is passed (rows 281474976710655, stored items or runs 1048576, entries 65536, block or sheet file 16777216 bytes)",
    ),
    (4, Refusal::Room, "lent room is too short for the whole answer"),
    (6, Refusal::NoRows, "nothing asked for: a read that passes over no rows and gives none"),
    (7, Refusal::TooFar, "more rows to pass over than remain, or no such row"),
    (9, Refusal::Disagree, "the record and the lent memory disagree"),
    (10, Refusal::Cut, "the block is cut"),
    (11, Refusal::Length, "a length in the block is wrong"),
    (12, Refusal::Varint, "a run count is cut, too large or longer than needed"),
    (13, Refusal::Counts, "a run count is 0, or the run counts don't fill their section"),
    (14, Refusal::Ends, "the end of a blob or string falls or passes the data"),
    (15, Refusal::Key, "a dictionary key names no entry"),
    (16, Refusal::Sum, "the run counts don't add up to the rows"),
    (17, Refusal::Text, "a char or string item isn't text"),
    (20, Refusal::NoColumn, "the sheet file has no such column"),
    (21, Refusal::Sheet, "the sheet file is empty, has over 64 columns, or is cut in its directory"),
    (22, Refusal::Outside, "a block of the sheet file begins before the directory's end or ends behind the file's"),
    (25, Refusal::Unlike, "the columns differ in their kinds or in their widths"),
];

impl Refusal {
    /// What a number means: 0 is no refusal.
    ///
    /// ```
    /// use idzulgar::Refusal;
    /// assert_eq!(Refusal::check(0), Ok(()));
    /// assert_eq!(Refusal::check(15), Err(Refusal::Key));
    /// ```
    pub fn check(number: u8) -> Result<(), Refusal> {
        if number == 0 {
            return Ok(());
        }
        let known = TABLE.iter().find(|line| line.0 == number);
        Err(known.map_or(Refusal::Other(number), |line| line.1))
    }

    /// The refusal's number.
    pub fn number(self) -> u8 {
        match self {
            Refusal::Other(number) => number,
            _ => self.line().0,
        }
    }

    fn line(self) -> (u8, &'static str) {
        let known = TABLE.iter().find(|line| line.1 == self);
        known.map_or((0, "an unknown refusal"), |line| (line.0, line.2))
    }
}

impl Display for Refusal {
    fn fmt(&self, f: &mut Formatter<'_>) -> std::fmt::Result {
        write!(f, "{} (refusal {})", self.line().1, self.number())
    }
}

impl Error for Refusal {}
