//! Why there is no answer.

use crate::library::Reply;
use std::error::Error;
use std::fmt;

/// Why there is no answer, and where the fault is.
///
/// An offset is that of the first byte of a line, counted from 0; [`Refusal::line`] finds the line.
/// Records and steps are counted from 1.
#[derive(Clone, Copy, Debug, PartialEq, Eq, Hash)]
#[non_exhaustive]
pub enum Refusal {
    /// The sheet is empty or has more than 65,536 bytes.
    SheetSize,
    /// The last byte is no line feed, or the last line is no T line that fits the sheet.
    Trailer,
    /// A line is malformed, or not of its group's letter.
    Malformed { offset: u64 },
    /// A field of a line is outside its range.
    OutOfRange { offset: u64 },
    /// A line does not stand strictly after the one before it in its group.
    OutOfOrder { offset: u64 },
    /// A Q line without its rule, or a rule whose penalty function has no point.
    WithoutPartner { offset: u64 },
    /// A line beyond the most that its group may have.
    BeyondMost { offset: u64 },
    /// The chain buffer has fewer entries than the sheet has candidates.
    ShortBuffer,
    /// The model allows no structure on this sheet.
    NoValidChain,
    /// The list sent in does not rise from 0 to the last candidate.
    NotAChain,
    /// The model forbids a step of the chain sent in: the first such.
    BreaksModel { step: u64 },
    /// A field of the region, or of what is asked about it, is outside its range.
    RegionOutOfRange,
    /// A field of a record is outside its range.
    RecordOutOfRange { record: u64 },
    /// A record does not stand strictly after the one before it.
    RecordOutOfOrder { record: u64 },
    /// A record beyond the 1,024 that there may be.
    RecordBeyondMost { record: u64 },
    /// A number that this crate does not know: the library is newer than the crate.
    Unknown { number: u64, place: u64 },
}

/// Whether a function that was lent a sheet refused it.
pub(crate) fn of_sheet(reply: &Reply) -> Result<(), Refusal> {
    let place = reply.place;
    Err(match reply.number {
        0 => return Ok(()),
        1 => Refusal::SheetSize,
        2 => Refusal::Trailer,
        3 => Refusal::Malformed { offset: place },
        4 => Refusal::OutOfRange { offset: place },
        5 => Refusal::OutOfOrder { offset: place },
        6 => Refusal::WithoutPartner { offset: place },
        7 => Refusal::BeyondMost { offset: place },
        8 => Refusal::ShortBuffer,
        9 => Refusal::NoValidChain,
        10 => Refusal::NotAChain,
        11 => Refusal::BreaksModel { step: place },
        number => Refusal::Unknown { number, place },
    })
}

/// Whether a function that was lent records refused them.
pub(crate) fn of_records(reply: &Reply) -> Result<(), Refusal> {
    let place = reply.place;
    Err(match reply.number {
        0 => return Ok(()),
        4 if place == 0 => Refusal::RegionOutOfRange,
        4 => Refusal::RecordOutOfRange { record: place },
        5 => Refusal::RecordOutOfOrder { record: place },
        7 => Refusal::RecordBeyondMost { record: place },
        number => Refusal::Unknown { number, place },
    })
}

impl Refusal {
    /// The number of the reply, as the scope has it.
    pub fn number(&self) -> u64 {
        match *self {
            Refusal::SheetSize => 1,
            Refusal::Trailer => 2,
            Refusal::Malformed { .. } => 3,
            Refusal::OutOfRange { .. }
            | Refusal::RegionOutOfRange
            | Refusal::RecordOutOfRange { .. } => 4,
            Refusal::OutOfOrder { .. } | Refusal::RecordOutOfOrder { .. } => 5,
            Refusal::WithoutPartner { .. } => 6,
            Refusal::BeyondMost { .. } | Refusal::RecordBeyondMost { .. } => 7,
            Refusal::ShortBuffer => 8,
            Refusal::NoValidChain => 9,
            Refusal::NotAChain => 10,
            Refusal::BreaksModel { .. } => 11,
            Refusal::Unknown { number, .. } => number,
        }
    }

    /// The place of the reply, in whatever it counts; 0 where there is none.
    pub fn place(&self) -> u64 {
        match *self {
            Refusal::BreaksModel { step } => step,
            Refusal::RecordOutOfRange { record }
            | Refusal::RecordOutOfOrder { record }
            | Refusal::RecordBeyondMost { record } => record,
            Refusal::Unknown { place, .. } => place,
            _ => self.offset().unwrap_or(0),
        }
    }

    /// Where in the sheet the line at fault begins, if a line is at fault.
    pub fn offset(&self) -> Option<u64> {
        match *self {
            Refusal::Malformed { offset }
            | Refusal::OutOfRange { offset }
            | Refusal::OutOfOrder { offset }
            | Refusal::WithoutPartner { offset }
            | Refusal::BeyondMost { offset } => Some(offset),
            _ => None,
        }
    }

    /// The line at fault, if there is one: its number, from 1, and its bytes without the line feed.
    /// The sheet is the one that was refused.
    ///
    /// ```
    /// let sheet = b"L 100\nF 2 101 5\nT 6 6 6 6 16\n";
    /// let refusal = liivokarp::score_chain(sheet, &[0, 2]).unwrap_err();
    /// assert_eq!(refusal.line(sheet), Some((2, &b"F 2 101 5"[..])));
    /// ```
    pub fn line<'sheet>(&self, sheet: &'sheet [u8]) -> Option<(usize, &'sheet [u8])> {
        let offset = usize::try_from(self.offset()?).ok()?;
        let before = sheet.get(..offset)?;
        let number = 1 + before.iter().filter(|&&byte| byte == b'\n').count();
        let line = sheet[offset..].split(|&byte| byte == b'\n').next()?;
        Some((number, line))
    }
}

impl fmt::Display for Refusal {
    fn fmt(&self, formatter: &mut fmt::Formatter) -> fmt::Result {
        match *self {
            Refusal::SheetSize => {
                formatter.write_str("the sheet is empty or has more than 65,536 bytes")
            }
            Refusal::Trailer => formatter.write_str(
                "the last line is not a T line whose five offsets say where the groups begin",
            ),
            Refusal::Malformed { offset } => write!(
                formatter,
                "the line at byte {offset} is malformed, or not of its group's letter"
            ),
            Refusal::OutOfRange { offset } => write!(
                formatter,
                "a field of the line at byte {offset} is outside its range"
            ),
            Refusal::OutOfOrder { offset } => write!(
                formatter,
                "the line at byte {offset} does not stand after the one before it in its group"
            ),
            Refusal::WithoutPartner { offset } => write!(
                formatter,
                "the line at byte {offset} is a Q line without its R line, \
                 or an R line whose penalty function has no P line"
            ),
            Refusal::BeyondMost { offset } => write!(
                formatter,
                "the line at byte {offset} is one more than its group may have"
            ),
            Refusal::ShortBuffer => formatter
                .write_str("the chain buffer has fewer entries than the sheet has candidates"),
            Refusal::NoValidChain => {
                formatter.write_str("the model allows no structure on this sheet")
            }
            Refusal::NotAChain => formatter
                .write_str("the list is no chain: it does not rise from 0 to the last candidate"),
            Refusal::BreaksModel { step } => {
                write!(formatter, "the model forbids step {step} of the chain")
            }
            Refusal::RegionOutOfRange => formatter.write_str("the region is outside its ranges"),
            Refusal::RecordOutOfRange { record } => {
                write!(formatter, "a field of record {record} is outside its range")
            }
            Refusal::RecordOutOfOrder { record } => write!(
                formatter,
                "record {record} does not stand after the one before it"
            ),
            Refusal::RecordBeyondMost { record } => {
                write!(formatter, "record {record} is one more than there may be")
            }
            Refusal::Unknown { number, place } => write!(
                formatter,
                "refused with {number} at place {place}, which this crate does not know"
            ),
        }
    }
}

impl Error for Refusal {}
