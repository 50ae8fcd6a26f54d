//! The numbers that come back (01, 'Numbers that come back').

use core::fmt;

use crate::ANSWER_SIZE;

/// Why a call did not do what it was asked to.
#[derive(Clone, Copy, Debug, PartialEq, Eq)]
pub enum Refusal {
    /// 1: an image is not 4,096 bytes.
    BadImage,
    /// 2: the record is not fit to use.
    BadRecord,
    /// 3: the page is in none of the states that the call takes.
    WrongState,
    /// 4: the type is none of the call's, or a payload item is for namespace 0.
    BadRequest,
    /// 5: the item would span more than 126 entries.
    ValueTooLong,
    /// 6: the item spans more entries than are free.
    PageFull,
    /// 7: the entry is all 0xFF, of an unknown type, or its CRC is wrong.
    KeyNotFound,
    /// 8: data or width was asked of another type, which it carries.
    ItemTypeMismatch(u8),
    /// 9: an index, a span or a size leaves the page, the output is too short, or the page does not open.
    CorruptedData,
    /// 10: erase names an entry that is not Written.
    NotWritten,
    /// 11: the call stopped as it was told to. The record is good for nothing now: open the page.
    Stopped,
    /// 255: a buffer has another length than it must. No function of this crate lends such a buffer.
    BadCall,
}

impl Refusal {
    pub fn number(self) -> u32 {
        match self {
            Refusal::BadImage => 1,
            Refusal::BadRecord => 2,
            Refusal::WrongState => 3,
            Refusal::BadRequest => 4,
            Refusal::ValueTooLong => 5,
            Refusal::PageFull => 6,
            Refusal::KeyNotFound => 7,
            Refusal::ItemTypeMismatch(_) => 8,
            Refusal::CorruptedData => 9,
            Refusal::NotWritten => 10,
            Refusal::Stopped => 11,
            Refusal::BadCall => 255,
        }
    }
}

impl fmt::Display for Refusal {
    fn fmt(&self, f: &mut fmt::Formatter<'_>) -> fmt::Result {
        write!(f, "{self:?}")
    }
}

impl core::error::Error for Refusal {}

/// What a number and the answer beside it say.
pub(crate) fn answered(number: u32, answer: &[u8; ANSWER_SIZE]) -> Result<(), Refusal> {
    Err(match number {
        0 => return Ok(()),
        1 => Refusal::BadImage,
        2 => Refusal::BadRecord,
        3 => Refusal::WrongState,
        4 => Refusal::BadRequest,
        5 => Refusal::ValueTooLong,
        6 => Refusal::PageFull,
        7 => Refusal::KeyNotFound,
        8 => Refusal::ItemTypeMismatch(answer[0]),
        9 => Refusal::CorruptedData,
        10 => Refusal::NotWritten,
        11 => Refusal::Stopped,
        _ => Refusal::BadCall,
    })
}
