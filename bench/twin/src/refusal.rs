//! The refusals and their numbers.

use std::error::Error;
use std::fmt;

/// Why a call was refused or a run stopped.
#[derive(Clone, Copy, Debug, PartialEq, Eq, Hash)]
#[repr(u8)]
pub enum Refusal {
    TextTooLong = 1,
    BadTextLine = 2,
    BadLabel = 3,
    ScriptFull = 4,
    HaveTooLong = 5,
    ImageSize = 6,
    ImageLayout = 7,
    TraceLength = 11,
    TraceRule = 12,
    NoRoomToLoad = 13,
    SaveBufferShort = 14,
    NoSuchRecord = 15,
    ReportBufferShort = 16,
    RunOpen = 20,
    NoRoomToLay = 21,
    LogTooSmall = 22,
    BookTooSmall = 23,
    UnknownContent = 24,
    RunStopped = 26,
    LinesEnded = 27,
    LinesLeft = 28,
    NoRun = 29,
    WriteTooLong = 31,
    PoolFull = 32,
    HazardMet = 33,
    FileAbsent = 34,
    BadList = 35,
}

impl Refusal {
    pub const fn number(self) -> u8 {
        self as u8
    }
}

impl fmt::Display for Refusal {
    fn fmt(&self, f: &mut fmt::Formatter<'_>) -> fmt::Result {
        write!(f, "refused {}", self.number())
    }
}

impl Error for Refusal {}
