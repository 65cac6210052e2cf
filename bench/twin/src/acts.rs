//! Acts, the hazards between them, and stops.

use crate::files::FILES;
use crate::refusal::Refusal;

#[derive(Clone, Copy, Debug, PartialEq, Eq)]
pub enum Act {
    Read,
    Write,
}

/// An act as the log tells it.
#[derive(Clone, Copy, Debug, PartialEq, Eq)]
pub struct Entry {
    pub line: u8,
    pub act: Act,
    pub file: u8,
    pub number: u16,
}

#[derive(Clone, Copy, Debug, PartialEq, Eq)]
pub enum HazardKind {
    WriteWrite,
    ReadWrite,
    SpeculativeWriteRead,
}

impl HazardKind {
    pub const fn name(self) -> &'static str {
        match self {
            HazardKind::WriteWrite => "write-write",
            HazardKind::ReadWrite => "read-write",
            HazardKind::SpeculativeWriteRead => "speculative-write-read",
        }
    }
}

/// Two acts on one file whose order matters.
#[derive(Clone, Copy, Debug, PartialEq, Eq)]
pub struct Hazard {
    pub kind: HazardKind,
    pub earlier: Entry,
    pub later: Entry,
}

impl Hazard {
    pub const fn file(&self) -> u8 {
        self.later.file
    }
}

/// Why a run could not go on.
#[derive(Clone, Copy, Debug, PartialEq, Eq)]
pub enum StopGround {
    WriteTooLong,
    PoolFull,
    HazardMet(Hazard),
    FileAbsent,
    BadList,
}

/// Why and where a run could not go on.
#[derive(Clone, Copy, Debug, PartialEq, Eq)]
pub struct Stop {
    pub line: u8,
    pub ground: StopGround,
}

impl Stop {
    pub const fn refusal(&self) -> Refusal {
        match self.ground {
            StopGround::WriteTooLong => Refusal::WriteTooLong,
            StopGround::PoolFull => Refusal::PoolFull,
            StopGround::HazardMet(_) => Refusal::HazardMet,
            StopGround::FileAbsent => Refusal::FileAbsent,
            StopGround::BadList => Refusal::BadList,
        }
    }

    pub const fn number(&self) -> u8 {
        self.refusal().number()
    }

    pub const fn hazard(&self) -> Option<&Hazard> {
        match &self.ground {
            StopGround::HazardMet(hazard) => Some(hazard),
            _ => None,
        }
    }
}

/// The list of acts of a run, with the first read and the first write of each file at hand.
#[derive(Clone, Debug)]
pub(crate) struct Acts {
    entries: Vec<Entry>,
    first_reads: [Option<Entry>; FILES],
    first_writes: [Option<Entry>; FILES],
}

impl Acts {
    pub fn new() -> Self {
        Self {
            entries: Vec::new(),
            first_reads: [None; FILES],
            first_writes: [None; FILES],
        }
    }

    pub fn clear(&mut self) {
        self.entries.clear();
        self.first_reads = [None; FILES];
        self.first_writes = [None; FILES];
    }

    pub fn entries(&self) -> &[Entry] {
        &self.entries
    }

    /// Appends an act, and tells the hazard that it meets with those before it.
    pub fn enter(&mut self, entry: Entry) -> Option<Hazard> {
        let hazard = self.hazard(entry);
        let file = usize::from(entry.file);
        let firsts = match entry.act {
            Act::Read => &mut self.first_reads,
            Act::Write => &mut self.first_writes,
        };
        firsts[file].get_or_insert(entry);
        self.entries.push(entry);
        hazard
    }

    fn hazard(&self, later: Entry) -> Option<Hazard> {
        let file = usize::from(later.file);
        let (read, write) = (self.first_reads[file], self.first_writes[file]);
        let (kind, earlier) = match later.act {
            Act::Write => write
                .map(|entry| (HazardKind::WriteWrite, entry))
                .or(read.map(|entry| (HazardKind::ReadWrite, entry))),
            // A second write of a file stops the run, so the first write is the only one here.
            Act::Read => write
                .filter(|entry| entry.line > later.line)
                .map(|entry| (HazardKind::SpeculativeWriteRead, entry)),
        }?;
        Some(Hazard {
            kind,
            earlier,
            later,
        })
    }
}
