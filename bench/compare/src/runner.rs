//! What both runners are asked, and what they answer.

/// The policy that builds ask.
#[derive(Clone, Copy, Debug, PartialEq, Eq)]
pub enum Policy {
    ScriptOrder,
    LastRun,
    HighestFirst,
    Wishes,
}

/// The memory that is lent, and how builds are made.
#[derive(Clone, Copy, Debug)]
pub struct Setting {
    /// How often the second text is released.
    pub times: usize,
    /// Bytes and places of the pool.
    pub bytes: usize,
    pub places: usize,
    pub log: usize,
    pub book: usize,
    pub policy: Policy,
    pub patience: u8,
    /// The store is an image, and no table.
    pub image: bool,
}

impl Setting {
    /// The memory that `release` lends, and no second text.
    pub const RELEASE: Setting = Setting {
        times: 0,
        bytes: 65_536,
        places: 1_024,
        log: 1_088,
        book: 256,
        policy: Policy::LastRun,
        patience: 4,
        image: false,
    };
}

/// What reading a script comes to: the number of a refusal and its text line, or the counts.
#[derive(Clone, Copy, Debug, PartialEq, Eq)]
pub enum Read {
    Lines { lines: usize, haves: usize },
    Refused { number: u8, line: usize },
}

/// A runner, old or new.
pub trait Runner {
    /// Reads a script.
    fn script(&mut self, text: &[u8]) -> Read;

    /// The bytes that `release` prints for a text.
    fn release(&mut self, text: &[u8]) -> &[u8];

    /// Puts contents, each after its length in two bytes, into an empty pool; their numbers in two bytes each, 0 where
    /// the pool refuses.
    fn put(&mut self, list: &[u8], bytes: usize, places: usize) -> &[u8];

    /// Loads a trace file into an empty pool and book, audits every record, and saves.
    fn trace(&mut self, file: &[u8], setting: &Setting) -> Result<&[u8], u8>;

    /// Lays and builds the first text on fresh parts, then as often as the setting says the second on the same parts,
    /// each with a policy made anew. What the last build came to, in bytes: the number that it was refused with, that
    /// of its first stop, the lines executed and skipped, the files' numbers, the report, and the book as a trace file.
    fn builds(&mut self, first: &[u8], second: &[u8], setting: &Setting, wishes: &[u8]) -> &[u8];
}
