//! Records: what a command did once.

use crate::command::{Command, Next};
use crate::engine::product;
use crate::files::FileStore;
use crate::pool::Pool;

/// A file and a content number.
#[derive(Clone, Copy, Debug, PartialEq, Eq)]
pub struct FileContent {
    pub file: u8,
    pub number: u16,
}

#[derive(Clone, Copy, Debug, PartialEq, Eq)]
pub enum Standing {
    /// It was loaded and nobody has looked.
    Hint,
    /// A kept run made it, or an audit found it true.
    Own,
    /// An audit found it untrue.
    Struck,
}

impl Standing {
    pub const fn name(self) -> &'static str {
        match self {
            Standing::Hint => "hint",
            Standing::Own => "own",
            Standing::Struck => "struck",
        }
    }
}

/// What a command did once: its reads in order and its write.
#[derive(Clone, Debug, PartialEq, Eq)]
pub struct Record {
    pub command: Command,
    pub reads: Vec<FileContent>,
    pub write: FileContent,
    pub standing: Standing,
}

impl Record {
    /// The reads in order and then the write.
    pub fn all(&self) -> impl Iterator<Item = FileContent> {
        self.reads.iter().copied().chain([self.write])
    }

    /// Whether every content number, the write's too, is in the pool.
    pub fn is_in(&self, pool: &Pool) -> bool {
        self.all().all(|part| pool.has(part.number))
    }

    /// Whether each file that was read has now the number recorded with that read.
    pub fn reads_match<S: FileStore + ?Sized>(&self, files: &S) -> bool {
        self.reads
            .iter()
            .all(|read| files.tell(read.file) == read.number)
    }

    /// Whether the command, given the recorded contents, reads and writes just what is recorded.
    pub fn is_true(&self, pool: &Pool) -> bool {
        self.is_in(pool) && self.asks_as_recorded(pool) && self.writes_as_recorded(pool)
    }

    fn asks_as_recorded(&self, pool: &Pool) -> bool {
        let first = self.reads.first();
        let first = first.and_then(|read| pool.content(read.number));
        let first = first.unwrap_or_default();
        let next = |made| self.command.next(made, first);
        let mut reads = self.reads.iter().enumerate();
        reads.all(|(made, read)| next(made) == Next::Read(read.file))
            && next(self.reads.len()) == Next::Write(self.write.file)
    }

    fn writes_as_recorded(&self, pool: &Pool) -> bool {
        product(&self.command, &self.reads, pool)
            .is_some_and(|product| pool.content(self.write.number) == Some(product.bytes(pool)))
    }
}
