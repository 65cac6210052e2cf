//! The log: the entries of a run, and the open run itself.

use crate::ACTS_PER_LINE;
use crate::acts::{Entry, Stop};
use crate::command::Command;
use crate::engine::{Line, LineState, Progress};
use crate::files::{FILES, FileStore};
use crate::pool::Pool;

#[derive(Clone, Debug)]
pub struct Log {
    places: usize,
    pub(crate) progress: Progress,
    files_found: [u16; FILES],
    extent_found: usize,
    pub(crate) stop: Option<Stop>,
    open: bool,
}

impl Log {
    pub fn new(places: usize) -> Self {
        Self {
            places,
            progress: Progress::new(),
            files_found: [0; FILES],
            extent_found: 0,
            stop: None,
            open: false,
        }
    }

    pub fn places(&self) -> usize {
        self.places
    }

    pub fn entries(&self) -> &[Entry] {
        self.progress.entries()
    }

    /// Whether a run is open.
    pub fn is_open(&self) -> bool {
        self.open
    }

    /// The stop of the run, if it has stopped.
    pub fn stop(&self) -> Option<&Stop> {
        self.stop.as_ref()
    }

    /// The commands of the run.
    pub fn commands(&self) -> impl ExactSizeIterator<Item = &Command> {
        self.progress.lines().iter().map(Line::command)
    }

    /// The states of the lines of the run.
    pub fn states(&self) -> impl ExactSizeIterator<Item = LineState> {
        self.progress.lines().iter().map(Line::state)
    }

    /// The numbers of the files that begin found.
    pub fn files_found(&self) -> &[u16; FILES] {
        &self.files_found
    }

    /// The extent of the pool that begin found.
    pub fn extent_found(&self) -> usize {
        self.extent_found
    }

    pub(crate) fn has_room_for(&self, lines: usize) -> bool {
        self.places >= ACTS_PER_LINE * lines
    }

    pub(crate) fn open<S: FileStore + ?Sized>(
        &mut self,
        commands: &[Command],
        files: &S,
        pool: &Pool,
    ) {
        self.files_found = numbers_of(files);
        self.extent_found = pool.extent();
        self.progress.start(commands);
        self.stop = None;
        self.open = true;
    }

    /// Opens a second run with what the log noted for the first.
    pub(crate) fn open_again(&mut self) {
        self.progress.start_again();
        self.stop = None;
        self.open = true;
    }

    pub(crate) fn shut(&mut self) {
        self.open = false;
    }

    /// Sets files and pool to what begin found.
    pub(crate) fn put_back<S: FileStore + ?Sized>(&self, files: &mut S, pool: &mut Pool) {
        for (file, &number) in (0..).zip(&self.files_found) {
            files.set(file, number);
        }
        pool.cut_back(self.extent_found);
    }
}

pub(crate) fn numbers_of<S: FileStore + ?Sized>(files: &S) -> [u16; FILES] {
    std::array::from_fn(|file| files.tell(file as u8))
}
