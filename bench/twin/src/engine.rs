//! The engine: lines carried out one act or one skip at a time.

use crate::acts::{Act, Acts, Entry, Stop, StopGround};
use crate::command::{Command, Kind, List, Next};
use crate::files::FileStore;
use crate::policy::LineSet;
use crate::pool::{CONTENT_CAP, Pool};
use crate::record::{FileContent, Record, Standing};

/// How far a line has come.
#[derive(Clone, Copy, Debug, PartialEq, Eq)]
pub enum LineState {
    Waiting,
    Reading,
    Writing,
    Ended,
}

/// What a line writes.
pub(crate) enum Product {
    /// A content that the line has read.
    Read(u16),
    Four([u8; 4]),
    Joined(Vec<u8>),
}

impl Product {
    /// The bytes to write. A number that is not in the pool stands for the empty content.
    pub fn bytes<'a>(&'a self, pool: &'a Pool) -> &'a [u8] {
        match self {
            Product::Read(number) => bytes_of(*number, pool),
            Product::Four(bytes) => bytes,
            Product::Joined(bytes) => bytes,
        }
    }

    fn put(&self, pool: &mut Pool) -> Result<u16, StopGround> {
        let put = match self {
            Product::Read(number) if pool.has(*number) => return Ok(*number),
            Product::Read(_) => pool.put(&[]),
            Product::Four(bytes) => pool.put(bytes),
            Product::Joined(bytes) => pool.put(bytes),
        };
        put.map_err(|_| StopGround::PoolFull)
    }
}

/// What a command writes after all its reads; none if that is too long.
pub(crate) fn product(command: &Command, reads: &[FileContent], pool: &Pool) -> Option<Product> {
    let length = |read: &FileContent| bytes_of(read.number, pool).len();
    match (command.kind, reads) {
        (Kind::Copy, [read]) | (Kind::Choose, [_, read]) => Some(Product::Read(read.number)),
        (Kind::Tally, [read]) => Some(Product::Four((length(read) as u32 / 64).to_be_bytes())),
        (Kind::Check, [one, other]) => {
            let same = bytes_of(one.number, pool) == bytes_of(other.number, pool);
            Some(Product::Four(if same { *b"same" } else { *b"diff" }))
        }
        (Kind::Gather, [_, listed @ ..]) => joined(listed, pool),
        _ => joined(reads, pool),
    }
}

fn joined(reads: &[FileContent], pool: &Pool) -> Option<Product> {
    let contents = reads.iter().map(|read| bytes_of(read.number, pool));
    let length: usize = contents.clone().map(<[u8]>::len).sum();
    if length > CONTENT_CAP {
        return None;
    }
    let mut bytes = Vec::with_capacity(length);
    contents.for_each(|content| bytes.extend_from_slice(content));
    Some(Product::Joined(bytes))
}

fn bytes_of(number: u16, pool: &Pool) -> &[u8] {
    pool.content(number).unwrap_or_default()
}

/// A command of the run and what it has done so far.
#[derive(Clone, Debug)]
pub(crate) struct Line {
    command: Command,
    state: LineState,
    reads: Vec<FileContent>,
    write: Option<FileContent>,
}

impl Line {
    fn new(command: Command) -> Self {
        Self {
            command,
            state: LineState::Waiting,
            reads: Vec::new(),
            write: None,
        }
    }

    /// Starts anew, with the room that the reads have had.
    fn restart(&mut self, command: Command) {
        self.reads.clear();
        *self = Self {
            reads: std::mem::take(&mut self.reads),
            ..Self::new(command)
        };
    }

    pub fn command(&self) -> &Command {
        &self.command
    }

    pub fn state(&self) -> LineState {
        self.state
    }

    fn next(&self, pool: &Pool) -> Next {
        let first = self.reads.first().map(|read| bytes_of(read.number, pool));
        self.command
            .next(self.reads.len(), first.unwrap_or_default())
    }

    /// The state that the line's entries tell.
    fn state_told(&self, pool: &Pool) -> LineState {
        if self.write.is_some() {
            LineState::Ended
        } else if self.reads.is_empty() {
            LineState::Waiting
        } else if self.reads.iter().any(|read| read.number == 0) {
            LineState::Reading
        } else if matches!(self.next(pool), Next::Write(_)) {
            LineState::Writing
        } else {
            LineState::Reading
        }
    }

    /// The own record of a line that has ended.
    pub fn record(&self) -> Option<Record> {
        Some(Record {
            command: self.command,
            reads: self.reads.clone(),
            write: self.write?,
            standing: Standing::Own,
        })
    }
}

/// What the lines of a run have done so far.
#[derive(Clone, Debug)]
pub(crate) struct Progress {
    acts: Acts,
    lines: Vec<Line>,
    left: LineSet,
}

impl Progress {
    pub fn new() -> Self {
        Self {
            acts: Acts::new(),
            lines: Vec::new(),
            left: LineSet::EMPTY,
        }
    }

    /// Starts a run of commands: nothing is done, every line is waiting.
    pub fn start(&mut self, commands: &[Command]) {
        self.lines.truncate(commands.len());
        for (place, &command) in commands.iter().enumerate() {
            match self.lines.get_mut(place) {
                Some(line) => line.restart(command),
                None => self.lines.push(Line::new(command)),
            }
        }
        self.start_over();
    }

    /// Starts a run of the same commands.
    pub fn start_again(&mut self) {
        for line in &mut self.lines {
            line.restart(line.command);
        }
        self.start_over();
    }

    fn start_over(&mut self) {
        self.acts.clear();
        self.left = LineSet::first(self.lines.len());
    }

    pub fn entries(&self) -> &[Entry] {
        self.acts.entries()
    }

    pub fn lines(&self) -> &[Line] {
        &self.lines
    }

    /// The lines that have not ended.
    pub fn left(&self) -> LineSet {
        self.left
    }

    /// The command of a line that has done nothing yet.
    pub fn waiting_command(&self, line: u8) -> Option<&Command> {
        let line = self.line(line);
        (line.state == LineState::Waiting).then_some(&line.command)
    }

    /// The own records that the lines give, in order.
    pub fn records(&self) -> Vec<Record> {
        self.lines.iter().filter_map(Line::record).collect()
    }

    /// The next act of a line.
    pub fn act<S: FileStore + ?Sized>(
        &mut self,
        line: u8,
        files: &mut S,
        pool: &mut Pool,
    ) -> Result<(), Stop> {
        let outcome = match self.line(line).next(pool) {
            Next::Read(file) => self.read(line, file, files, pool),
            Next::Write(file) => self.write(line, file, files, pool),
            // Only another pool than before can have changed the list of a line.
            Next::Nothing => Err(StopGround::BadList),
        };
        self.turn(line, pool);
        outcome.map_err(|ground| Stop { line, ground })
    }

    /// All acts of a line as its record tells them, with the test for hazards alone.
    pub fn skip<S: FileStore + ?Sized>(
        &mut self,
        line: u8,
        record: &Record,
        files: &mut S,
        pool: &Pool,
    ) -> Result<(), Stop> {
        let outcome = self.follow(line, record, files);
        self.turn(line, pool);
        outcome.map_err(|ground| Stop { line, ground })
    }

    fn follow<S: FileStore + ?Sized>(
        &mut self,
        line: u8,
        record: &Record,
        files: &mut S,
    ) -> Result<(), StopGround> {
        for &read in &record.reads {
            self.enter(line, Act::Read, read)?;
        }
        files.set(record.write.file, record.write.number);
        self.enter(line, Act::Write, record.write)
    }

    fn read<S: FileStore + ?Sized>(
        &mut self,
        line: u8,
        file: u8,
        files: &S,
        pool: &Pool,
    ) -> Result<(), StopGround> {
        let told = files.tell(file);
        let number = if pool.has(told) { told } else { 0 };
        self.enter(line, Act::Read, FileContent { file, number })?;
        let content = pool.content(number).ok_or(StopGround::FileAbsent)?;
        let Line { command, reads, .. } = self.line(line);
        let is_list = command.kind == Kind::Gather && reads.len() == 1;
        if is_list && List::read(content).is_none() {
            return Err(StopGround::BadList);
        }
        Ok(())
    }

    fn write<S: FileStore + ?Sized>(
        &mut self,
        line: u8,
        file: u8,
        files: &mut S,
        pool: &mut Pool,
    ) -> Result<(), StopGround> {
        let Line { command, reads, .. } = self.line(line);
        let product = product(command, reads, pool).ok_or(StopGround::WriteTooLong)?;
        let number = product.put(pool)?;
        files.set(file, number);
        self.enter(line, Act::Write, FileContent { file, number })
    }

    /// Enters an act in the list of acts and with its line.
    fn enter(&mut self, line: u8, act: Act, part: FileContent) -> Result<(), StopGround> {
        let FileContent { file, number } = part;
        let done = &mut self.lines[usize::from(line)];
        match act {
            Act::Read => done.reads.push(part),
            Act::Write => done.write = Some(part),
        }
        let entry = Entry {
            line,
            act,
            file,
            number,
        };
        match self.acts.enter(entry) {
            Some(hazard) => Err(StopGround::HazardMet(hazard)),
            None => Ok(()),
        }
    }

    fn line(&self, line: u8) -> &Line {
        &self.lines[usize::from(line)]
    }

    fn turn(&mut self, line: u8, pool: &Pool) {
        let state = self.line(line).state_told(pool);
        self.lines[usize::from(line)].state = state;
        if state == LineState::Ended {
            self.left.remove(line);
        }
    }
}
