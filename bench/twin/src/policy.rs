//! Policies: what chooses the next line.

use crate::book::Book;
use crate::command::Command;
use crate::record::{Record, Standing};
use crate::script::{LINES_CAP, Script};

/// The most patience that a policy has.
pub const MOST_PATIENCE: u8 = 32;

/// A set of lines, each 0 to 63.
#[derive(Clone, Copy, Debug, PartialEq, Eq)]
pub struct LineSet(u64);

impl LineSet {
    pub const EMPTY: Self = Self(0);

    /// The lines from 0 to below `count`, which is at most 64.
    pub fn first(count: usize) -> Self {
        Self(if count == 0 {
            0
        } else {
            u64::MAX >> (LINES_CAP - count.min(LINES_CAP))
        })
    }

    pub fn is_empty(self) -> bool {
        self.0 == 0
    }

    pub fn len(self) -> usize {
        self.0.count_ones() as usize
    }

    pub fn contains(self, line: u8) -> bool {
        usize::from(line) < LINES_CAP && self.0 >> line & 1 == 1
    }

    pub fn lowest(self) -> Option<u8> {
        (!self.is_empty()).then(|| self.0.trailing_zeros() as u8)
    }

    pub fn highest(self) -> Option<u8> {
        (!self.is_empty()).then(|| 63 - self.0.leading_zeros() as u8)
    }

    /// Adds a line; one above 63 is none.
    pub fn insert(&mut self, line: u8) {
        if usize::from(line) < LINES_CAP {
            self.0 |= 1 << line;
        }
    }

    pub fn remove(&mut self, line: u8) {
        if usize::from(line) < LINES_CAP {
            self.0 &= !(1 << line);
        }
    }

    /// The lines, the highest first.
    pub fn downwards(mut self) -> impl Iterator<Item = u8> {
        std::iter::from_fn(move || {
            let line = self.highest()?;
            self.remove(line);
            Some(line)
        })
    }

    fn meets(self, other: Self) -> bool {
        self.0 & other.0 != 0
    }
}

impl FromIterator<u8> for LineSet {
    fn from_iter<I: IntoIterator<Item = u8>>(lines: I) -> Self {
        let mut set = Self::EMPTY;
        lines.into_iter().for_each(|line| set.insert(line));
        set
    }
}

/// What chooses the next line. It passes the front by at most `patience` times in a row.
pub trait Policy {
    fn patience(&self) -> u8;
    fn passes(&self) -> u8;
    /// The line to work on, asked with the lines that have not ended and the lowest of them.
    fn ask(&mut self, lines: LineSet, front: u8) -> u8;
}

/// What a policy adds to its patience: which line it would like where it may choose.
pub trait Choice {
    /// The line wished for; if it is not in the set, the front is answered.
    fn choose(&mut self, lines: LineSet) -> u8;
}

/// A policy that keeps the rules of every policy, whatever its choice is.
#[derive(Clone, Debug)]
pub struct Patient<C> {
    patience: u8,
    passes: u8,
    choice: C,
}

impl<C: Choice> Patient<C> {
    /// A patience above 32 counts as 32.
    pub fn with_choice(patience: u8, choice: C) -> Self {
        Self {
            patience: patience.min(MOST_PATIENCE),
            passes: 0,
            choice,
        }
    }

    fn answer(&mut self, lines: LineSet, front: u8) -> u8 {
        if lines.lowest() != Some(front) || self.passes == self.patience {
            return front;
        }
        let choice = self.choice.choose(lines);
        if lines.contains(choice) {
            choice
        } else {
            front
        }
    }
}

impl<C: Choice> Policy for Patient<C> {
    fn patience(&self) -> u8 {
        self.patience
    }

    fn passes(&self) -> u8 {
        self.passes
    }

    fn ask(&mut self, lines: LineSet, front: u8) -> u8 {
        let answer = self.answer(lines, front);
        self.passes = if answer == front { 0 } else { self.passes + 1 };
        answer
    }
}

/// The script-order policy: always the front.
#[derive(Clone, Copy, Debug, Default)]
pub struct ScriptOrder;

impl Policy for ScriptOrder {
    fn patience(&self) -> u8 {
        0
    }

    fn passes(&self) -> u8 {
        0
    }

    fn ask(&mut self, _: LineSet, front: u8) -> u8 {
        front
    }
}

/// The highest line of the set.
#[derive(Clone, Copy, Debug, Default)]
pub struct Highest;

impl Choice for Highest {
    fn choose(&mut self, lines: LineSet) -> u8 {
        lines.highest().unwrap_or_default()
    }
}

/// The highest-line-first policy, for trying out orders that guess badly.
pub type HighestFirst = Patient<Highest>;

impl HighestFirst {
    pub fn new(patience: u8) -> Self {
        Self::with_choice(patience, Highest)
    }
}

/// For each line, the lower lines that it waits on.
#[derive(Clone, Debug)]
pub struct Waits([LineSet; LINES_CAP]);

impl Waits {
    fn primed(book: &Book, script: &Script) -> Self {
        let records: [Option<&Record>; LINES_CAP] = std::array::from_fn(|line| {
            let command = script.commands().get(line)?;
            usable_record(book, command)
        });
        Self(std::array::from_fn(|line| {
            awaited(records[line], &records[..line])
        }))
    }
}

fn usable_record<'b>(book: &'b Book, command: &Command) -> Option<&'b Record> {
    book.record_of(command)
        .filter(|record| record.standing != Standing::Struck)
}

/// The lower lines that a line with this record waits on.
fn awaited(record: Option<&Record>, lower: &[Option<&Record>]) -> LineSet {
    let Some(record) = record else {
        return LineSet::first(lower.len());
    };
    let reads = |file| record.reads.iter().any(|read| read.file == file);
    let lower = (0..).zip(lower);
    lower
        .filter(|(_, below)| below.is_some_and(|below| reads(below.write.file)))
        .map(|(line, _)| line)
        .collect()
}

impl Choice for Waits {
    fn choose(&mut self, lines: LineSet) -> u8 {
        let is_free = |&line: &u8| !self.0[usize::from(line)].meets(lines);
        // The lowest line waits on none of the set, so there is always a free one.
        lines.downwards().find(is_free).unwrap_or_default()
    }
}

/// The last-run policy: guesses from the records of earlier runs.
pub type LastRun = Patient<Waits>;

impl LastRun {
    /// Primed once, from a book and a script.
    pub fn primed(patience: u8, book: &Book, script: &Script) -> Self {
        Self::with_choice(patience, Waits::primed(book, script))
    }
}

/// Lines wished for in an order, over and over.
#[derive(Clone, Debug)]
pub struct Wishes {
    lines: Vec<u8>,
    next: usize,
}

impl Choice for Wishes {
    fn choose(&mut self, _: LineSet) -> u8 {
        let wish = self.lines[self.next];
        self.next = (self.next + 1) % self.lines.len();
        wish
    }
}

/// The console's list policy.
pub type ListPolicy = Patient<Wishes>;

impl ListPolicy {
    /// None if there is no wish.
    pub fn wishing(patience: u8, lines: Vec<u8>) -> Option<Self> {
        (!lines.is_empty()).then(|| Self::with_choice(patience, Wishes { lines, next: 0 }))
    }
}
