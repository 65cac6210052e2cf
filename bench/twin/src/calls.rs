//! The calls that lay, audit and run scripts.

use std::error::Error;
use std::fmt;

use crate::acts::Stop;
use crate::book::Book;
use crate::files::FileStore;
use crate::log::{Log, numbers_of};
use crate::policy::{LineSet, Policy, ScriptOrder};
use crate::pool::Pool;
use crate::record::{Record, Standing};
use crate::refusal::Refusal;
use crate::script::{LINES_CAP, Script};

/// What begin hands out and close takes back: live, or blank with the number of a refusal.
#[derive(Debug)]
#[must_use = "each ticket must be closed, a blank one too"]
pub struct Ticket {
    refusal: Option<Refusal>,
}

impl Ticket {
    const LIVE: Self = Self { refusal: None };

    pub fn is_live(&self) -> bool {
        self.refusal.is_none()
    }

    /// Why the ticket is blank.
    pub fn refusal(&self) -> Option<Refusal> {
        self.refusal
    }
}

#[derive(Clone, Copy, Debug, PartialEq, Eq)]
pub enum Wish {
    Keep,
    PutBack,
}

/// The two ways in which a run can end.
#[derive(Clone, Copy, Debug, PartialEq, Eq)]
pub enum Ending {
    Kept,
    PutBack,
}

#[derive(Clone, Copy, Debug, PartialEq, Eq)]
pub enum How {
    Act,
    Skip,
}

/// What a step did.
#[derive(Clone, Copy, Debug, PartialEq, Eq)]
pub struct Stepped {
    pub line: u8,
    pub how: How,
    pub stop: Option<Stop>,
}

#[derive(Clone, Copy, Debug, PartialEq, Eq)]
pub enum StepRefusal {
    Blank(Refusal),
    NoRun,
    RunStopped(Stop),
    LinesEnded,
}

impl StepRefusal {
    pub const fn refusal(&self) -> Refusal {
        match self {
            StepRefusal::Blank(refusal) => *refusal,
            StepRefusal::NoRun => Refusal::NoRun,
            StepRefusal::RunStopped(_) => Refusal::RunStopped,
            StepRefusal::LinesEnded => Refusal::LinesEnded,
        }
    }

    pub const fn number(&self) -> u8 {
        self.refusal().number()
    }
}

#[derive(Clone, Copy, Debug, PartialEq, Eq)]
pub enum CloseRefusal {
    Blank(Refusal),
    NoRun,
    Stopped(Stop),
    LinesLeft,
}

impl CloseRefusal {
    pub const fn refusal(&self) -> Refusal {
        match self {
            CloseRefusal::Blank(refusal) => *refusal,
            CloseRefusal::NoRun => Refusal::NoRun,
            CloseRefusal::Stopped(stop) => stop.refusal(),
            CloseRefusal::LinesLeft => Refusal::LinesLeft,
        }
    }

    pub const fn number(&self) -> u8 {
        self.refusal().number()
    }
}

/// How many lines were executed and skipped.
#[derive(Clone, Copy, Debug, Default, PartialEq, Eq)]
pub struct Counts {
    pub executed: usize,
    pub skipped: usize,
}

impl std::ops::Add for Counts {
    type Output = Self;

    fn add(self, other: Self) -> Self {
        Self {
            executed: self.executed + other.executed,
            skipped: self.skipped + other.skipped,
        }
    }
}

/// A build that was kept.
#[derive(Clone, Copy, Debug, PartialEq, Eq)]
pub struct Built {
    pub first_stop: Option<Stop>,
    pub counts: Counts,
}

#[derive(Clone, Copy, Debug, PartialEq, Eq)]
pub enum BuildRefusal {
    /// Its begin was refused.
    Begin(Refusal),
    /// Its second run stopped.
    Stopped {
        stop: Stop,
        first_stop: Stop,
        counts: Counts,
    },
}

impl BuildRefusal {
    pub const fn refusal(&self) -> Refusal {
        match self {
            BuildRefusal::Begin(refusal) => *refusal,
            BuildRefusal::Stopped { stop, .. } => stop.refusal(),
        }
    }

    pub const fn number(&self) -> u8 {
        self.refusal().number()
    }
}

macro_rules! errors {
    ($($refusal:ty),*) => {$(
        impl fmt::Display for $refusal {
            fn fmt(&self, f: &mut fmt::Formatter<'_>) -> fmt::Result {
                self.refusal().fmt(f)
            }
        }

        impl Error for $refusal {}
    )*};
}

errors!(StepRefusal, CloseRefusal, BuildRefusal);

/// What a build answers.
pub type BuildAnswer = Result<Built, BuildRefusal>;

/// Puts the starting contents in the pool and sets their files.
pub fn lay<S: FileStore + ?Sized>(
    script: &Script,
    files: &mut S,
    pool: &mut Pool,
    log: &Log,
) -> Result<(), Refusal> {
    refuse_open(log)?;
    let extent = pool.extent();
    let haves = script.haves();
    let numbers: Result<Vec<u16>, _> = haves.iter().map(|have| pool.put(&have.content)).collect();
    let Ok(numbers) = numbers else {
        pool.cut_back(extent);
        return Err(Refusal::NoRoomToLay);
    };
    for (have, number) in haves.iter().zip(numbers) {
        files.set(have.file, number);
    }
    Ok(())
}

/// Judges the record in one place.
pub fn audit(place: usize, pool: &Pool, log: &Log, book: &mut Book) -> Result<Standing, Refusal> {
    refuse_open(log)?;
    book.judge(place, pool).ok_or(Refusal::NoSuchRecord)
}

/// Opens a run. The ticket is blank if this is refused.
pub fn begin<S: FileStore + ?Sized>(
    script: &Script,
    files: &S,
    pool: &Pool,
    log: &mut Log,
    book: &Book,
) -> Ticket {
    let refusal = test_begin(script, files, pool, log, book).err();
    if refusal.is_none() {
        log.open(script.commands(), files, pool);
    }
    Ticket { refusal }
}

fn test_begin<S: FileStore + ?Sized>(
    script: &Script,
    files: &S,
    pool: &Pool,
    log: &Log,
    book: &Book,
) -> Result<(), Refusal> {
    refuse_open(log)?;
    if !log.has_room_for(script.commands().len()) {
        return Err(Refusal::LogTooSmall);
    }
    if book.places() < LINES_CAP {
        return Err(Refusal::BookTooSmall);
    }
    let is_known = |number| number == 0 || pool.has(number);
    if !numbers_of(files).into_iter().all(is_known) {
        return Err(Refusal::UnknownContent);
    }
    Ok(())
}

/// Makes one act or one skip of the line that the policy answers.
pub fn step<P: Policy + ?Sized, S: FileStore + ?Sized>(
    ticket: &Ticket,
    policy: &mut P,
    files: &mut S,
    pool: &mut Pool,
    log: &mut Log,
    book: &Book,
) -> Result<Stepped, StepRefusal> {
    if let Some(refusal) = ticket.refusal {
        return Err(StepRefusal::Blank(refusal));
    }
    if !log.is_open() {
        return Err(StepRefusal::NoRun);
    }
    if let Some(stop) = log.stop {
        return Err(StepRefusal::RunStopped(stop));
    }
    let left = log.progress.left();
    let front = left.lowest().ok_or(StepRefusal::LinesEnded)?;
    let line = ask(policy, left, front);
    let (how, outcome) = match record_to_skip(line, files, pool, log, book) {
        Some(record) => (How::Skip, log.progress.skip(line, record, files, pool)),
        None => (How::Act, log.progress.act(line, files, pool)),
    };
    log.stop = outcome.err();
    Ok(Stepped {
        line,
        how,
        stop: log.stop,
    })
}

/// The policy's answer; the front where a policy breaks its rules and answers none of the lines.
fn ask<P: Policy + ?Sized>(policy: &mut P, left: LineSet, front: u8) -> u8 {
    let answer = policy.ask(left, front);
    if left.contains(answer) { answer } else { front }
}

/// The record by which a line can be skipped now.
fn record_to_skip<'b, S: FileStore + ?Sized>(
    line: u8,
    files: &S,
    pool: &Pool,
    log: &Log,
    book: &'b Book,
) -> Option<&'b Record> {
    let command = log.progress.waiting_command(line)?;
    book.record_of(command).filter(|record| {
        record.standing == Standing::Own && record.is_in(pool) && record.reads_match(files)
    })
}

/// Closes the run, kept or put back.
pub fn close<S: FileStore + ?Sized>(
    ticket: Ticket,
    wish: Wish,
    files: &mut S,
    pool: &mut Pool,
    log: &mut Log,
    book: &mut Book,
) -> Result<Ending, CloseRefusal> {
    if let Some(refusal) = ticket.refusal {
        return Err(CloseRefusal::Blank(refusal));
    }
    if !log.is_open() {
        return Err(CloseRefusal::NoRun);
    }
    let answer = judge_close(wish, log);
    if answer == Ok(Ending::Kept) {
        book.keep(log.progress.records());
    } else {
        log.put_back(files, pool);
    }
    log.shut();
    answer
}

fn judge_close(wish: Wish, log: &Log) -> Result<Ending, CloseRefusal> {
    match (log.stop, wish) {
        (Some(stop), _) => Err(CloseRefusal::Stopped(stop)),
        (None, Wish::PutBack) => Ok(Ending::PutBack),
        (None, Wish::Keep) if !log.progress.left().is_empty() => Err(CloseRefusal::LinesLeft),
        (None, Wish::Keep) => Ok(Ending::Kept),
    }
}

/// Runs a script to its end: with the policy, and where that run stops, again in script order.
pub fn build<P: Policy + ?Sized, S: FileStore + ?Sized>(
    script: &Script,
    policy: &mut P,
    files: &mut S,
    pool: &mut Pool,
    log: &mut Log,
    book: &mut Book,
) -> BuildAnswer {
    let ticket = begin(script, files, pool, log, book);
    if let Some(refusal) = ticket.refusal {
        return Err(BuildRefusal::Begin(refusal));
    }
    let (first, first_stop) = run_out(ticket, policy, files, pool, log, book);
    let Some(first_stop) = first_stop else {
        return Ok(Built {
            first_stop: None,
            counts: first,
        });
    };
    log.open_again();
    let (second, stop) = run_out(Ticket::LIVE, &mut ScriptOrder, files, pool, log, book);
    let counts = first + second;
    match stop {
        None => Ok(Built {
            first_stop: Some(first_stop),
            counts,
        }),
        Some(stop) => Err(BuildRefusal::Stopped {
            stop,
            first_stop,
            counts,
        }),
    }
}

/// Steps until the run has stopped or all lines have ended, and closes with the wish to keep.
fn run_out<P: Policy + ?Sized, S: FileStore + ?Sized>(
    ticket: Ticket,
    policy: &mut P,
    files: &mut S,
    pool: &mut Pool,
    log: &mut Log,
    book: &mut Book,
) -> (Counts, Option<Stop>) {
    let (mut executed, mut skipped) = (LineSet::EMPTY, LineSet::EMPTY);
    while let Ok(stepped) = step(&ticket, policy, files, pool, log, book) {
        match stepped.how {
            How::Act => executed.insert(stepped.line),
            How::Skip => skipped.insert(stepped.line),
        }
    }
    let counts = Counts {
        executed: executed.len(),
        skipped: skipped.len(),
    };
    match close(ticket, Wish::Keep, files, pool, log, book) {
        Err(CloseRefusal::Stopped(stop)) => (counts, Some(stop)),
        _ => (counts, None),
    }
}

pub(crate) fn refuse_open(log: &Log) -> Result<(), Refusal> {
    if log.is_open() {
        return Err(Refusal::RunOpen);
    }
    Ok(())
}
