//! Trace files: contents and records as bytes.

use std::collections::HashSet;

use crate::book::{BOOK_CAP, Book};
use crate::calls::refuse_open;
use crate::command::{Command, Kind};
use crate::files::FILES;
use crate::log::Log;
use crate::pool::{CONTENT_CAP, POOL_BYTES_CAP, POOL_PLACES_CAP, Pool};
use crate::record::{FileContent, Record, Standing};
use crate::refusal::Refusal;

const READS_CAP: usize = 16;
const RECORD_CAP: usize = 5 + 1 + READS_CAP * 3 + 3;

/// The length of the largest file that can be saved or loaded.
pub const TRACE_CAP: usize = 2 + POOL_PLACES_CAP * 2 + POOL_BYTES_CAP + 2 + BOOK_CAP * RECORD_CAP;

/// Loads a trace file: puts its contents and takes in its records as hints.
pub fn load(bytes: &[u8], pool: &mut Pool, log: &Log, book: &mut Book) -> Result<(), Refusal> {
    refuse_open(log)?;
    let file = TraceFile::read(bytes)?;
    if !book.has_room_for(&file.records) {
        return Err(Refusal::NoRoomToLoad);
    }
    let numbers = put_all(&file.contents, pool)?;
    for record in file.records {
        book.take_in(renumbered(record, |index| numbers[usize::from(index) - 1]));
    }
    Ok(())
}

/// Puts all contents or none.
fn put_all(contents: &[&[u8]], pool: &mut Pool) -> Result<Vec<u16>, Refusal> {
    let extent = pool.extent();
    let numbers: Result<_, _> = contents.iter().map(|content| pool.put(content)).collect();
    numbers.map_err(|_| {
        pool.cut_back(extent);
        Refusal::NoRoomToLoad
    })
}

fn renumbered(mut record: Record, mut number: impl FnMut(u16) -> u16) -> Record {
    for part in record.reads.iter_mut().chain([&mut record.write]) {
        part.number = number(part.number);
    }
    record
}

/// Saves the book as a trace file at the start of a buffer, and tells its length.
pub fn save(buffer: &mut [u8], pool: &Pool, book: &Book) -> Result<usize, Refusal> {
    let bytes = written(pool, book);
    let place = buffer
        .get_mut(..bytes.len())
        .ok_or(Refusal::SaveBufferShort)?;
    place.copy_from_slice(&bytes);
    Ok(bytes.len())
}

fn written(pool: &Pool, book: &Book) -> Vec<u8> {
    let saved = |record: &&Record| record.standing != Standing::Struck && record.is_in(pool);
    let records: Vec<&Record> = book.records().iter().filter(saved).collect();
    let uses = FirstUses::of(&records, pool);
    let mut bytes = Vec::with_capacity(pool.bytes_used() + 2 * uses.numbers.len());
    put_count(&mut bytes, uses.numbers.len());
    for content in uses
        .numbers
        .iter()
        .filter_map(|&number| pool.content(number))
    {
        put_count(&mut bytes, content.len());
        bytes.extend_from_slice(content);
    }
    put_count(&mut bytes, records.len());
    for record in records {
        put_record(&mut bytes, record, &uses);
    }
    bytes
}

/// The content numbers that records name, in order of first use.
struct FirstUses {
    numbers: Vec<u16>,
    /// The index of each number from 1; 0 where it is not used.
    indices: Vec<u16>,
}

impl FirstUses {
    fn of(records: &[&Record], pool: &Pool) -> Self {
        let mut uses = Self {
            numbers: Vec::new(),
            indices: vec![0; pool.extent() + 1],
        };
        for part in records.iter().flat_map(|record| record.all()) {
            let index = &mut uses.indices[usize::from(part.number)];
            if *index == 0 {
                uses.numbers.push(part.number);
                *index = uses.numbers.len() as u16; // at most 1,024
            }
        }
        uses
    }

    fn index(&self, number: u16) -> u16 {
        self.indices[usize::from(number)]
    }
}

/// Counts and lengths are all at most 4,096.
fn put_count(bytes: &mut Vec<u8>, count: usize) {
    bytes.extend_from_slice(&(count as u16).to_be_bytes());
}

fn put_record(bytes: &mut Vec<u8>, record: &Record, uses: &FirstUses) {
    bytes.push(record.command.kind.number());
    bytes.extend_from_slice(&record.command.files);
    bytes.push(record.reads.len() as u8); // at most 16
    for part in record.all() {
        bytes.push(part.file);
        bytes.extend_from_slice(&uses.index(part.number).to_be_bytes());
    }
}

/// A trace file that has been read. The numbers of its records are indices of its contents.
struct TraceFile<'a> {
    contents: Vec<&'a [u8]>,
    records: Vec<Record>,
}

impl<'a> TraceFile<'a> {
    fn read(bytes: &'a [u8]) -> Result<Self, Refusal> {
        let mut reader = Reader {
            rest: bytes,
            contents: 0,
            highest: 0,
        };
        let contents = reader.contents()?;
        let records = reader.records()?;
        rule(reader.highest == reader.contents)?;
        if !reader.rest.is_empty() {
            return Err(Refusal::TraceLength);
        }
        Ok(Self { contents, records })
    }
}

/// Reads fields from front to back: each must be whole, and then keep its rule.
struct Reader<'a> {
    rest: &'a [u8],
    /// The count of contents.
    contents: usize,
    /// The highest index so far.
    highest: usize,
}

fn rule(is_kept: bool) -> Result<(), Refusal> {
    if is_kept {
        Ok(())
    } else {
        Err(Refusal::TraceRule)
    }
}

impl<'a> Reader<'a> {
    fn contents(&mut self) -> Result<Vec<&'a [u8]>, Refusal> {
        self.contents = self.number(POOL_PLACES_CAP)?;
        let mut met = HashSet::new();
        let mut contents = Vec::new();
        for _ in 0..self.contents {
            let length = self.number(CONTENT_CAP)?;
            let content = self.bytes(length)?;
            rule(met.insert(content))?;
            contents.push(content);
        }
        Ok(contents)
    }

    fn records(&mut self) -> Result<Vec<Record>, Refusal> {
        let count = self.number(BOOK_CAP)?;
        let mut met = HashSet::new();
        let mut records = Vec::new();
        for _ in 0..count {
            let command = self.command()?;
            rule(met.insert(command))?;
            records.push(self.rest_of_record(command)?);
        }
        Ok(records)
    }

    fn command(&mut self) -> Result<Command, Refusal> {
        let kind = Kind::from_number(self.byte()?).ok_or(Refusal::TraceRule)?;
        let mut files = [0; 4];
        for (place, file) in files.iter_mut().enumerate() {
            *file = self.file()?;
            rule(place < kind.files_used() || *file == 0)?;
        }
        Ok(Command { kind, files })
    }

    fn rest_of_record(&mut self, command: Command) -> Result<Record, Refusal> {
        let count = usize::from(self.byte()?);
        rule((1..=READS_CAP).contains(&count))?;
        let reads: Result<_, _> = (0..count).map(|_| self.part()).collect();
        Ok(Record {
            command,
            reads: reads?,
            write: self.part()?,
            standing: Standing::Hint,
        })
    }

    fn part(&mut self) -> Result<FileContent, Refusal> {
        let file = self.file()?;
        // Indices stand in order of first use, so each is at most one above those before it.
        let index = self.number(self.contents.min(self.highest + 1))?;
        rule(index >= 1)?;
        self.highest = self.highest.max(index);
        Ok(FileContent {
            file,
            number: index as u16, // at most 1,024
        })
    }

    fn file(&mut self) -> Result<u8, Refusal> {
        let file = self.byte()?;
        rule(usize::from(file) < FILES)?;
        Ok(file)
    }

    /// A number of two bytes that is at most `most`.
    fn number(&mut self, most: usize) -> Result<usize, Refusal> {
        let number = usize::from(u16::from_be_bytes([self.byte()?, self.byte()?]));
        rule(number <= most)?;
        Ok(number)
    }

    fn byte(&mut self) -> Result<u8, Refusal> {
        let (&byte, rest) = self.rest.split_first().ok_or(Refusal::TraceLength)?;
        self.rest = rest;
        Ok(byte)
    }

    fn bytes(&mut self, length: usize) -> Result<&'a [u8], Refusal> {
        let (bytes, rest) = self
            .rest
            .split_at_checked(length)
            .ok_or(Refusal::TraceLength)?;
        self.rest = rest;
        Ok(bytes)
    }
}
