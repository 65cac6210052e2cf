//! The book: the list of records, at most one of a command.

use std::collections::HashMap;

use crate::command::Command;
use crate::pool::Pool;
use crate::record::{Record, Standing};

/// The most places that a book uses, whatever limit it is given.
pub const BOOK_CAP: usize = 256;

#[derive(Clone, Debug)]
pub struct Book {
    records: Vec<Record>,
    places_of: HashMap<Command, usize>,
    places: usize,
}

impl Book {
    pub fn new(places: usize) -> Self {
        Self {
            records: Vec::new(),
            places_of: HashMap::new(),
            places: places.min(BOOK_CAP),
        }
    }

    pub fn places(&self) -> usize {
        self.places
    }

    pub fn records(&self) -> &[Record] {
        &self.records
    }

    /// The record of a command.
    pub fn record_of(&self, command: &Command) -> Option<&Record> {
        self.places_of
            .get(command)
            .map(|&place| &self.records[place])
    }

    /// Gives the record in a place the standing that it deserves.
    pub(crate) fn judge(&mut self, place: usize, pool: &Pool) -> Option<Standing> {
        let record = self.records.get_mut(place)?;
        record.standing = if record.is_true(pool) {
            Standing::Own
        } else {
            Standing::Struck
        };
        Some(record.standing)
    }

    /// Whether the records of a file fit in beside those that are here.
    pub(crate) fn has_room_for(&self, records: &[Record]) -> bool {
        let is_new = |record: &&Record| !self.places_of.contains_key(&record.command);
        self.records.len() + records.iter().filter(is_new).count() <= self.places
    }

    /// Takes in a hint, for which there is room. An own record of its command stays.
    pub(crate) fn take_in(&mut self, hint: Record) {
        match self.places_of.get(&hint.command) {
            None => self.append(hint),
            Some(&place) if self.records[place].standing != Standing::Own => {
                self.records[place] = hint;
            }
            Some(_) => {}
        }
    }

    /// Takes the records of a kept run, in the order of its lines.
    pub(crate) fn keep(&mut self, records: Vec<Record>) {
        let of_run: Vec<Command> = records.iter().map(|record| record.command).collect();
        // Places below this one hold records of the run, and go on to do so.
        let mut lowest = 0;
        for record in records {
            if let Some(&place) = self.places_of.get(&record.command) {
                self.records[place] = record;
            } else if self.records.len() < self.places {
                self.append(record);
            } else {
                while self.holds_one_of(lowest, &of_run) {
                    lowest += 1;
                }
                self.replace(lowest, record);
            }
        }
    }

    fn holds_one_of(&self, place: usize, commands: &[Command]) -> bool {
        let record = self.records.get(place);
        record.is_some_and(|record| commands.contains(&record.command))
    }

    fn append(&mut self, record: Record) {
        self.places_of.insert(record.command, self.records.len());
        self.records.push(record);
    }

    /// Puts a record in place of another; does nothing past the last place.
    fn replace(&mut self, place: usize, record: Record) {
        let Some(old) = self.records.get_mut(place) else {
            return;
        };
        self.places_of.remove(&old.command);
        self.places_of.insert(record.command, place);
        *old = record;
    }
}
