//! The pool: contents, no two equal, numbered from 1 in order of arrival.

use std::collections::HashMap;

/// The most bytes of one content.
pub const CONTENT_CAP: usize = 4_096;
/// The most bytes that a pool uses, whatever limit it is given.
pub const POOL_BYTES_CAP: usize = 65_536;
/// The most places that a pool uses, whatever limit it is given.
pub const POOL_PLACES_CAP: usize = 1_024;

/// A put that found no room. It has no number of its own: its caller tells the refusal.
#[derive(Clone, Copy, Debug, PartialEq, Eq)]
pub struct NoRoom;

#[derive(Clone, Debug)]
pub struct Pool {
    bytes: Vec<u8>,
    /// Where each content ends in `bytes`; it starts where the one before it ends.
    ends: Vec<usize>,
    numbers: HashMap<Box<[u8]>, u16>,
    bytes_limit: usize,
    places_limit: usize,
}

impl Pool {
    pub fn new(bytes_limit: usize, places_limit: usize) -> Self {
        Self {
            bytes: Vec::new(),
            ends: Vec::new(),
            numbers: HashMap::new(),
            bytes_limit: bytes_limit.min(POOL_BYTES_CAP),
            places_limit: places_limit.min(POOL_PLACES_CAP),
        }
    }

    /// How many contents the pool holds.
    pub fn extent(&self) -> usize {
        self.ends.len()
    }

    /// How many bytes the contents held take.
    pub fn bytes_used(&self) -> usize {
        self.bytes.len()
    }

    pub fn has(&self, number: u16) -> bool {
        number > 0 && usize::from(number) <= self.extent()
    }

    /// Where the content of a number starts in the pool's bytes.
    pub fn start(&self, number: u16) -> Option<usize> {
        self.has(number).then(|| self.start_of(number))
    }

    /// The bytes of a number; none if the number is not in the pool.
    pub fn content(&self, number: u16) -> Option<&[u8]> {
        let start = self.start(number)?;
        Some(&self.bytes[start..self.ends[usize::from(number) - 1]])
    }

    /// The number of the equal content.
    pub fn find(&self, content: &[u8]) -> Option<u16> {
        self.numbers.get(content).copied()
    }

    /// The number of the content, which is appended if it is new.
    pub fn put(&mut self, content: &[u8]) -> Result<u16, NoRoom> {
        match self.find(content) {
            Some(number) => Ok(number),
            None => self.append(content),
        }
    }

    /// Keeps the first `count` contents. It never raises the extent.
    pub fn cut_back(&mut self, count: usize) {
        while self.extent() > count {
            let start = self.last_start();
            self.numbers.remove(&self.bytes[start..]);
            self.bytes.truncate(start);
            self.ends.pop();
        }
    }

    /// The contents with their numbers, in order.
    pub fn iter(&self) -> impl Iterator<Item = (u16, &[u8])> {
        (1..).map_while(|number| Some((number, self.content(number)?)))
    }

    fn append(&mut self, content: &[u8]) -> Result<u16, NoRoom> {
        if !self.has_room(content.len()) {
            return Err(NoRoom);
        }
        self.bytes.extend_from_slice(content);
        self.ends.push(self.bytes.len());
        let number = self.ends.len() as u16; // at most 1,024
        self.numbers.insert(content.into(), number);
        Ok(number)
    }

    fn has_room(&self, length: usize) -> bool {
        length <= CONTENT_CAP
            && self.extent() < self.places_limit
            && length <= self.bytes_limit - self.bytes.len()
    }

    fn start_of(&self, number: u16) -> usize {
        match usize::from(number) {
            1 => 0,
            later => self.ends[later - 2],
        }
    }

    fn last_start(&self) -> usize {
        self.ends.iter().rev().nth(1).copied().unwrap_or(0)
    }
}
