//! Commands: what a line reads and writes, one act after the other.

/// The kind of a command, by its number.
#[derive(Clone, Copy, Debug, PartialEq, Eq, Hash)]
#[repr(u8)]
pub enum Kind {
    Copy = 1,
    Join = 2,
    Gather = 3,
    Choose = 4,
    Tally = 5,
    Check = 6,
}

impl Kind {
    pub const ALL: [Kind; 6] = [
        Kind::Copy,
        Kind::Join,
        Kind::Gather,
        Kind::Choose,
        Kind::Tally,
        Kind::Check,
    ];

    pub const fn number(self) -> u8 {
        self as u8
    }

    pub const fn name(self) -> &'static str {
        match self {
            Kind::Copy => "copy",
            Kind::Join => "join",
            Kind::Gather => "gather",
            Kind::Choose => "choose",
            Kind::Tally => "tally",
            Kind::Check => "check",
        }
    }

    /// How many files the kind names.
    pub const fn files_used(self) -> usize {
        match self {
            Kind::Copy | Kind::Gather | Kind::Tally => 2,
            Kind::Join | Kind::Check => 3,
            Kind::Choose => 4,
        }
    }

    pub fn from_number(number: u8) -> Option<Self> {
        Self::ALL.into_iter().find(|kind| kind.number() == number)
    }

    pub fn from_name(name: &[u8]) -> Option<Self> {
        Self::ALL
            .into_iter()
            .find(|kind| kind.name().as_bytes() == name)
    }
}

/// A kind and four files in the order of the line; those that the kind does not use are 0.
#[derive(Clone, Copy, Debug, PartialEq, Eq, Hash)]
pub struct Command {
    pub kind: Kind,
    pub files: [u8; 4],
}

/// What a command goes on with.
#[derive(Clone, Copy, Debug, PartialEq, Eq)]
pub enum Next {
    /// It reads this file.
    Read(u8),
    /// It writes this file.
    Write(u8),
    /// Its list is bad, or it has read more than it asks for.
    Nothing,
}

impl Command {
    /// What the command goes on with after `made` reads, the first of which had the content
    /// `first`: no later read decides which files are read.
    pub fn next(&self, made: usize, first: &[u8]) -> Next {
        let [a, b, c, d] = self.files;
        match (self.kind, made) {
            (_, 0) => Next::Read(a),
            (Kind::Copy | Kind::Tally, 1) => Next::Write(b),
            (Kind::Join | Kind::Check, 1) => Next::Read(b),
            (Kind::Join | Kind::Check, 2) => Next::Write(c),
            (Kind::Choose, 1) if first.starts_with(b"y") => Next::Read(b),
            (Kind::Choose, 1) => Next::Read(c),
            (Kind::Choose, 2) => Next::Write(d),
            (Kind::Gather, _) => next_gathered(first, made - 1, b),
            _ => Next::Nothing,
        }
    }
}

fn next_gathered(list: &[u8], made: usize, target: u8) -> Next {
    let Some(list) = List::read(list) else {
        return Next::Nothing;
    };
    match list.file(made) {
        Some(file) => Next::Read(file),
        None if made == list.count() => Next::Write(target),
        None => Next::Nothing,
    }
}

/// The most files that a list names.
const LISTED_CAP: usize = 15;

/// A good list: up to 15 files, each told by two digits.
#[derive(Clone, Copy, Debug, PartialEq, Eq)]
pub struct List<'c> {
    pairs: &'c [[u8; 2]],
}

impl<'c> List<'c> {
    /// The list that a content is; none if it is a bad one.
    pub fn read(content: &'c [u8]) -> Option<Self> {
        let (pairs, rest) = content.as_chunks::<2>();
        let is_good = rest.is_empty()
            && pairs.len() <= LISTED_CAP
            && pairs.iter().all(|pair| file_number(pair).is_some());
        is_good.then_some(Self { pairs })
    }

    pub fn count(&self) -> usize {
        self.pairs.len()
    }

    /// The file in a place, counted from 0.
    pub fn file(&self, place: usize) -> Option<u8> {
        file_number(self.pairs.get(place)?)
    }
}

/// The file that exactly two decimal digits name.
pub fn file_number(digits: &[u8]) -> Option<u8> {
    match *digits {
        [tens @ b'0'..=b'9', units @ b'0'..=b'9'] => {
            let file = (tens - b'0') * 10 + (units - b'0');
            (file <= 63).then_some(file)
        }
        _ => None,
    }
}
