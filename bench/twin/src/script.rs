//! The script: labels, starting contents and lines, read from a text.

use std::error::Error;
use std::fmt;

use crate::command::{Command, Kind, file_number};
use crate::files::FILES;
use crate::pool::CONTENT_CAP;
use crate::refusal::Refusal;

/// The most bytes of a text.
pub const TEXT_CAP: usize = 16_384;
/// The most lines of a script.
pub const LINES_CAP: usize = 64;

const HAVES_CAP: usize = 64;
const LABEL_CAP: usize = 16;
/// No text line that is taken has more than five words, so six tell as much as all.
const WORDS_TOLD: usize = 6;

/// A word: the part of the text that it is, and the place where it starts.
#[derive(Clone, Copy, Debug, PartialEq, Eq)]
pub struct Word<'t> {
    pub bytes: &'t [u8],
    pub start: usize,
}

/// The first word that starts at `from` or later. Spaces alone part words.
pub fn next_word(text: &[u8], from: usize) -> Option<Word<'_>> {
    let is_space = |&byte: &u8| byte == b' ';
    let start = from + text.get(from..)?.iter().position(|byte| !is_space(byte))?;
    let rest = &text[start..];
    let length = rest.iter().position(is_space).unwrap_or(rest.len());
    Some(Word {
        bytes: &rest[..length],
        start,
    })
}

pub(crate) fn words(text: &[u8]) -> impl Iterator<Item = &[u8]> {
    text.split(|&byte| byte == b' ')
        .filter(|word| !word.is_empty())
}

/// A refused text, with the text line told (0 where the text is too long).
#[derive(Clone, Copy, Debug, PartialEq, Eq)]
pub struct ScriptRefusal {
    pub refusal: Refusal,
    pub text_line: usize,
}

impl ScriptRefusal {
    pub const fn number(self) -> u8 {
        self.refusal.number()
    }
}

impl fmt::Display for ScriptRefusal {
    fn fmt(&self, f: &mut fmt::Formatter<'_>) -> fmt::Result {
        write!(f, "{} at text line {}", self.refusal, self.text_line)
    }
}

impl Error for ScriptRefusal {}

/// A starting content and its file.
#[derive(Clone, Debug, PartialEq, Eq)]
pub struct Have {
    pub file: u8,
    pub content: Box<[u8]>,
}

/// A label, filled up with zeros, which no label has.
#[derive(Clone, Copy, Debug, PartialEq, Eq)]
struct Label([u8; LABEL_CAP]);

impl Label {
    fn read(word: &[u8]) -> Option<Self> {
        let allowed = |byte: &u8| matches!(byte, b'a'..=b'z' | b'0'..=b'9' | b'.' | b'-');
        let fits = (1..=LABEL_CAP).contains(&word.len());
        (fits && word.iter().all(allowed)).then(|| {
            let mut bytes = [0; LABEL_CAP];
            bytes[..word.len()].copy_from_slice(word);
            Self(bytes)
        })
    }

    fn bytes(&self) -> &[u8] {
        let length = self.0.iter().position(|&byte| byte == 0);
        &self.0[..length.unwrap_or(LABEL_CAP)]
    }
}

#[derive(Clone, Debug, PartialEq, Eq)]
pub struct Script {
    labels: [Option<Label>; FILES],
    haves: Vec<Have>,
    commands: Vec<Command>,
}

impl Default for Script {
    fn default() -> Self {
        Self::empty()
    }
}

impl Script {
    pub fn empty() -> Self {
        Self {
            labels: [None; FILES],
            haves: Vec::new(),
            commands: Vec::new(),
        }
    }

    /// Reads a text from its first text line to its last.
    pub fn read(text: &[u8]) -> Result<Self, ScriptRefusal> {
        if text.len() > TEXT_CAP {
            return Err(ScriptRefusal {
                refusal: Refusal::TextTooLong,
                text_line: 0,
            });
        }
        let mut script = Self::empty();
        for (text_line, line) in (1..).zip(text.split(|&byte| byte == b'\n')) {
            script
                .read_line(line)
                .map_err(|refusal| ScriptRefusal { refusal, text_line })?;
        }
        Ok(script)
    }

    pub fn label(&self, file: u8) -> Option<&[u8]> {
        self.labels
            .get(usize::from(file))?
            .as_ref()
            .map(Label::bytes)
    }

    pub fn haves(&self) -> &[Have] {
        &self.haves
    }

    /// The lines, from 0.
    pub fn commands(&self) -> &[Command] {
        &self.commands
    }

    fn read_line(&mut self, line: &[u8]) -> Result<(), Refusal> {
        if !line.iter().all(|byte| (32..=126).contains(byte)) {
            return Err(Refusal::BadTextLine);
        }
        let mut told = [&[][..]; WORDS_TOLD];
        let mut count = 0;
        for (place, word) in told.iter_mut().zip(words(line)) {
            *place = word;
            count += 1;
        }
        match told[..count] {
            [] | [[b'#', ..], ..] => Ok(()),
            [b"file", number, label] => self.read_file(number, label),
            [b"have", label, content] => self.read_have(label, content),
            [name, ref labels @ ..] => self.read_command(name, labels),
        }
    }

    fn read_file(&mut self, number: &[u8], label: &[u8]) -> Result<(), Refusal> {
        let file = file_number(number).ok_or(Refusal::BadLabel)?;
        let label = Label::read(label).ok_or(Refusal::BadLabel)?;
        let place = usize::from(file);
        if self.labels[place].is_some() || self.labels.contains(&Some(label)) {
            return Err(Refusal::BadLabel);
        }
        self.labels[place] = Some(label);
        Ok(())
    }

    fn read_have(&mut self, label: &[u8], content: &[u8]) -> Result<(), Refusal> {
        let file = self.file_of(label)?;
        if content.len() > CONTENT_CAP {
            return Err(Refusal::HaveTooLong);
        }
        if self.haves.len() == HAVES_CAP {
            return Err(Refusal::ScriptFull);
        }
        self.haves.push(Have {
            file,
            content: content.into(),
        });
        Ok(())
    }

    fn read_command(&mut self, name: &[u8], labels: &[&[u8]]) -> Result<(), Refusal> {
        let kind = Kind::from_name(name)
            .filter(|kind| kind.files_used() == labels.len())
            .ok_or(Refusal::BadTextLine)?;
        let mut files = [0; 4];
        for (file, label) in files.iter_mut().zip(labels) {
            *file = self.file_of(label)?;
        }
        if self.commands.len() == LINES_CAP {
            return Err(Refusal::ScriptFull);
        }
        self.commands.push(Command { kind, files });
        Ok(())
    }

    /// The file to which a label has been given. A word that is no label never has been.
    fn file_of(&self, word: &[u8]) -> Result<u8, Refusal> {
        let label = Label::read(word).ok_or(Refusal::BadLabel)?;
        let place = self.labels.iter().position(|given| *given == Some(label));
        place.map(|file| file as u8).ok_or(Refusal::BadLabel)
    }
}
