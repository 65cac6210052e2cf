//! The answers of the console.

use std::fmt::Write;

use crate::report::stop_words;
use crate::{
    Act, Book, BuildAnswer, BuildRefusal, CloseRefusal, Counts, Ending, FILES, FileContent,
    FileStore, How, Log, Pool, Record, Refusal, Stepped, Stop,
};

/// The line that ends a list.
const END: &str = ".\n";

/// Bytes in hexadecimal; `-` for none.
pub fn hex(bytes: &[u8]) -> String {
    if bytes.is_empty() {
        return "-".into();
    }
    let mut digits = String::with_capacity(2 * bytes.len());
    for byte in bytes {
        let digit = |half| char::from_digit(u32::from(half), 16).unwrap_or_default();
        digits.extend([digit(byte >> 4), digit(byte & 15)]);
    }
    digits
}

pub fn done(answer: Result<(), Refusal>) -> String {
    match answer {
        Ok(()) => "ok\n".into(),
        Err(refusal) => format!("{refusal}\n"),
    }
}

/// A stop: the words of the report, then the contents of a hazard.
pub fn stop(stop: &Stop) -> String {
    let words = stop_words(stop);
    match stop.hazard() {
        None => words,
        Some(hazard) => format!("{words} {} {}", hazard.earlier.number, hazard.later.number),
    }
}

pub fn stepped(stepped: &Stepped) -> String {
    let how = match stepped.how {
        How::Act => "act",
        How::Skip => "skip",
    };
    match &stepped.stop {
        None => format!("{how} {}\n", stepped.line),
        Some(met) => format!("{how} {} {}\n", stepped.line, stop(met)),
    }
}

pub fn closed(answer: Result<Ending, CloseRefusal>) -> String {
    match answer {
        Ok(Ending::Kept) => "kept\n".into(),
        Ok(Ending::PutBack) => "put back\n".into(),
        Err(CloseRefusal::Stopped(met)) => format!("{}\n", stop(&met)),
        Err(refused) => format!("{}\n", refused.refusal()),
    }
}

pub fn built(answer: &BuildAnswer) -> String {
    match answer {
        Ok(built) => ended("kept", built.counts, built.first_stop.as_ref()),
        Err(BuildRefusal::Begin(refusal)) => format!("{refusal}\n"),
        Err(BuildRefusal::Stopped {
            stop: last,
            first_stop,
            counts,
        }) => ended(&stop(last), *counts, Some(first_stop)),
    }
}

fn ended(end: &str, counts: Counts, first_stop: Option<&Stop>) -> String {
    let Counts { executed, skipped } = counts;
    let first = first_stop.map_or_else(String::new, |met| format!(" first {}", stop(met)));
    format!("{end} executed {executed} skipped {skipped}{first}\n")
}

pub fn files(files: &impl FileStore) -> String {
    let numbers = (0..FILES as u8).map(|file| (file, files.tell(file)));
    listed(
        numbers.filter(|&(_, number)| number != 0),
        |(file, number)| format!("{file:02} {number}"),
    )
}

pub fn pool(pool: &Pool) -> String {
    listed(pool.iter(), |(number, content)| {
        format!("{number} {}", hex(content))
    })
}

pub fn log(log: &Log) -> String {
    listed(log.entries(), |entry| {
        let act = match entry.act {
            Act::Read => "r",
            Act::Write => "w",
        };
        format!("{} {act} {:02} {}", entry.line, entry.file, entry.number)
    })
}

pub fn book(book: &Book) -> String {
    listed(book.records(), record)
}

fn record(record: &Record) -> String {
    let kind = record.command.kind.number();
    let mut line = format!("{} {kind}", record.standing.name());
    for file in record.command.files {
        let _ = write!(line, " {file}");
    }
    line.push_str(" :");
    for &FileContent { file, number } in &record.reads {
        let _ = write!(line, " {file:02} {number}");
    }
    let FileContent { file, number } = record.write;
    let _ = write!(line, " > {file:02} {number}");
    line
}

fn listed<T>(things: impl IntoIterator<Item = T>, line: impl Fn(T) -> String) -> String {
    let mut lines = String::new();
    for thing in things {
        lines.push_str(&line(thing));
        lines.push('\n');
    }
    lines + END
}
