//! The console: every call of the library, one line at a time.

mod parse;
mod show;

use std::io::{self, BufRead, Write};

use crate::{
    Book, BuildAnswer, FileStore, HighestFirst, Image, LastRun, ListPolicy, Log, Policy, Pool,
    REPORT_BYTES, Script, ScriptOrder, StepRefusal, TRACE_CAP, Table, Ticket, Wish, audit, begin,
    build, close, lay, load, report, save, step,
};
use parse::{Malformed, hex_bytes, number, number_to, wishes};

/// The file store that was started.
enum Store {
    Table(Table),
    Image(Image),
}

impl FileStore for Store {
    fn tell(&self, file: u8) -> u16 {
        match self {
            Store::Table(table) => table.tell(file),
            Store::Image(image) => image.tell(file),
        }
    }

    fn set(&mut self, file: u8, number: u16) {
        match self {
            Store::Table(table) => table.set(file, number),
            Store::Image(image) => image.set(file, number),
        }
    }
}

/// Fresh parts over so many bytes and places.
struct Parts {
    files: Store,
    pool: Pool,
    log: Log,
    book: Book,
}

impl Parts {
    fn new(files: Store, [bytes, places, log, book]: [usize; 4]) -> Self {
        Self {
            files,
            pool: Pool::new(bytes, places),
            log: Log::new(log),
            book: Book::new(book),
        }
    }
}

const FIRST_LIMITS: [usize; 4] = [65_536, 1_024, 1_088, 256];
const MOST_LIMITS: [usize; 4] = [65_536, 1_024, 2_048, 256];

const HELP: &str = "\
start table|image BYTES PLACES LOG BOOK   fresh parts
script HEX                                read a script
policy order | last W | high W | list W A,B,C
lay | load HEX | audit I                  starting contents, a trace file, a record
begin | step | close keep | close back    a run, step by step
build                                     a run at one go
save | report                             a trace file, the report of the last build
files | pool | log | book                 what the parts hold
image | image HEX                         hand the image out, fill it
help                                      this table
";

/// An answer: whole lines, each with its byte 10.
type Answer = Result<String, Malformed>;

pub struct Console {
    parts: Parts,
    script: Script,
    policy: Box<dyn Policy>,
    /// A live ticket, while a run is open.
    ticket: Option<Ticket>,
    last_build: Option<BuildAnswer>,
}

impl Default for Console {
    fn default() -> Self {
        Self::new()
    }
}

impl Console {
    pub fn new() -> Self {
        Self {
            parts: Parts::new(Store::Table(Table::new()), FIRST_LIMITS),
            script: Script::empty(),
            policy: Box::new(ScriptOrder),
            ticket: None,
            last_build: None,
        }
    }

    /// The answer to one line, which may end with its byte 10: no line, or whole lines.
    pub fn answer_line(&mut self, line: &[u8]) -> String {
        let line = line.strip_suffix(b"\n").unwrap_or(line);
        let words: Vec<&[u8]> = crate::script::words(line).collect();
        match words.as_slice() {
            [] | [[b'#', ..], ..] => String::new(),
            words => self
                .answer(words)
                .unwrap_or_else(|Malformed| "what\n".into()),
        }
    }

    fn answer(&mut self, words: &[&[u8]]) -> Answer {
        match words {
            [b"start", store, limits @ ..] => self.start(store, limits),
            [b"script", hex] => self.read_script(&hex_bytes(hex)?),
            [b"policy", words @ ..] => self.choose_policy(words),
            [b"lay"] => self.lay(),
            [b"load", hex] => self.load(&hex_bytes(hex)?),
            [b"audit", place] => self.audit(number_to(place, 65_535)?),
            [b"begin"] => self.begin(),
            [b"step"] => self.step(),
            [b"close", b"keep"] => self.close(Wish::Keep),
            [b"close", b"back"] => self.close(Wish::PutBack),
            [b"build"] => self.build(),
            [b"save"] => self.save(),
            [b"report"] => self.report(),
            [b"files"] => Ok(show::files(&self.parts.files)),
            [b"pool"] => Ok(show::pool(&self.parts.pool)),
            [b"log"] => Ok(show::log(&self.parts.log)),
            [b"book"] => Ok(show::book(&self.parts.book)),
            [b"image"] => self.hand_out(),
            [b"image", hex] => self.fill(&hex_bytes(hex)?),
            [b"help"] => Ok(HELP.into()),
            _ => Err(Malformed),
        }
    }

    fn start(&mut self, store: &[u8], words: &[&[u8]]) -> Answer {
        let files = match store {
            b"table" => Store::Table(Table::new()),
            b"image" => Store::Image(Image::new()),
            _ => return Err(Malformed),
        };
        let words: &[&[u8]; 4] = words.try_into().map_err(|_| Malformed)?;
        let mut limits = [0; 4];
        for ((limit, word), most) in limits.iter_mut().zip(words).zip(MOST_LIMITS) {
            *limit = number_to(word, most)?;
        }
        self.close_ticket();
        self.parts = Parts::new(files, limits);
        Ok("started\n".into())
    }

    fn close_ticket(&mut self) {
        if self.ticket.is_some() {
            // Whatever it answers, the parts are given up.
            let _ = self.close(Wish::PutBack);
        }
    }

    fn read_script(&mut self, text: &[u8]) -> Answer {
        match Script::read(text) {
            Ok(script) => {
                let (lines, haves) = (script.commands().len(), script.haves().len());
                self.script = script;
                Ok(format!("lines {lines} haves {haves}\n"))
            }
            Err(refused) => {
                self.script = Script::empty();
                Ok(format!("{} {}\n", refused.refusal, refused.text_line))
            }
        }
    }

    fn choose_policy(&mut self, words: &[&[u8]]) -> Answer {
        let patience =
            |word| number(word).and_then(|patience| u8::try_from(patience).map_err(|_| Malformed));
        self.policy = match words {
            [b"order"] => Box::new(ScriptOrder),
            [b"last", w] => Box::new(LastRun::primed(
                patience(w)?,
                &self.parts.book,
                &self.script,
            )),
            [b"high", w] => Box::new(HighestFirst::new(patience(w)?)),
            [b"list", w, lines] => {
                let policy = ListPolicy::wishing(patience(w)?, wishes(lines)?);
                Box::new(policy.ok_or(Malformed)?)
            }
            _ => return Err(Malformed),
        };
        Ok("ready\n".into())
    }

    fn lay(&mut self) -> Answer {
        let Parts {
            files, pool, log, ..
        } = &mut self.parts;
        Ok(show::done(lay(&self.script, files, pool, log)))
    }

    fn load(&mut self, bytes: &[u8]) -> Answer {
        let Parts {
            pool, log, book, ..
        } = &mut self.parts;
        Ok(show::done(load(bytes, pool, log, book)))
    }

    fn audit(&mut self, place: usize) -> Answer {
        let Parts {
            pool, log, book, ..
        } = &mut self.parts;
        Ok(match audit(place, pool, log, book) {
            Ok(standing) => format!("{}\n", standing.name()),
            Err(refusal) => format!("{refusal}\n"),
        })
    }

    fn begin(&mut self) -> Answer {
        let Parts {
            files,
            pool,
            log,
            book,
        } = &mut self.parts;
        let ticket = begin(&self.script, files, pool, log, book);
        let Some(refusal) = ticket.refusal() else {
            self.ticket = Some(ticket);
            return Ok("live\n".into());
        };
        let _ = close(ticket, Wish::PutBack, files, pool, log, book);
        Ok(format!("blank {}\n", refusal.number()))
    }

    fn step(&mut self) -> Answer {
        let ticket = self.ticket.as_ref().ok_or(Malformed)?;
        let Parts {
            files,
            pool,
            log,
            book,
        } = &mut self.parts;
        Ok(
            match step(ticket, &mut *self.policy, files, pool, log, book) {
                Ok(stepped) => show::stepped(&stepped),
                Err(StepRefusal::RunStopped(stop)) => format!("refused 26 {}\n", show::stop(&stop)),
                Err(refused) => format!("{}\n", refused.refusal()),
            },
        )
    }

    fn close(&mut self, wish: Wish) -> Answer {
        let ticket = self.ticket.take().ok_or(Malformed)?;
        let Parts {
            files,
            pool,
            log,
            book,
        } = &mut self.parts;
        Ok(show::closed(close(ticket, wish, files, pool, log, book)))
    }

    fn build(&mut self) -> Answer {
        let Parts {
            files,
            pool,
            log,
            book,
        } = &mut self.parts;
        let answer = build(&self.script, &mut *self.policy, files, pool, log, book);
        self.last_build = Some(answer);
        Ok(show::built(&answer))
    }

    fn save(&mut self) -> Answer {
        let mut buffer = vec![0; TRACE_CAP];
        Ok(
            match save(&mut buffer, &self.parts.pool, &self.parts.book) {
                Ok(length) => format!("saved {}\n", show::hex(&buffer[..length])),
                Err(refusal) => format!("{refusal}\n"),
            },
        )
    }

    fn report(&mut self) -> Answer {
        let answer = self.last_build.as_ref().ok_or(Malformed)?;
        let mut buffer = [0; REPORT_BYTES];
        let Parts { files, pool, .. } = &self.parts;
        Ok(
            match report(&mut buffer, answer, &self.script, files, pool) {
                Ok(length) => String::from_utf8_lossy(&buffer[..length]).into_owned(),
                Err(refusal) => format!("{refusal}\n"),
            },
        )
    }

    fn hand_out(&mut self) -> Answer {
        match &self.parts.files {
            Store::Image(image) => Ok(format!("{}\n", show::hex(image.bytes()))),
            Store::Table(_) => Err(Malformed),
        }
    }

    fn fill(&mut self, bytes: &[u8]) -> Answer {
        match &mut self.parts.files {
            Store::Image(image) if !self.parts.log.is_open() => Ok(show::done(image.fill(bytes))),
            _ => Err(Malformed),
        }
    }
}

/// Answers each line before the next one is read, until the input ends.
pub fn converse(mut input: impl BufRead, mut output: impl Write) -> io::Result<()> {
    let mut console = Console::new();
    let mut line = Vec::new();
    while input.read_until(b'\n', &mut line)? > 0 {
        output.write_all(console.answer_line(&line).as_bytes())?;
        output.flush()?;
        line.clear();
    }
    Ok(())
}
