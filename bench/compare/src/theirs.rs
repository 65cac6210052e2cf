//! The twin: the runner that was written in plain Rust from docs/ alone.

use crate::runner::{Policy, Read, Runner, Setting};
use twin::{
    Book, BuildAnswer, BuildRefusal, Counts, FileStore, HighestFirst, Image, LastRun, ListPolicy,
    Log, Pool, REPORT_BYTES, Script, ScriptOrder, TRACE_CAP, Table, audit, build, lay, load,
    report, save,
};

/// What the last calls came to; the twin's own parts are made anew for each.
#[derive(Default)]
pub struct Theirs {
    out: Vec<u8>,
}

impl Theirs {
    pub fn new() -> Theirs {
        Theirs::default()
    }
}

/// The four parts over a store.
struct Parts<S> {
    files: S,
    pool: Pool,
    log: Log,
    book: Book,
}

impl<S: FileStore> Parts<S> {
    fn new(files: S, setting: &Setting) -> Parts<S> {
        Parts {
            files,
            pool: Pool::new(setting.bytes, setting.places),
            log: Log::new(setting.log),
            book: Book::new(setting.book),
        }
    }

    /// Builds a script with a policy made anew.
    fn build(&mut self, script: &Script, setting: &Setting, wishes: &[u8]) -> BuildAnswer {
        let Parts {
            files,
            pool,
            log,
            book,
        } = self;
        match setting.policy {
            Policy::ScriptOrder => build(script, &mut ScriptOrder, files, pool, log, book),
            Policy::LastRun => {
                let mut policy = LastRun::primed(setting.patience, book, script);
                build(script, &mut policy, files, pool, log, book)
            }
            Policy::HighestFirst => build(
                script,
                &mut HighestFirst::new(setting.patience),
                files,
                pool,
                log,
                book,
            ),
            Policy::Wishes => match ListPolicy::wishing(setting.patience, wishes.to_vec()) {
                Some(mut policy) => build(script, &mut policy, files, pool, log, book),
                None => build(script, &mut ScriptOrder, files, pool, log, book),
            },
        }
    }

    /// Reads, lays and builds a text; one that is refused before it is built is told as a refused build.
    fn release(&mut self, text: &[u8], setting: &Setting, wishes: &[u8]) -> (Script, BuildAnswer) {
        let script = match Script::read(text) {
            Ok(script) => script,
            Err(refused) => return (Script::empty(), Err(BuildRefusal::Begin(refused.refusal))),
        };
        let answer = match lay(&script, &mut self.files, &mut self.pool, &self.log) {
            Ok(()) => self.build(&script, setting, wishes),
            Err(refusal) => Err(BuildRefusal::Begin(refusal)),
        };
        (script, answer)
    }

    /// Releases the first text, then the second as often as the setting says, and accounts for the last of them.
    fn account(
        mut self,
        first: &[u8],
        second: &[u8],
        setting: &Setting,
        wishes: &[u8],
        out: &mut Vec<u8>,
    ) {
        let (mut script, mut answer) = self.release(first, setting, wishes);
        for _ in 0..setting.times {
            (script, answer) = self.release(second, setting, wishes);
        }
        let (number, stopped, counts) = told(&answer);
        out.push(number);
        out.push(stopped);
        out.extend((counts.executed as u16).to_be_bytes());
        out.extend((counts.skipped as u16).to_be_bytes());
        for file in 0..64 {
            out.extend(self.files.tell(file).to_be_bytes());
        }
        let mut buffer = [0; REPORT_BYTES];
        let length = report(&mut buffer, &answer, &script, &self.files, &self.pool).unwrap();
        out.extend((length as u16).to_be_bytes());
        out.extend(&buffer[..length]);
        let mut buffer = [0; TRACE_CAP];
        let length = save(&mut buffer, &self.pool, &self.book).unwrap_or(0);
        out.extend((length as u32).to_be_bytes());
        out.extend(&buffer[..length]);
    }
}

/// The number that a build was refused with, that of its first stop, and the counts.
fn told(answer: &BuildAnswer) -> (u8, u8, Counts) {
    match answer {
        Ok(built) => (
            0,
            built.first_stop.map_or(0, |stop| stop.number()),
            built.counts,
        ),
        Err(BuildRefusal::Begin(refusal)) => (refusal.number(), 0, Counts::default()),
        Err(BuildRefusal::Stopped {
            stop,
            first_stop,
            counts,
        }) => (stop.number(), first_stop.number(), *counts),
    }
}

impl Runner for Theirs {
    fn script(&mut self, text: &[u8]) -> Read {
        match Script::read(text) {
            Ok(script) => Read::Lines {
                lines: script.commands().len(),
                haves: script.haves().len(),
            },
            Err(refused) => Read::Refused {
                number: refused.number(),
                line: refused.text_line,
            },
        }
    }

    fn release(&mut self, text: &[u8]) -> &[u8] {
        let setting = Setting::RELEASE;
        let mut parts = Parts::new(Table::new(), &setting);
        let (script, answer) = parts.release(text, &setting, &[]);
        self.out.resize(REPORT_BYTES, 0);
        let length = report(&mut self.out, &answer, &script, &parts.files, &parts.pool).unwrap();
        &self.out[..length]
    }

    fn put(&mut self, list: &[u8], bytes: usize, places: usize) -> &[u8] {
        let mut pool = Pool::new(bytes, places);
        self.out.clear();
        let mut rest = list;
        while let [high, low, others @ ..] = rest {
            let length = usize::from(u16::from_be_bytes([*high, *low]));
            let Some((content, others)) = others.split_at_checked(length) else {
                break;
            };
            self.out
                .extend(pool.put(content).unwrap_or(0).to_be_bytes());
            rest = others;
        }
        &self.out
    }

    fn trace(&mut self, file: &[u8], setting: &Setting) -> Result<&[u8], u8> {
        let mut pool = Pool::new(setting.bytes, setting.places);
        let log = Log::new(0);
        let mut book = Book::new(setting.book);
        load(file, &mut pool, &log, &mut book).map_err(|refusal| refusal.number())?;
        for place in 0..book.records().len() {
            audit(place, &pool, &log, &mut book).map_err(|refusal| refusal.number())?;
        }
        self.out.resize(TRACE_CAP, 0);
        match save(&mut self.out, &pool, &book) {
            Ok(length) => Ok(&self.out[..length]),
            Err(refusal) => Err(refusal.number()),
        }
    }

    fn builds(&mut self, first: &[u8], second: &[u8], setting: &Setting, wishes: &[u8]) -> &[u8] {
        self.out.clear();
        if setting.image {
            Parts::new(Image::new(), setting).account(
                first,
                second,
                setting,
                wishes,
                &mut self.out,
            );
        } else {
            Parts::new(Table::new(), setting).account(
                first,
                second,
                setting,
                wishes,
                &mut self.out,
            );
        }
        &self.out
    }
}
