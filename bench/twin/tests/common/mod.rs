#![allow(dead_code)] // each test file uses its own part of this

use twin::*;

/// The four parts, with room enough for every script.
pub struct Parts {
    pub files: Table,
    pub pool: Pool,
    pub log: Log,
    pub book: Book,
}

impl Parts {
    pub fn new() -> Self {
        Self {
            files: Table::new(),
            pool: Pool::new(65_536, 1_024),
            log: Log::new(1_088),
            book: Book::new(256),
        }
    }

    pub fn lay(&mut self, script: &Script) -> Result<(), Refusal> {
        lay(script, &mut self.files, &mut self.pool, &self.log)
    }

    pub fn begin(&mut self, script: &Script) -> Ticket {
        begin(script, &self.files, &self.pool, &mut self.log, &self.book)
    }

    pub fn step(
        &mut self,
        ticket: &Ticket,
        policy: &mut impl Policy,
    ) -> Result<Stepped, StepRefusal> {
        step(
            ticket,
            policy,
            &mut self.files,
            &mut self.pool,
            &mut self.log,
            &self.book,
        )
    }

    pub fn close(&mut self, ticket: Ticket, wish: Wish) -> Result<Ending, CloseRefusal> {
        close(
            ticket,
            wish,
            &mut self.files,
            &mut self.pool,
            &mut self.log,
            &mut self.book,
        )
    }

    pub fn build(&mut self, script: &Script, policy: &mut impl Policy) -> BuildAnswer {
        build(
            script,
            policy,
            &mut self.files,
            &mut self.pool,
            &mut self.log,
            &mut self.book,
        )
    }

    pub fn load(&mut self, bytes: &[u8]) -> Result<(), Refusal> {
        load(bytes, &mut self.pool, &self.log, &mut self.book)
    }

    pub fn audit(&mut self, place: usize) -> Result<Standing, Refusal> {
        audit(place, &self.pool, &self.log, &mut self.book)
    }

    pub fn saved(&self) -> Vec<u8> {
        let mut buffer = vec![0; TRACE_CAP];
        let length = save(&mut buffer, &self.pool, &self.book).expect("the buffer is long enough");
        buffer.truncate(length);
        buffer
    }

    pub fn report(&self, answer: &BuildAnswer, script: &Script) -> String {
        let mut buffer = [0; REPORT_BYTES];
        let length = report(&mut buffer, answer, script, &self.files, &self.pool)
            .expect("the buffer is long enough");
        String::from_utf8(buffer[..length].to_vec()).expect("a report is ASCII")
    }

    /// The content of a file; none if it is absent.
    pub fn content(&self, file: u8) -> Option<&[u8]> {
        self.pool.content(self.files.tell(file))
    }

    /// Puts a content in the pool and gives it to a file.
    pub fn give(&mut self, file: u8, content: &[u8]) {
        let number = self.pool.put(content).expect("there is room");
        self.files.set(file, number);
    }
}

/// A script whose text has a slash for each byte 10.
pub fn script(text: &str) -> Script {
    Script::read(text.replace('/', "\n").as_bytes()).expect("the script is accepted")
}

pub fn entry(line: u8, act: Act, file: u8, number: u16) -> Entry {
    Entry {
        line,
        act,
        file,
        number,
    }
}

/// The numbers of all files.
pub fn numbers(files: &impl FileStore) -> Vec<u16> {
    (0..64).map(|file| files.tell(file)).collect()
}
