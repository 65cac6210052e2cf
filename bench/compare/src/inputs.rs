//! Random scripts, trace files and lists of contents: sound ones, and damaged ones.

use crate::random::Random;
use crate::runner::{Policy, Setting};

/// A script as it is made up, before it is written as a text.
#[derive(Clone)]
pub struct Board {
    /// File numbers; file `i` has the label `label(i)`.
    files: Vec<usize>,
    /// Starting contents, each with the place of its file.
    haves: Vec<(usize, Vec<u8>)>,
    /// Kind and places of files.
    lines: Vec<(Kind, [usize; 4])>,
}

#[derive(Clone, Copy)]
struct Kind {
    word: &'static str,
    files: usize,
}

const KINDS: [Kind; 6] = [
    Kind {
        word: "copy",
        files: 2,
    },
    Kind {
        word: "join",
        files: 3,
    },
    Kind {
        word: "gather",
        files: 2,
    },
    Kind {
        word: "choose",
        files: 4,
    },
    Kind {
        word: "tally",
        files: 2,
    },
    Kind {
        word: "check",
        files: 3,
    },
];

fn label(at: usize) -> String {
    format!("f{at}")
}

impl Board {
    /// A board of a few files and lines, now and then of many. Most lines read files that are there by then and write
    /// one that no earlier line has touched, so that script order often ends; some do not.
    pub fn random(random: &mut Random) -> Board {
        let count = if random.once_in(12) {
            random.between(1, 64)
        } else {
            random.between(2, 14)
        };
        let mut board = Board {
            files: distinct(random, count),
            haves: vec![],
            lines: vec![],
        };
        for file in 0..count {
            if random.once_in(2) {
                let content = board.content(random);
                board.haves.push((file, content));
            }
        }
        if random.once_in(60) {
            let file = random.below(count);
            board
                .haves
                .extend((60..random.between(60, 66)).map(|_| (file, b"again".to_vec())));
        }
        let lines = if random.once_in(12) {
            random.between(0, 66)
        } else {
            random.between(0, 9)
        };
        for _ in 0..lines {
            board.add_line(random);
        }
        board
    }

    /// A starting content: a word, an option, a list of files, or a long one.
    fn content(&self, random: &mut Random) -> Vec<u8> {
        match random.below(12) {
            0 => b"y".to_vec(),
            1 => b"yes".to_vec(),
            2 => b"no".to_vec(),
            3..=6 => self.list(random),
            7 => long(random, 4_096),
            8 => long(random, 2_100),
            9 => long(random, 200),
            _ => word(random, 6),
        }
    }

    /// A list of files, now and then a bad one.
    fn list(&self, random: &mut Random) -> Vec<u8> {
        let mut list = vec![];
        for _ in 0..random.between(1, 4) {
            let file = if random.once_in(30) {
                64
            } else {
                *random.one_of(&self.files)
            };
            list.extend(format!("{file:02}").bytes());
        }
        if random.once_in(30) {
            list.pop();
        }
        if random.once_in(60) {
            list = list.repeat(8);
        }
        list
    }

    fn add_line(&mut self, random: &mut Random) {
        let kind = *random.one_of(&KINDS);
        let mut files = [0; 4];
        for file in &mut files[..kind.files] {
            *file = random.below(self.files.len());
        }
        if !random.once_in(20) {
            let present = self.present();
            for file in &mut files[..kind.files - 1] {
                if !present.is_empty() {
                    *file = *random.one_of(&present);
                }
            }
            let free = self.untouched();
            if !free.is_empty() {
                files[kind.files - 1] = *random.one_of(&free);
            }
        }
        self.lines.push((kind, files));
    }

    /// The files that have a content by now, if all goes well.
    fn present(&self) -> Vec<usize> {
        let written = self.lines.iter().map(|(kind, files)| files[kind.files - 1]);
        self.haves
            .iter()
            .map(|(file, _)| *file)
            .chain(written)
            .collect()
    }

    /// The files that no line names so far.
    fn untouched(&self) -> Vec<usize> {
        let named = |file: &usize| {
            self.lines
                .iter()
                .any(|(kind, files)| files[..kind.files].contains(file))
        };
        (0..self.files.len()).filter(|file| !named(file)).collect()
    }

    /// The same board some days later: a content or a line is another, or one is more.
    pub fn later(&self, random: &mut Random) -> Board {
        let mut board = self.clone();
        for _ in 0..random.below(3) {
            match random.below(5) {
                0 => board.add_line(random),
                1 if !board.lines.is_empty() => {
                    let at = random.below(board.lines.len());
                    board.lines.remove(at);
                }
                2 => {
                    let file = random.below(board.files.len());
                    let content = board.content(random);
                    board.haves.push((file, content));
                }
                _ if !board.haves.is_empty() => {
                    let at = random.below(board.haves.len());
                    board.haves[at].1 = board.content(random);
                }
                _ => {}
            }
        }
        board
    }

    /// The board as a script.
    pub fn text(&self, random: &mut Random) -> Vec<u8> {
        let mut text = vec![];
        for (at, number) in self.files.iter().enumerate() {
            text.extend(format!("file {number:02} {}\n", label(at)).bytes());
        }
        for (file, content) in &self.haves {
            text.extend(format!("have {} ", label(*file)).bytes());
            text.extend(content);
            text.push(b'\n');
        }
        for (kind, files) in &self.lines {
            text.extend(kind.word.bytes());
            for file in &files[..kind.files] {
                text.extend(format!(" {}", label(*file)).bytes());
            }
            text.push(b'\n');
            if random.once_in(20) {
                text.extend(
                    random
                        .one_of::<&[u8]>(&[b"# a note\n", b"\n", b"   \n"])
                        .iter(),
                );
            }
        }
        if random.once_in(3) {
            text.pop();
        }
        text
    }
}

/// Some different file numbers.
fn distinct(random: &mut Random, count: usize) -> Vec<usize> {
    let mut numbers: Vec<usize> = (0..64).collect();
    for at in 0..count {
        let other = random.between(at, 63);
        numbers.swap(at, other);
    }
    numbers.truncate(count);
    numbers
}

fn word(random: &mut Random, most: usize) -> Vec<u8> {
    (0..random.between(1, most))
        .map(|_| random.between(33, 126) as u8)
        .collect()
}

/// Many equal bytes, but for the last.
fn long(random: &mut Random, most: usize) -> Vec<u8> {
    let length = random.between(most - most / 20, most);
    let mut content = vec![b'x'; length];
    content[length - 1] = random.between(33, 126) as u8;
    content
}

/// Damages a text: bytes are changed, taken out, put in or doubled.
pub fn damage_text(text: &mut Vec<u8>, random: &mut Random) {
    let bytes = b"\t\r\n #ab0179_X\x7f\x80";
    damage(text, random, |random| *random.one_of(bytes));
}

/// Damages a trace file, most often in one byte of small value.
pub fn damage_trace(file: &mut Vec<u8>, random: &mut Random) {
    damage(file, random, |random| {
        if random.once_in(4) {
            random.below(256) as u8
        } else {
            random.below(8) as u8
        }
    });
}

fn damage(bytes: &mut Vec<u8>, random: &mut Random, byte: impl Fn(&mut Random) -> u8) {
    for _ in 0..random.between(1, 2) {
        let at = random.below(bytes.len() + 1);
        let value = byte(random);
        match random.below(6) {
            0 if at < bytes.len() => {
                bytes.remove(at);
            }
            1 => bytes.insert(at, value),
            2 if random.once_in(3) => bytes.truncate(at),
            3 if at < bytes.len() => {
                let end = (at + random.between(1, 60)).min(bytes.len());
                let part = bytes[at..end].to_vec();
                bytes.splice(at..at, part);
            }
            _ if at < bytes.len() => bytes[at] = value,
            _ => bytes.push(value),
        }
    }
}

/// Memory that is most often enough, and any policy.
pub fn setting(random: &mut Random) -> Setting {
    let tight = random.once_in(4);
    Setting {
        times: random.below(3),
        bytes: if tight {
            random.between(0, 400)
        } else {
            65_536
        },
        places: if tight { random.between(0, 20) } else { 1_024 },
        log: if random.once_in(20) {
            random.between(0, 300)
        } else {
            1_088
        },
        book: if random.once_in(20) {
            random.between(60, 70)
        } else {
            256
        },
        policy: *random.one_of(&[
            Policy::ScriptOrder,
            Policy::LastRun,
            Policy::HighestFirst,
            Policy::Wishes,
        ]),
        patience: random.below(40) as u8,
        image: random.once_in(2),
    }
}

/// Wishes for lines, a few of them for lines that there are not.
pub fn wishes(random: &mut Random) -> Vec<u8> {
    let most = if random.once_in(3) { 70 } else { 10 };
    (0..random.between(0, 20))
        .map(|_| random.below(most) as u8)
        .collect()
}

/// A list of contents, each after its length in two bytes; some stand there twice, and the last may be cut off.
pub fn list(random: &mut Random) -> Vec<u8> {
    let mut list = vec![];
    let most = *random.one_of(&[0, 1, 3, 40]);
    for _ in 0..random.between(0, 60) {
        let length = if random.once_in(40) {
            random.between(4_090, 4_100)
        } else {
            random.between(0, most)
        };
        list.extend((length as u16).to_be_bytes());
        list.extend((0..length).map(|_| random.between(97, 99) as u8));
    }
    if random.once_in(8) {
        list.pop();
    }
    list
}
