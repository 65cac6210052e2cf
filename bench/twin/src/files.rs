//! File stores: what keeps the content number of each of the 64 files.

use crate::Refusal;

/// How many files there are.
pub const FILES: usize = 64;
/// The bytes of an image.
pub const IMAGE_BYTES: usize = 1 + ENTRY_BYTES * FILES;

const ENTRY_BYTES: usize = 3;

/// A map that gives each of the files 0 to 63 a content number; 0 means absent.
pub trait FileStore {
    /// The file's number; 0 for a file above 63.
    fn tell(&self, file: u8) -> u16;
    /// Gives the file a number; does nothing for a file above 63.
    fn set(&mut self, file: u8, number: u16);
}

/// A plain table of 64 numbers.
#[derive(Clone, Debug, PartialEq, Eq)]
pub struct Table {
    numbers: [u16; FILES],
}

impl Table {
    pub fn new() -> Self {
        Self {
            numbers: [0; FILES],
        }
    }
}

impl Default for Table {
    fn default() -> Self {
        Self::new()
    }
}

impl FileStore for Table {
    fn tell(&self, file: u8) -> u16 {
        self.numbers.get(usize::from(file)).copied().unwrap_or(0)
    }

    fn set(&mut self, file: u8, number: u16) {
        if let Some(place) = self.numbers.get_mut(usize::from(file)) {
            *place = number;
        }
    }
}

/// The directory image: 193 bytes that are always the one layout of their map.
#[derive(Clone, Debug, PartialEq, Eq)]
pub struct Image {
    bytes: [u8; IMAGE_BYTES],
}

impl Image {
    pub fn new() -> Self {
        Self {
            bytes: [0; IMAGE_BYTES],
        }
    }

    /// Hands out the image.
    pub fn bytes(&self) -> &[u8; IMAGE_BYTES] {
        &self.bytes
    }

    /// Fills the image with bytes that were handed out. Refused, it stays as it was.
    pub fn fill(&mut self, bytes: &[u8]) -> Result<(), Refusal> {
        let bytes: &[u8; IMAGE_BYTES] = bytes.try_into().map_err(|_| Refusal::ImageSize)?;
        if !is_layout(bytes) {
            return Err(Refusal::ImageLayout);
        }
        self.bytes = *bytes;
        Ok(())
    }

    fn count(&self) -> usize {
        usize::from(self.bytes[0])
    }

    /// The place of the file's entry, or else the place where it would stand.
    fn find(&self, file: u8) -> Result<usize, usize> {
        let (entries, _) = self.bytes[1..].as_chunks::<ENTRY_BYTES>();
        entries[..self.count()].binary_search_by_key(&file, |entry| entry[0])
    }

    fn write_number(&mut self, place: usize, number: u16) {
        let at = entry_at(place);
        self.bytes[at + 1..at + ENTRY_BYTES].copy_from_slice(&number.to_be_bytes());
    }

    fn insert(&mut self, place: usize, file: u8) {
        let at = entry_at(place);
        // A file without an entry means at most 63 entries, so the last three bytes are zeros.
        self.bytes
            .copy_within(at..IMAGE_BYTES - ENTRY_BYTES, at + ENTRY_BYTES);
        self.bytes[at] = file;
        self.bytes[0] += 1;
    }

    fn remove(&mut self, place: usize) {
        let at = entry_at(place);
        self.bytes.copy_within(at + ENTRY_BYTES.., at);
        self.bytes[IMAGE_BYTES - ENTRY_BYTES..].fill(0);
        self.bytes[0] -= 1;
    }
}

impl Default for Image {
    fn default() -> Self {
        Self::new()
    }
}

impl FileStore for Image {
    fn tell(&self, file: u8) -> u16 {
        self.find(file).map_or(0, |place| {
            let at = entry_at(place);
            u16::from_be_bytes([self.bytes[at + 1], self.bytes[at + 2]])
        })
    }

    fn set(&mut self, file: u8, number: u16) {
        if usize::from(file) >= FILES {
            return;
        }
        match (self.find(file), number) {
            (Ok(place), 0) => self.remove(place),
            (Ok(place), _) => self.write_number(place, number),
            (Err(_), 0) => {}
            (Err(place), _) => {
                self.insert(place, file);
                self.write_number(place, number);
            }
        }
    }
}

const fn entry_at(place: usize) -> usize {
    1 + ENTRY_BYTES * place
}

fn is_layout(bytes: &[u8; IMAGE_BYTES]) -> bool {
    let count = usize::from(bytes[0]);
    if count > FILES {
        return false;
    }
    let (entries, rest) = bytes[1..].split_at(ENTRY_BYTES * count);
    let (entries, _) = entries.as_chunks::<ENTRY_BYTES>();
    entries
        .iter()
        .all(|&[file, high, low]| usize::from(file) < FILES && (high, low) != (0, 0))
        && entries.is_sorted_by(|before, after| before[0] < after[0])
        && rest.iter().all(|&byte| byte == 0)
}
