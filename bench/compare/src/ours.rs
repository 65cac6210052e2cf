//! The proved runner, through the functions that its static library exports. Their contracts have no premise, so any
//! numbers and slices may be given; what is left to this side is that a slice crosses as a pointer and its length.

use crate::runner::{Policy, Read, Runner, Setting};

#[repr(C)]
#[derive(Default)]
struct Figures {
    lines: usize,
    haves: usize,
    refused_at: usize,
}

#[repr(C)]
struct BuildSetting {
    times: usize,
    places: usize,
    log: usize,
    book: usize,
    policy: u8,
    patience: u8,
    image: bool,
}

unsafe extern "C" {
    fn boundary_release(text: *const u8, length: usize, report: *mut u8, room: usize) -> usize;
    fn boundary_script(text: *const u8, length: usize, figures: *mut Figures) -> u8;
    fn boundary_put(
        list: *const u8,
        length: usize,
        bytes: *mut u8,
        lent: usize,
        places: usize,
        numbers: *mut u8,
        room: usize,
    ) -> usize;
    fn boundary_trace(
        file: *const u8,
        length: usize,
        bytes: *mut u8,
        lent: usize,
        places: usize,
        book: usize,
        out: *mut u8,
        room: usize,
        saved: *mut usize,
    ) -> u8;
    fn boundary_builds(
        first: *const u8,
        first_length: usize,
        second: *const u8,
        second_length: usize,
        setting: *const BuildSetting,
        wishes: *const u8,
        wishes_length: usize,
        bytes: *mut u8,
        lent: usize,
        out: *mut u8,
        room: usize,
    ) -> usize;
}

/// The most bytes that a build's account takes.
const ROOM: usize = 90_000;

/// The memory that is lent to the calls.
pub struct Ours {
    bytes: Vec<u8>,
    out: Vec<u8>,
}

impl Ours {
    pub fn new() -> Ours {
        Ours {
            bytes: vec![0; 65_536],
            out: vec![0; ROOM],
        }
    }
}

impl Default for Ours {
    fn default() -> Ours {
        Ours::new()
    }
}

impl Runner for Ours {
    fn script(&mut self, text: &[u8]) -> Read {
        let mut figures = Figures::default();
        // The pointers are those of a slice with its length, and of a struct of the same layout.
        let number = unsafe { boundary_script(text.as_ptr(), text.len(), &mut figures) };
        match number {
            0 => Read::Lines {
                lines: figures.lines,
                haves: figures.haves,
            },
            _ => Read::Refused {
                number,
                line: figures.refused_at,
            },
        }
    }

    fn release(&mut self, text: &[u8]) -> &[u8] {
        let room = 2_048;
        let report = &mut self.out[..room];
        // The pointers are those of slices with their lengths.
        let length =
            unsafe { boundary_release(text.as_ptr(), text.len(), report.as_mut_ptr(), room) };
        &self.out[..length]
    }

    fn put(&mut self, list: &[u8], bytes: usize, places: usize) -> &[u8] {
        let lent = &mut self.bytes[..bytes];
        let numbers = &mut self.out;
        // The pointers are those of slices with their lengths.
        let count = unsafe {
            boundary_put(
                list.as_ptr(),
                list.len(),
                lent.as_mut_ptr(),
                lent.len(),
                places,
                numbers.as_mut_ptr(),
                numbers.len(),
            )
        };
        &self.out[..2 * count]
    }

    fn trace(&mut self, file: &[u8], setting: &Setting) -> Result<&[u8], u8> {
        let lent = &mut self.bytes[..setting.bytes];
        let out = &mut self.out;
        let mut length = 0;
        // The pointers are those of slices with their lengths, and of a number.
        let number = unsafe {
            boundary_trace(
                file.as_ptr(),
                file.len(),
                lent.as_mut_ptr(),
                lent.len(),
                setting.places,
                setting.book,
                out.as_mut_ptr(),
                out.len(),
                &mut length,
            )
        };
        match number {
            0 => Ok(&self.out[..length]),
            _ => Err(number),
        }
    }

    fn builds(&mut self, first: &[u8], second: &[u8], setting: &Setting, wishes: &[u8]) -> &[u8] {
        let lent = &mut self.bytes[..setting.bytes];
        let out = &mut self.out;
        let how = BuildSetting {
            times: setting.times,
            places: setting.places,
            log: setting.log,
            book: setting.book,
            policy: match setting.policy {
                Policy::ScriptOrder => 0,
                Policy::LastRun => 1,
                Policy::HighestFirst => 2,
                Policy::Wishes => 3,
            },
            patience: setting.patience,
            image: setting.image,
        };
        // The pointers are those of slices with their lengths, and of a struct of the same layout.
        let length = unsafe {
            boundary_builds(
                first.as_ptr(),
                first.len(),
                second.as_ptr(),
                second.len(),
                &how,
                wishes.as_ptr(),
                wishes.len(),
                lent.as_mut_ptr(),
                lent.len(),
                out.as_mut_ptr(),
                out.len(),
            )
        };
        &self.out[..length]
    }
}
