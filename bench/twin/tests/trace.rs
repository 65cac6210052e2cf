//! The trace file of the example, its damages, load and save.

mod common;

use common::{Parts, script};
use twin::*;

const WORKED: &str =
    "file 00 net/file 01 route/file 02 film/have net AB/copy net route/join route net film";

const EXAMPLE: [u8; 41] = [
    0, 2, 0, 2, 0x41, 0x42, 0, 4, 0x41, 0x42, 0x41, 0x42, // contents
    0, 2, // records
    1, 0, 1, 0, 0, 1, 0, 0, 1, 1, 0, 1, // copy net route
    2, 1, 0, 2, 0, 2, 1, 0, 1, 0, 0, 1, 2, 0, 2, // join route net film
];

fn worked() -> Parts {
    let mut parts = Parts::new();
    let script = script(WORKED);
    assert_eq!(parts.lay(&script), Ok(()));
    assert!(parts.build(&script, &mut ScriptOrder).is_ok());
    parts
}

fn damaged(changes: &[(usize, u8)]) -> Vec<u8> {
    let mut bytes = EXAMPLE.to_vec();
    for &(at, byte) in changes {
        bytes[at] = byte;
    }
    bytes
}

fn loaded(bytes: &[u8]) -> Option<u8> {
    let mut parts = Parts::new();
    let refusal = parts.load(bytes).err().map(Refusal::number);
    if refusal.is_some() {
        assert_eq!((parts.pool.extent(), parts.book.records().len()), (0, 0));
    }
    refusal
}

#[test]
fn the_example_is_saved() {
    assert_eq!(worked().saved(), EXAMPLE);
}

#[test]
fn the_example_damaged() {
    for length in 0..EXAMPLE.len() {
        assert_eq!(loaded(&EXAMPLE[..length]), Some(11), "{length}");
    }
    assert_eq!(loaded(&[&EXAMPLE[..], &[0]].concat()), Some(11));
    type Case<'a> = (&'a [(usize, u8)], Option<u8>);
    let table: [Case; 12] = [
        (&[(0, 4), (1, 1)], Some(12)),
        (&[(0, 0), (1, 3)], Some(12)),
        (&[(2, 0x10), (3, 1)], Some(12)),
        (&[(2, 0x10), (3, 0)], Some(11)),
        (&[(14, 7)], Some(12)),
        (&[(17, 5)], Some(12)),
        (&[(19, 0)], Some(12)),
        (&[(19, 0x11)], Some(12)),
        (&[(22, 2)], Some(12)),
        (&[(25, 2)], None),
        (&[(40, 1)], Some(12)),
        (&[(40, 3)], Some(12)),
    ];
    for (changes, refusal) in table {
        assert_eq!(loaded(&damaged(changes)), refusal, "{changes:?}");
    }
}

#[test]
fn fields_are_tested_from_front_to_back() {
    let table: [(&[u8], Option<u8>); 12] = [
        (&[0, 0, 0, 0], None),
        (&[], Some(11)),
        (&[4], Some(11)),
        (&[5, 0], Some(12)),
        (&[0, 0, 1, 1], Some(12)),
        (&[0, 2, 0, 0, 0, 0], Some(12)),    // two empty contents
        (&[0, 1, 0, 0, 0, 0], Some(12)),    // content 1 is not used
        (&[0, 1, 0, 0, 0, 0, 9], Some(12)), // ... which comes before bytes left
        (&[0, 0, 0, 1, 1, 64], Some(12)),
        (&[0, 0, 0, 1, 1, 0, 0, 1], Some(12)), // an unused file
        (&[0, 0, 0, 1, 1, 0, 0, 0, 0, 1, 0, 0], Some(11)),
        (&[0, 0, 0, 1, 1, 0, 0, 0, 0, 1, 0, 0, 1], Some(12)), // no content
    ];
    for (bytes, refusal) in table {
        assert_eq!(loaded(bytes), refusal, "{bytes:?}");
    }
}

#[test]
fn a_command_stands_once_in_a_file() {
    let record = [1, 0, 1, 0, 0, 1, 0, 0, 1, 1, 0, 1];
    let once = [&[0, 1, 0, 1, 9, 0, 1][..], &record].concat();
    assert_eq!(loaded(&once), None);
    let mut twice = [&[0, 1, 0, 1, 9, 0, 2][..], &record, &record[..5]].concat();
    assert_eq!(loaded(&twice), Some(12));
    twice.truncate(twice.len() - 1);
    assert_eq!(loaded(&twice), Some(11));
}

#[test]
fn what_is_loaded_and_saved_gives_its_own_bytes() {
    for bytes in [&EXAMPLE[..], &damaged(&[(25, 2)]), &[0, 0, 0, 0]] {
        let mut parts = Parts::new();
        assert_eq!(parts.load(bytes), Ok(()));
        let mut records = parts.book.records().iter();
        assert!(records.all(|record| record.standing == Standing::Hint));
        assert_eq!(parts.saved(), bytes);
    }
}

#[test]
fn the_longest_record_is_read() {
    let mut bytes = vec![0, 1, 0, 0, 0, 1, 3, 5, 6, 0, 0, 16];
    bytes.extend([63, 0, 1].repeat(17));
    assert_eq!(loaded(&bytes), None);
    assert_eq!(TRACE_CAP, 82_180);
}

#[test]
fn audits() {
    let mut parts = Parts::new();
    assert_eq!(parts.load(&damaged(&[(25, 2)])), Ok(()));
    assert_eq!(parts.audit(0), Ok(Standing::Struck));
    assert_eq!(parts.audit(1), Ok(Standing::Own));
    assert_eq!(parts.audit(1), Ok(Standing::Own));
    assert_eq!(parts.audit(2), Err(Refusal::NoSuchRecord));
    let ticket = parts.begin(&Script::empty());
    assert_eq!(parts.audit(0), Err(Refusal::RunOpen));
    assert_eq!(parts.load(&[9]), Err(Refusal::RunOpen));
    assert_eq!(parts.close(ticket, Wish::PutBack), Ok(Ending::PutBack));
    // A struck record is not saved, and a hint takes its place.
    assert_eq!(parts.saved()[..2], [0, 2]);
    assert_eq!(parts.saved().len(), 41 - 12);
    assert_eq!(parts.load(&EXAMPLE), Ok(()));
    let standings: Vec<_> = parts.book.records().iter().map(|r| r.standing).collect();
    assert_eq!(standings, [Standing::Hint, Standing::Own]);
}

/// A trace file of one record of a gather: the contents, the reads and the write by index.
fn gather_record(contents: &[&[u8]], reads: &[(u8, u8)], write: (u8, u8)) -> Vec<u8> {
    let mut bytes = vec![0, contents.len() as u8];
    for content in contents {
        bytes.extend((content.len() as u16).to_be_bytes());
        bytes.extend_from_slice(content);
    }
    bytes.extend([0, 1, 3, 0, 1, 0, 0, reads.len() as u8]);
    for (file, index) in reads.iter().chain([&write]) {
        bytes.extend([*file, 0, *index]);
    }
    bytes
}

#[test]
fn the_truth_of_gathers() {
    use Standing::{Own, Struck};
    type Case<'a> = (&'a [&'a [u8]], &'a [(u8, u8)], (u8, u8), Standing);
    let long = &[b'x'; 4_096][..];
    let table: [Case; 10] = [
        (&[b"02", b"x"], &[(0, 1), (2, 2)], (1, 2), Own),
        (&[b"02", b"x"], &[(0, 1), (3, 2)], (1, 2), Struck), // another file is listed
        (&[b"02", b"x"], &[(0, 1)], (1, 2), Struck),         // too few reads
        (&[b"", b"x"], &[(0, 1), (2, 2)], (1, 2), Struck),   // too many reads
        (&[b""], &[(0, 1)], (1, 1), Own),
        (&[b"0", b"x"], &[(0, 1)], (1, 2), Struck), // a bad list
        (&[b"02", b"x"], &[(0, 1), (2, 2)], (4, 2), Struck), // another file written
        (&[b"02", b"x", b"y"], &[(0, 1), (2, 2)], (1, 3), Struck), // other bytes
        (
            &[b"0202", b"x", b"y", b"xy"],
            &[(0, 1), (2, 2), (2, 3)],
            (1, 4),
            Own,
        ),
        (&[b"0202", long], &[(0, 1), (2, 2), (2, 2)], (1, 2), Struck), // too long
    ];
    for (contents, reads, write, standing) in table {
        let mut parts = Parts::new();
        assert_eq!(parts.load(&gather_record(contents, reads, write)), Ok(()));
        assert_eq!(parts.audit(0), Ok(standing), "{reads:?}");
    }
}

#[test]
fn an_own_record_stays() {
    let mut parts = worked();
    let before = parts.book.records().to_vec();
    let other = [0, 1, 0, 1, 9, 0, 1, 1, 0, 1, 0, 0, 1, 0, 0, 1, 1, 0, 1];
    assert_eq!(parts.load(&other), Ok(()));
    assert_eq!(parts.book.records(), before);
    assert_eq!(parts.pool.content(3), Some(&[9][..]));
}

#[test]
fn there_must_be_room_to_load() {
    let mut parts = Parts::new();
    parts.pool = Pool::new(5, 9);
    assert_eq!(parts.load(&EXAMPLE), Err(Refusal::NoRoomToLoad));
    assert_eq!(parts.pool.extent(), 0);
    let mut parts = Parts::new();
    parts.book = Book::new(1);
    assert_eq!(parts.load(&EXAMPLE), Err(Refusal::NoRoomToLoad));
    parts.book = Book::new(2);
    assert_eq!(parts.load(&EXAMPLE), Ok(()));
    assert_eq!(parts.load(&EXAMPLE), Ok(()));
}

#[test]
fn a_short_buffer_stays() {
    let parts = worked();
    let mut buffer = [7; 40];
    let answer = save(&mut buffer, &parts.pool, &parts.book);
    assert_eq!(answer, Err(Refusal::SaveBufferShort));
    assert_eq!(buffer, [7; 40]);
    let mut buffer = [7; 43];
    assert_eq!(save(&mut buffer, &parts.pool, &parts.book), Ok(41));
    assert_eq!(buffer[..41], EXAMPLE);
    assert_eq!(buffer[41..], [7, 7]);
}
