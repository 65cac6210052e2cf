//! The examples of a script's text, and the order of its tests.

mod common;

use common::{Parts, script};
use twin::*;

fn refused(text: &[u8]) -> (u8, usize) {
    let refused = Script::read(text).expect_err("the script is refused");
    (refused.number(), refused.text_line)
}

fn text(slashed: &str) -> Vec<u8> {
    slashed.replace('/', "\n").into_bytes()
}

#[test]
fn accepted_texts() {
    let table = [
        ("file 00 net/have net AB/copy net net/", (1, 1, 1)),
        ("", (0, 0, 0)),
        ("/  /   # any words, any count/", (0, 0, 0)),
        ("file 63 net", (1, 0, 0)),
        ("file 00 abcdefghijklmnop", (1, 0, 0)),
        ("file 00 net/have net #1", (1, 1, 0)),
        ("   file   00   net   /  have net   x ", (1, 1, 0)),
        ("file 00 a.-9/have a.-9 x/have a.-9 y", (1, 2, 0)),
    ];
    for (told, counts) in table {
        let script = Script::read(&text(told)).unwrap_or_else(|r| panic!("{told}: {r}"));
        let labels = (0..64).filter(|&file| script.label(file).is_some()).count();
        let found = (labels, script.haves().len(), script.commands().len());
        assert_eq!(found, counts, "{told}");
    }
}

#[test]
fn refused_texts() {
    let long = "W".repeat(4_097);
    let not_given = format!("have net {long}");
    let too_long = format!("file 00 net/{not_given}");
    let table = [
        ("# a\tb", (2, 1)),
        ("file 00 net\r", (2, 1)),
        ("Copy net film", (2, 1)),
        ("file xx", (2, 1)),
        ("copy net", (2, 1)),
        ("file 00 net/have net A B", (2, 2)),
        ("file 0 net", (3, 1)),
        ("file 64 net", (3, 1)),
        ("file 00 Net", (3, 1)),
        ("file 00 abcdefghijklmnopq", (3, 1)),
        ("file 00 net/file 00 film", (3, 2)),
        ("file 00 net/file 01 net", (3, 2)),
        ("have net AB/file 00 net", (3, 1)),
        ("file 00 net/copy net film", (3, 2)),
        ("copy a b c d e f g h", (2, 1)),
        ("file 000 net", (3, 1)),
        ("/# \u{7f}", (2, 2)),
        (&too_long, (5, 2)),
        (&not_given, (3, 1)),
    ];
    for (told, refusal) in table {
        assert_eq!(refused(&text(told)), refusal, "{told}");
    }
}

#[test]
fn a_content_of_4096_bytes_is_accepted() {
    let told = format!("file 00 net/have net {}", "W".repeat(4_096));
    assert_eq!(script(&told).haves()[0].content.len(), 4_096);
}

#[test]
fn the_65th_have_and_command() {
    let haves = format!("file 00 net/{}", "have net x/".repeat(64));
    let commands = format!("file 00 net/{}", "copy net net/".repeat(64));
    assert!(Script::read(&text(&haves)).is_ok());
    assert!(Script::read(&text(&commands)).is_ok());
    let long = "W".repeat(4_097);
    let table = [
        (format!("{haves}have net {long}"), (5, 66)),
        (format!("{haves}have net x"), (4, 66)),
        (format!("{commands}copy net film"), (3, 66)),
        (format!("{commands}copy net net"), (4, 66)),
    ];
    for (told, refusal) in table {
        assert_eq!(refused(&text(&told)), refusal);
    }
}

#[test]
fn the_length_is_tested_before_all_else() {
    assert_eq!(refused(&[9; 16_385]), (1, 0));
    assert_eq!(refused(&[9; 16_384]), (2, 1));
    assert!(Script::read(&[b'\n'; 16_384]).is_ok());
}

#[test]
fn words_are_parts_of_the_text() {
    let told = b"  have net\tx";
    let first = next_word(told, 0).expect("there is a word");
    assert_eq!((first.bytes, first.start), (&b"have"[..], 2));
    let second = next_word(told, first.start + first.bytes.len()).expect("there is a word");
    assert_eq!((second.bytes, second.start), (&b"net\tx"[..], 7));
    assert_eq!(next_word(told, 12), None);
    assert_eq!(next_word(told, 99), None);
}

#[test]
fn laying_sets_the_last_have_of_a_file() {
    let mut parts = Parts::new();
    let script = script("file 00 a/file 01 b/have a x/have a y/have b x");
    assert_eq!(parts.lay(&script), Ok(()));
    assert_eq!(parts.pool.extent(), 2);
    assert_eq!(parts.content(0), Some(&b"y"[..]));
    assert_eq!(parts.content(1), Some(&b"x"[..]));
}

#[test]
fn laying_is_all_or_nothing() {
    let mut parts = Parts::new();
    parts.pool = Pool::new(3, 10);
    let laid = script("file 00 a/have a xy/have a zz");
    assert_eq!(parts.lay(&laid), Err(Refusal::NoRoomToLay));
    assert_eq!(parts.pool.extent(), 0);
    assert_eq!(parts.files, Table::new());

    let ticket = parts.begin(&Script::empty());
    assert_eq!(parts.lay(&laid), Err(Refusal::RunOpen));
    assert_eq!(parts.close(ticket, Wish::Keep), Ok(Ending::Kept));
}
