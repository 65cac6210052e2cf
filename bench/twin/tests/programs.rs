//! The report, and what `release` prints.

mod common;

use std::io::Write;
use std::process::{Command, Stdio};

use common::{Parts, script};
use twin::*;

const WORKED: &str =
    "file 00 net/file 01 route/file 02 film/have net AB/copy net route/join route net film/";

/// What the program prints; it says nothing else and ends with status 0.
fn printed(program: &str, input: &[u8]) -> String {
    let mut child = Command::new(program)
        .stdin(Stdio::piped())
        .stdout(Stdio::piped())
        .stderr(Stdio::piped())
        .spawn()
        .expect("the program starts");
    let mut stdin = child.stdin.take().expect("a pipe");
    stdin.write_all(input).expect("the program reads");
    drop(stdin);
    let output = child.wait_with_output().expect("the program ends");
    assert!(output.status.success());
    assert!(output.stderr.is_empty());
    String::from_utf8(output.stdout).expect("ASCII")
}

#[test]
fn what_release_prints() {
    let table = [
        (
            WORKED,
            "kept executed 2 skipped 0/00 net 2/01 route 2/02 film 4/",
        ),
        ("", "kept executed 0 skipped 0/"),
        ("copy a b", "refused 3/"),
        (
            "file 00 a/have a x/copy a a",
            "stopped 33 read-write 00 0 0/00 a 1/",
        ),
        ("file 00 a/file 01 b/copy a b", "stopped 34 0/"),
        (
            "file 07 a/file 01 b/have a 64/gather a b",
            "stopped 35 0/07 a 2/",
        ),
        (
            "file 00 a/file 01 b/have a 01/have b xyz/gather a a",
            "stopped 33 read-write 00 0 0/00 a 2/01 b 3/",
        ),
    ];
    for (input, output) in table {
        let input = input.replace('/', "\n");
        let printed = printed(env!("CARGO_BIN_EXE_release"), input.as_bytes());
        assert_eq!(printed, output.replace('/', "\n"), "{input}");
    }
    let long = printed(env!("CARGO_BIN_EXE_release"), &[b'#'; 20_000]);
    assert_eq!(long, "refused 1\n");
}

#[test]
fn the_report_of_a_refused_begin() {
    let mut parts = Parts::new();
    parts.log = Log::new(0);
    parts.give(9, b"nine");
    let script = script(WORKED);
    let answer = parts.build(&script, &mut ScriptOrder);
    assert_eq!(parts.report(&answer, &script), "refused 22\n09 - 4\n");
}

#[test]
fn a_report_wants_2048_bytes() {
    let parts = Parts::new();
    let answer = Ok(Built {
        first_stop: None,
        counts: Counts::default(),
    });
    let script = Script::empty();
    let mut short = [7; 2_047];
    let refused = report(&mut short, &answer, &script, &parts.files, &parts.pool);
    assert_eq!(refused, Err(Refusal::ReportBufferShort));
    assert_eq!(short, [7; 2_047]);
    let mut long = [7; 2_050];
    let length = report(&mut long, &answer, &script, &parts.files, &parts.pool);
    assert_eq!(length, Ok(26));
    assert!(long[26..].iter().all(|&byte| byte == 7));
}

#[test]
fn the_program_console_answers() {
    let printed = printed(
        env!("CARGO_BIN_EXE_console"),
        b"lay\n# x\n\nnonsense\nfiles",
    );
    assert_eq!(printed, "ok\nwhat\n.\n");
}
