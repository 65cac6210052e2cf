//! The console: the session of its page, and lines of every sort.

use twin::console::{Console, converse};

fn hex(text: &str) -> String {
    text.bytes().map(|byte| format!("{byte:02x}")).collect()
}

/// Asks what stands after `>` and compares the answers that follow it.
fn follow(session: &str) {
    let mut console = Console::new();
    let mut lines = session.lines().map(str::trim).peekable();
    while let Some(line) = lines.next() {
        let Some(command) = line.strip_prefix("> ") else {
            continue;
        };
        let mut expected = String::new();
        while let Some(answer) = lines.next_if(|line| !line.starts_with('>')) {
            if !answer.is_empty() {
                expected += answer;
                expected.push('\n');
            }
        }
        let command = match command.split_once('|') {
            Some(("script ", text)) => format!("script {}", hex(&text.replace('/', "\n"))),
            _ => command.into(),
        };
        assert_eq!(
            console.answer_line(command.as_bytes()),
            expected,
            "{command}"
        );
    }
}

#[test]
fn the_stack_list_that_gained_a_layer() {
    follow(
        "
        > script |file 00 plane/file 01 inner/file 02 top/file 03 stack/file 04 film/have plane GND1/have top TOP1/have stack 02/copy plane inner/gather stack film/
        lines 2 haves 3
        > lay
        ok
        > build
        kept executed 2 skipped 0
        > report
        kept executed 2 skipped 0
        00 plane 4
        01 inner 4
        02 top 4
        03 stack 2
        04 film 4
        > book
        own 1 0 1 0 0 : 00 1 > 01 1
        own 3 3 4 0 0 : 03 3 02 2 > 04 2
        .
        > script |file 00 plane/file 01 inner/file 02 top/file 03 stack/file 04 film/have plane GND2/have top TOP1/have stack 0201/copy plane inner/gather stack film/
        lines 2 haves 3
        > lay
        ok
        > pool
        1 474e4431
        2 544f5031
        3 3032
        4 474e4432
        5 30323031
        .
        > policy last 4
        ready
        > begin
        live
        > step
        act 1
        > step
        act 1
        > step
        act 1
        > step
        act 1
        > log
        1 r 03 5
        1 r 02 2
        1 r 01 1
        1 w 04 6
        .
        > step
        act 0
        > step
        act 0 stopped 33 read-write 01 1 0 1 4
        > close keep
        stopped 33 read-write 01 1 0 1 4
        > files
        00 4
        01 1
        02 2
        03 5
        04 2
        .
        > policy last 4
        ready
        > build
        kept executed 4 skipped 0 first stopped 33 read-write 01 1 0 1 4
        > report
        kept executed 4 skipped 0
        00 plane 4
        01 inner 4
        02 top 4
        03 stack 4
        04 film 8
        > pool
        1 474e4431
        2 544f5031
        3 3032
        4 474e4432
        5 30323031
        6 544f5031474e4432
        .
        > book
        own 1 0 1 0 0 : 00 4 > 01 4
        own 3 3 4 0 0 : 03 5 02 2 01 4 > 04 6
        .
        > policy last 4
        ready
        > build
        kept executed 0 skipped 2
        ",
    );
}

#[test]
fn refusals_and_stops() {
    follow(
        "
        > step
        what
        > close keep
        what
        > report
        what
        > save
        saved 00000000
        > audit 0
        refused 15
        > load -
        refused 11
        > load 0401
        refused 12
        > script |file 00 a/copy a
        refused 2 2
        > script |file 00 a/file 01 b/have a x/copy a b/copy a a/
        lines 2 haves 1
        > begin
        live
        > begin
        blank 20
        > lay
        refused 20
        > load -
        refused 20
        > audit 0
        refused 20
        > build
        refused 20
        > report
        refused 20
        > step
        act 0 stopped 34 0
        > step
        refused 26 stopped 34 0
        > close back
        stopped 34 0
        > close back
        what
        > lay
        ok
        > begin
        live
        > step
        act 0
        > close keep
        refused 28
        > build
        stopped 33 read-write 00 0 1 1 1 executed 4 skipped 0 first stopped 33 read-write 00 0 1 1 1
        > log
        0 r 00 1
        0 w 01 1
        1 r 00 1
        1 w 00 1
        .
        > report
        stopped 33 read-write 00 0 1
        00 a 1
        > script -
        lines 0 haves 0
        > begin
        live
        > step
        refused 27
        > close back
        put back
        > start table 0 0 0 0
        started
        > begin
        blank 23
        > report
        stopped 33 read-write 00 0 1
        ",
    );
}

#[test]
fn an_image_and_a_trace_file() {
    let zeros = "0".repeat(384);
    let rest = "0".repeat(372);
    let held = format!("01000001000000{rest}");
    // One content, `A`, and one record: `copy` of file 0 to file 1.
    let trace = "0001000141000101000100000100000101 0001".replace(' ', "");
    follow(&format!(
        "
        > image
        what
        > image 00
        what
        > start image 65536 1024 1088 256
        started
        > image
        00{zeros}
        > image {held}
        ok
        > image 00
        refused 6
        > image 01{zeros}
        refused 7
        > files
        00 1
        .
        > begin
        blank 24
        > load {trace}
        ok
        > book
        hint 1 0 1 0 0 : 00 1 > 01 1
        .
        > audit 00
        own
        > save
        saved {trace}
        > begin
        live
        > image {held}
        what
        > image
        {held}
        > close back
        put back
        > script |file 00 a/file 01 b/copy a b/
        lines 1 haves 0
        > begin
        live
        > step
        skip 0
        > close keep
        kept
        > build
        kept executed 0 skipped 1
        > image
        02000001010001{rest}
        "
    ));
}

#[test]
fn malformed_lines() {
    let mut console = Console::new();
    let lines = "STEP/step now/start/start table 1 2 3/start table 65537 1 1 1/start table 1 1025 1 1/\
                 start table 1 1 2049 1/start table 1 1 1 257/start disk 1 1 1 1/script/script 0/\
                 script 0A/script --/script 00 00/policy/policy last/policy last 256/policy high x/\
                 policy order 1/policy list 1/policy list 1 /policy list 1 ,/policy list 1 1,/\
                 policy list 1 64/policy list 1 1, 2/audit/audit 65536/audit 0000000001/audit -1/\
                 close/close kept/image zz/lay now/\t/lay\r/help me/load 0g/audit +1";
    for line in lines.split('/') {
        assert_eq!(console.answer_line(line.as_bytes()), "what\n", "{line}");
    }
    let too_many = format!("policy list 1 {}", vec!["1"; 65].join(","));
    assert_eq!(console.answer_line(too_many.as_bytes()), "what\n");
    assert_eq!(console.answer_line(b"\xff\xfe"), "what\n");
}

#[test]
fn well_formed_lines() {
    let mut console = Console::new();
    let most = format!("policy list 255 {}", vec!["063"; 64].join(","));
    let table = [
        ("", ""),
        ("   ", ""),
        ("# anything", ""),
        ("  #", ""),
        ("  policy   last   000000255  ", "ready\n"),
        ("policy high 0", "ready\n"),
        (&most, "ready\n"),
        ("audit 000065535\n", "refused 15\n"),
        ("start table 65536 1024 2048 256", "started\n"),
        ("start image 000000000 0 0 0", "started\n"),
    ];
    for (line, answer) in table {
        assert_eq!(console.answer_line(line.as_bytes()), answer, "{line}");
    }
    assert!(!console.answer_line(b"help").is_empty());
}

#[test]
fn the_last_line_may_lack_its_end() {
    let mut output = Vec::new();
    converse(&b"pool\n\n  files"[..], &mut output).expect("memory takes all");
    assert_eq!(output, b".\n.\n");
}
