//! Runs: acts, hazards, stops, skips, close and build.

mod common;

use common::{Parts, entry, numbers, script};
use twin::Act::{Read, Write};
use twin::*;

const FILES_ABCD: &str = "file 00 a/file 01 b/file 02 c/file 03 d/";

/// The build of one line over files with contents, in script order.
fn built(line: &str, contents: &[&[u8]]) -> (Parts, BuildAnswer) {
    let mut parts = Parts::new();
    for (file, content) in (0..).zip(contents) {
        parts.give(file, content);
    }
    let script = script(&format!("{FILES_ABCD}{line}"));
    let answer = parts.build(&script, &mut ScriptOrder);
    (parts, answer)
}

fn stop_number(answer: &BuildAnswer) -> Option<u8> {
    answer.as_ref().err().map(BuildRefusal::number)
}

#[test]
fn what_lines_write() {
    let large = vec![b'x'; 2_048];
    type Case<'a> = (&'a str, &'a [&'a [u8]], u8, &'a [u8]);
    let table: [Case; 14] = [
        ("copy a b", &[b"x"], 1, b"x"),
        ("join a b c", &[b"x", b"yz"], 2, b"xyz"),
        ("join a a c", &[b"x"], 2, b"xx"),
        ("join a b c", &[&large, &large], 2, &[b'x'; 4_096]),
        ("tally a b", &[&[0; 63]], 1, &[0, 0, 0, 0]),
        ("tally a b", &[&[0; 100]], 1, &[0, 0, 0, 1]),
        ("tally a b", &[&[0; 4_096]], 1, &[0, 0, 0, 64]),
        ("gather a b", &[b""], 1, b""),
        ("gather a d", &[b"010201", b"x", b"y"], 3, b"xyx"),
        ("choose a b c d", &[b"yellow", b"B", b"C"], 3, b"B"),
        ("choose a b c d", &[b"", b"B", b"C"], 3, b"C"),
        ("choose a b c d", &[b"Y", b"B", b"C"], 3, b"C"),
        ("check a b c", &[b"x", b"x"], 2, b"same"),
        ("check a b c", &[b"x", b"y"], 2, b"diff"),
    ];
    for (line, contents, file, written) in table {
        let (parts, answer) = built(line, contents);
        assert!(answer.is_ok(), "{line}: {answer:?}");
        assert_eq!(parts.content(file), Some(written), "{line}");
    }
}

#[test]
fn what_stops_a_line() {
    let half = vec![b'x'; 2_048];
    let table: [(&str, &[&[u8]], u8); 7] = [
        ("gather a b", &[b"010"], 35),
        ("gather a b", &[b"64"], 35),
        ("gather a b", &[b"09"], 34),
        ("copy a b", &[], 34),
        ("copy a a", &[b"x"], 33),
        ("join a b c", &[&half, &[b'y'; 2_049]], 31),
        ("gather a d", &[b"0101", &[b'y'; 2_049]], 31),
    ];
    for (line, contents, number) in table {
        let (parts, answer) = built(line, contents);
        assert_eq!(stop_number(&answer), Some(number), "{line}");
        assert_eq!(parts.pool.extent(), contents.len(), "{line}");
        assert_eq!(parts.log.stop().map(Stop::number), Some(number));
        assert!(parts.book.records().is_empty());
    }
}

fn hazard_of(kind: HazardKind, earlier: Entry, later: Entry) -> Option<Hazard> {
    Some(Hazard {
        kind,
        earlier,
        later,
    })
}

#[test]
fn copy_onto_itself() {
    let (parts, answer) = built("copy a a", &[b"x"]);
    let (read, write) = (entry(0, Read, 0, 1), entry(0, Write, 0, 1));
    let Err(BuildRefusal::Stopped { stop, .. }) = answer else {
        panic!("{answer:?}");
    };
    let hazard = hazard_of(HazardKind::ReadWrite, read, write);
    assert_eq!((stop.line, stop.hazard().copied()), (0, hazard));
    assert_eq!(parts.log.entries(), [read, write]);
    let states: Vec<_> = parts.log.states().collect();
    assert_eq!(states, [LineState::Ended]);
}

/// A build with a highest-line-first policy of patience 8, all files present.
fn built_highest(lines: &str) -> (Parts, BuildAnswer) {
    let mut parts = Parts::new();
    for (file, content) in (0..).zip([b"A", b"B", b"C"]) {
        parts.give(file, content);
    }
    let script = script(&format!("{FILES_ABCD}{lines}"));
    let answer = parts.build(&script, &mut HighestFirst::new(8));
    (parts, answer)
}

#[test]
fn a_build_that_is_refused() {
    let (parts, answer) = built_highest("copy a b/copy c a");
    let Err(BuildRefusal::Stopped {
        stop,
        first_stop,
        counts,
    }) = answer
    else {
        panic!("{answer:?}");
    };
    assert_eq!(
        first_stop.hazard().copied(),
        hazard_of(
            HazardKind::SpeculativeWriteRead,
            entry(1, Write, 0, 3),
            entry(0, Read, 0, 3)
        )
    );
    assert_eq!(
        stop.hazard().copied(),
        hazard_of(
            HazardKind::ReadWrite,
            entry(0, Read, 0, 1),
            entry(1, Write, 0, 3)
        )
    );
    let expected = Counts {
        executed: 4,
        skipped: 0,
    };
    assert_eq!(counts, expected);
    assert_eq!(numbers(&parts.files)[..4], [1, 2, 3, 0]);
    assert_eq!(parts.log.entries().len(), 4);
    assert!(!parts.log.is_open());
}

#[test]
fn a_build_that_runs_twice() {
    let (parts, answer) = built_highest("copy a b/copy b c");
    let built = answer.expect("the build is kept");
    let first_stop = built.first_stop.expect("the first run stopped");
    assert_eq!(
        first_stop.hazard().copied(),
        hazard_of(
            HazardKind::ReadWrite,
            entry(1, Read, 1, 2),
            entry(0, Write, 1, 1)
        )
    );
    let expected = Counts {
        executed: 4,
        skipped: 0,
    };
    assert_eq!(built.counts, expected);
    assert_eq!(numbers(&parts.files)[..4], [1, 1, 1, 0]);
}

#[test]
fn states_follow_the_entries() {
    use LineState::{Ended, Reading, Waiting, Writing};
    let mut parts = Parts::new();
    for (file, content) in (0..).zip([&b"02"[..], b"B", b"C"]) {
        parts.give(file, content);
    }
    let script = script(&format!("{FILES_ABCD}gather a b/copy d a"));
    let ticket = parts.begin(&script);
    let mut seen = vec![parts.log.states().collect::<Vec<_>>()];
    while parts.step(&ticket, &mut ScriptOrder).is_ok() {
        seen.push(parts.log.states().collect());
    }
    let expected = [
        [Waiting, Waiting],
        [Reading, Waiting],
        [Writing, Waiting],
        [Ended, Waiting],
        [Ended, Reading], // d is absent
    ];
    assert!(seen.iter().eq(expected.iter()), "{seen:?}");
    let refused = parts.step(&ticket, &mut ScriptOrder).expect_err("stopped");
    assert_eq!(refused.number(), 26);
    let refused = parts.close(ticket, Wish::PutBack).expect_err("stopped");
    assert_eq!(refused.number(), 34);
    let states: Vec<_> = parts.log.states().collect();
    assert_eq!(states, [Ended, Reading]);
}

#[test]
fn the_refusals_of_begin() {
    let script = script(&format!("{FILES_ABCD}copy a b/copy a c"));
    let small_log = |places| Parts {
        log: Log::new(places),
        ..Parts::new()
    };
    let small_book = Parts {
        book: Book::new(63),
        ..Parts::new()
    };
    let mut unknown = Parts::new();
    unknown.files.set(63, 1);
    let mut both = small_log(33);
    both.book = Book::new(0);
    let table = [
        (Parts::new(), None),
        (small_log(34), None),
        (small_log(33), Some(22)),
        (both, Some(22)),
        (small_book, Some(23)),
        (unknown, Some(24)),
    ];
    for (mut parts, number) in table {
        let ticket = parts.begin(&script);
        assert_eq!(ticket.refusal().map(Refusal::number), number);
        assert_eq!(ticket.is_live(), parts.log.is_open());
        let closed = parts.close(ticket, Wish::PutBack);
        assert_eq!(closed.err().map(|refused| refused.number()), number);
        let answer = parts.build(&script, &mut ScriptOrder);
        assert_eq!(stop_number(&answer), number.or(Some(34)));
    }
}

#[test]
fn blank_tickets_answer_first() {
    let mut parts = Parts::new();
    let live = parts.begin(&Script::empty());
    let blank = parts.begin(&Script::empty());
    assert_eq!(blank.refusal(), Some(Refusal::RunOpen));
    let refused = parts.step(&blank, &mut ScriptOrder).expect_err("blank");
    assert_eq!(refused.number(), 20);
    let refused = parts.close(blank, Wish::Keep).expect_err("blank");
    assert_eq!(refused.number(), 20);
    assert!(parts.log.is_open());
    let refused = parts.step(&live, &mut ScriptOrder).expect_err("all ended");
    assert_eq!(refused, StepRefusal::LinesEnded);
    assert_eq!(parts.close(live, Wish::Keep), Ok(Ending::Kept));
}

#[test]
fn a_ticket_names_no_log() {
    let mut parts = Parts::new();
    let ticket = parts.begin(&Script::empty());
    let mut others = Parts::new();
    let refused = others.step(&ticket, &mut ScriptOrder).expect_err("no run");
    assert_eq!(refused.number(), 29);
    let refused = others.close(ticket, Wish::Keep).expect_err("no run");
    assert_eq!(refused.number(), 29);
}

#[test]
fn lines_left_put_the_run_back() {
    let script = script(&format!("{FILES_ABCD}have a x/tally a b/copy a c"));
    for (wish, answer) in [
        (Wish::Keep, Err(CloseRefusal::LinesLeft)),
        (Wish::PutBack, Ok(Ending::PutBack)),
    ] {
        let mut parts = Parts::new();
        assert_eq!(parts.lay(&script), Ok(()));
        let ticket = parts.begin(&script);
        for _ in 0..3 {
            assert!(parts.step(&ticket, &mut ScriptOrder).is_ok());
        }
        assert_eq!(parts.pool.extent(), 2);
        assert_eq!(parts.close(ticket, wish), answer);
        assert_eq!(parts.pool.extent(), 1);
        assert_eq!(numbers(&parts.files)[..2], [1, 0]);
        assert_eq!(parts.log.entries().len(), 3);
    }
}

#[test]
fn a_full_pool_stops_only_new_contents() {
    let script = script(&format!("{FILES_ABCD}have a same/check a a b/tally a c"));
    let mut parts = Parts::new();
    parts.pool = Pool::new(4, 1);
    assert_eq!(parts.lay(&script), Ok(()));
    let answer = parts.build(&script, &mut ScriptOrder);
    let Err(BuildRefusal::Stopped { stop, .. }) = answer else {
        panic!("{answer:?}");
    };
    assert_eq!((stop.number(), stop.line), (32, 1));
    let states: Vec<_> = parts.log.states().collect();
    assert_eq!(states, [LineState::Ended, LineState::Writing]);
}

#[test]
fn lines_are_skipped_by_own_records() {
    let script = script(&format!("{FILES_ABCD}have a x/copy a b/join a b c"));
    let mut parts = Parts::new();
    assert_eq!(parts.lay(&script), Ok(()));
    for (executed, skipped) in [(2, 0), (0, 2)] {
        let built = parts.build(&script, &mut ScriptOrder).expect("kept");
        assert_eq!(built.counts, Counts { executed, skipped });
    }
    assert_eq!(parts.log.entries().len(), 5);
    // The file that is written is not looked at; a hint or another number does not skip.
    parts.files.set(2, 0);
    parts.give(0, b"other");
    let built = parts.build(&script, &mut ScriptOrder).expect("kept");
    assert_eq!(built.counts.executed, 2);
    assert_eq!(parts.content(2), Some(&b"otherother"[..]));
}

#[test]
fn a_skip_can_stop() {
    // The own record of `copy a a` is true all the same.
    let file = [0, 1, 0, 1, b'x', 0, 1, 1, 0, 0, 0, 0, 1, 0, 0, 1, 0, 0, 1];
    let mut parts = Parts::new();
    assert_eq!(parts.load(&file), Ok(()));
    parts.files.set(0, 1);
    let script = script(&format!("{FILES_ABCD}copy a a"));
    let answer = parts.build(&script, &mut ScriptOrder);
    let Err(BuildRefusal::Stopped { counts, .. }) = answer else {
        panic!("{answer:?}");
    };
    assert_eq!((counts.executed, counts.skipped), (2, 0));
    assert_eq!(parts.audit(0), Ok(Standing::Own));
    let answer = parts.build(&script, &mut ScriptOrder);
    let Err(BuildRefusal::Stopped { counts, stop, .. }) = answer else {
        panic!("{answer:?}");
    };
    assert_eq!((counts.executed, counts.skipped), (0, 2));
    assert_eq!(stop.number(), 33);
}

#[test]
fn a_full_book_gives_up_its_lowest_other_records() {
    // 64 records of tallies fill the book; a run of two new commands takes the lowest places.
    let mut text: String = (0..64)
        .map(|file| format!("file {file:02} f{file}/"))
        .collect();
    text.push_str("have f0 x/");
    let tallies: String = (1..64).map(|file| format!("tally f0 f{file}/")).collect();
    let full = script(&format!("{text}{tallies}"));
    let mut parts = Parts::new();
    parts.book = Book::new(64);
    assert_eq!(parts.lay(&full), Ok(()));
    assert!(parts.build(&full, &mut ScriptOrder).is_ok());
    assert_eq!(parts.book.records().len(), 63);
    let copies = script(&format!(
        "{text}tally f0 f1/copy f0 f2/copy f0 f3/copy f0 f4/"
    ));
    assert!(parts.build(&copies, &mut ScriptOrder).is_ok());
    let commands: Vec<_> = parts.book.records().iter().map(|r| r.command).collect();
    assert_eq!(commands.len(), 64);
    assert_eq!(commands[0], copies.commands()[0]);
    assert_eq!(commands[63], copies.commands()[1]);
    assert_eq!(commands[1..3], copies.commands()[2..4]);
    assert_eq!(commands[3..63], full.commands()[3..63]);
    for record in parts.book.records() {
        assert_eq!(parts.book.record_of(&record.command), Some(record));
    }
    assert_eq!(parts.book.record_of(&full.commands()[1]), None);
}

#[test]
fn files_not_in_another_pool_are_absent() {
    let script = script(&format!("{FILES_ABCD}have a x/copy a b"));
    let mut parts = Parts::new();
    assert_eq!(parts.lay(&script), Ok(()));
    let ticket = parts.begin(&script);
    parts.pool = Pool::new(9, 9);
    let stepped = parts.step(&ticket, &mut ScriptOrder).expect("a step");
    assert_eq!(stepped.stop.map(|stop| stop.number()), Some(34));
    assert_eq!(parts.log.entries(), [entry(0, Read, 0, 0)]);
    assert!(parts.close(ticket, Wish::Keep).is_err());
}

#[test]
fn a_list_that_changes_under_its_line() {
    let script = script(&format!("{FILES_ABCD}have a 01/have b y/gather a c"));
    let mut parts = Parts::new();
    assert_eq!(parts.lay(&script), Ok(()));
    let ticket = parts.begin(&script);
    assert!(parts.step(&ticket, &mut ScriptOrder).is_ok());
    parts.pool = Pool::new(9, 9);
    assert_eq!(parts.pool.put(b"bad"), Ok(1));
    let stepped = parts.step(&ticket, &mut ScriptOrder).expect("a step");
    assert_eq!(stepped.stop.map(|stop| stop.number()), Some(35));
    assert_eq!(parts.log.entries().len(), 1);
    assert!(parts.close(ticket, Wish::Keep).is_err());
}
