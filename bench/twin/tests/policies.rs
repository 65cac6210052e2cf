//! What policies answer.

mod common;

use common::{Parts, script};
use twin::*;

const PLATES: &str = "file 00 a/file 01 b/file 02 c/file 03 d/file 04 e/have a x/have c y/\
                      copy a b/copy c d/join b d e";

fn primed(patience: u8) -> LastRun {
    let script = script(PLATES);
    let mut parts = Parts::new();
    assert_eq!(parts.lay(&script), Ok(()));
    assert!(parts.build(&script, &mut ScriptOrder).is_ok());
    LastRun::primed(patience, &parts.book, &script)
}

fn asked(policy: &mut impl Policy, lines: &[u8], front: u8) -> (u8, u8) {
    let answer = policy.ask(lines.iter().copied().collect(), front);
    (answer, policy.passes())
}

#[test]
fn the_last_run_policy_of_the_example() {
    let mut policy = primed(4);
    let table: [(&[u8], u8, (u8, u8)); 5] = [
        (&[0, 1, 2], 0, (1, 1)),
        (&[0, 1, 2], 0, (1, 2)),
        (&[0, 2], 0, (0, 0)),
        (&[0, 2], 0, (0, 0)),
        (&[2], 2, (2, 0)),
    ];
    for (lines, front, answer) in table {
        assert_eq!(asked(&mut policy, lines, front), answer);
    }
}

#[test]
fn patience_is_kept() {
    let mut policy = primed(1);
    assert_eq!(asked(&mut policy, &[0, 1, 2], 0), (1, 1));
    assert_eq!(asked(&mut policy, &[0, 1, 2], 0), (0, 0));
    assert_eq!(HighestFirst::new(200).patience(), 32);
}

#[test]
fn an_empty_book_means_script_order() {
    let script = script(PLATES);
    let mut policy = LastRun::primed(4, &Book::new(64), &script);
    for lines in [&[0, 1, 2][..], &[1, 2], &[1, 7, 63], &[5]] {
        assert_eq!(asked(&mut policy, lines, lines[0]), (lines[0], 0));
    }
}

#[test]
fn a_line_without_record_waits_on_all_lower_ones() {
    let mut policy = primed(4);
    assert_eq!(asked(&mut policy, &[1, 3], 1), (1, 0));
    assert_eq!(asked(&mut policy, &[0, 1, 63], 0), (1, 1));
}

#[test]
fn odd_questions_are_answered_with_the_front() {
    let mut policy = HighestFirst::new(4);
    assert_eq!(asked(&mut policy, &[1, 9], 1), (9, 1));
    assert_eq!(asked(&mut policy, &[1, 9], 9), (9, 0));
    assert_eq!(asked(&mut policy, &[], 5), (5, 0));
    assert_eq!(asked(&mut policy, &[1, 9], 200), (200, 0));
    assert_eq!(asked(&mut policy, &[63], 63), (63, 0));
}

#[test]
fn highest_line_first() {
    let mut policy = HighestFirst::new(2);
    let answers: Vec<_> = (0..4).map(|_| asked(&mut policy, &[3, 4, 8], 3)).collect();
    assert_eq!(answers, [(8, 1), (8, 2), (3, 0), (8, 1)]);
    assert_eq!(asked(&mut HighestFirst::new(0), &[3, 4], 3), (3, 0));
}

#[test]
fn wishes_come_over_and_over() {
    let mut policy = ListPolicy::wishing(2, vec![2, 0, 1]).expect("there are wishes");
    let lines = [0, 1, 2];
    let answers: Vec<_> = (0..6).map(|_| asked(&mut policy, &lines, 0).0).collect();
    assert_eq!(answers, [2, 0, 1, 2, 0, 0]);
    assert!(ListPolicy::wishing(2, vec![]).is_none());
}

#[test]
fn sets_of_lines() {
    assert_eq!(LineSet::first(64).len(), 64);
    assert_eq!(LineSet::first(0), LineSet::EMPTY);
    let set: LineSet = [63, 0, 9, 64, 255].into_iter().collect();
    assert_eq!(set.downwards().collect::<Vec<_>>(), [63, 9, 0]);
    assert_eq!((set.lowest(), set.highest()), (Some(0), Some(63)));
    assert!(!set.contains(64));
}
