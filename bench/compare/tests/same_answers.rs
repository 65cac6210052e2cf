//! The proved runner and the twin answer the same to random inputs, byte for byte. Each test tells how many inputs came
//! to what (`cargo test --release -- --nocapture`).

use compare::inputs::{Board, damage_text, damage_trace, list, setting, wishes};
use compare::random::Random;
use compare::{Ours, Read, Runner, Setting, Theirs};
use std::collections::BTreeMap;

/// How many inputs came to each outcome.
#[derive(Default)]
struct Outcomes(BTreeMap<String, usize>);

impl Outcomes {
    fn count(&mut self, outcome: String) {
        *self.0.entry(outcome).or_default() += 1;
    }

    fn print(&self, what: &str) {
        let all: usize = self.0.values().sum();
        println!("{what}: {all} inputs, no difference");
        for (outcome, count) in &self.0 {
            println!("  {count:6}  {outcome}");
        }
    }
}

fn shown(text: &[u8]) -> String {
    text.escape_ascii().to_string()
}

/// A random script, every third one damaged.
fn random_text(random: &mut Random, board: &Board) -> Vec<u8> {
    let mut text = board.text(random);
    if random.once_in(3) {
        damage_text(&mut text, random);
    }
    text
}

#[test]
fn scripts() {
    let mut outcomes = Outcomes::default();
    let (mut ours, mut theirs) = (Ours::new(), Theirs::new());
    for seed in 0..6_000 {
        let mut random = Random::new(seed);
        let board = Board::random(&mut random);
        let mut text = random_text(&mut random, &board);
        if random.once_in(100) {
            let longer = text.repeat(1 + 17_000 / text.len().max(1));
            text = longer[..random.between(16_380, 16_390).min(longer.len())].to_vec();
        }
        let read = ours.script(&text);
        assert_eq!(read, theirs.script(&text), "seed {seed}: {}", shown(&text));
        let told = match read {
            Read::Lines { .. } => "read".to_string(),
            Read::Refused { number, .. } => format!("refused {number}"),
        };
        let printed = ours.release(&text);
        assert_eq!(
            printed,
            theirs.release(&text),
            "seed {seed}: {}",
            shown(&text)
        );
        let first = printed
            .split(|&byte| matches!(byte, b' ' | b'\n'))
            .next()
            .unwrap_or_default();
        outcomes.count(format!("{told}, released: {}", shown(first)));
    }
    outcomes.print("scripts read and released");
}

/// What a build came to, in words.
fn told(account: &[u8]) -> String {
    let end = match account[0] {
        0 => "kept".to_string(),
        number @ 31..=35 => format!("stopped {number}"),
        number => format!("refused {number}"),
    };
    let skipped = if account[4..6] == [0, 0] {
        ""
    } else {
        ", lines skipped"
    };
    match account[1] {
        0 => format!("{end}{skipped}"),
        first => format!("{end} after a first stop {first}{skipped}"),
    }
}

/// The trace file at the end of an account.
fn trace_of(account: &[u8]) -> &[u8] {
    let report = usize::from(u16::from_be_bytes([account[134], account[135]]));
    &account[136 + report + 4..]
}

#[test]
fn builds() {
    let mut outcomes = Outcomes::default();
    let (mut ours, mut theirs) = (Ours::new(), Theirs::new());
    for seed in 0..12_000 {
        let mut random = Random::new(seed);
        let board = Board::random(&mut random);
        let first = board.text(&mut random);
        let second = if random.once_in(8) {
            random_text(&mut random, &board)
        } else {
            board.later(&mut random).text(&mut random)
        };
        let setting = setting(&mut random);
        let wishes = wishes(&mut random);
        let account = ours.builds(&first, &second, &setting, &wishes);
        assert_eq!(
            account,
            theirs.builds(&first, &second, &setting, &wishes),
            "seed {seed}: {setting:?}, wishes {wishes:?}, {}, then {}",
            shown(&first),
            shown(&second)
        );
        outcomes.count(told(account));
    }
    outcomes.print("builds, one to three over the same parts");
}

#[test]
fn trace_files() {
    let mut outcomes = Outcomes::default();
    let (mut ours, mut theirs) = (Ours::new(), Theirs::new());
    for seed in 0..6_000 {
        let mut random = Random::new(seed);
        let text = Board::random(&mut random).text(&mut random);
        let made = Setting {
            policy: compare::Policy::ScriptOrder,
            ..Setting::RELEASE
        };
        let mut file = trace_of(ours.builds(&text, &[], &made, &[])).to_vec();
        if random.once_in(2) {
            damage_trace(&mut file, &mut random);
        }
        let room = setting(&mut random);
        let saved = ours.trace(&file, &room);
        assert_eq!(
            saved,
            theirs.trace(&file, &room),
            "seed {seed}: {room:?}, {file:?}"
        );
        outcomes.count(match saved {
            Err(number) => format!("refused {number}"),
            Ok(saved) if saved == file => "its own bytes".to_string(),
            Ok(_) => "others, since records are struck".to_string(),
        });
    }
    outcomes.print("trace files loaded, audited and saved");
}

#[test]
fn contents() {
    let mut outcomes = Outcomes::default();
    let (mut ours, mut theirs) = (Ours::new(), Theirs::new());
    for seed in 0..3_000 {
        let mut random = Random::new(seed);
        let list = list(&mut random);
        let room = setting(&mut random);
        let numbers = ours.put(&list, room.bytes, room.places);
        assert_eq!(
            numbers,
            theirs.put(&list, room.bytes, room.places),
            "seed {seed}: {room:?}, {list:?}"
        );
        outcomes.count(match numbers.chunks(2).any(|number| number == [0, 0]) {
            true => "some refused".to_string(),
            false => "all put".to_string(),
        });
    }
    outcomes.print("lists of contents put");
}
