//! Gives random sessions to two consoles, that of the proved runner and that of the twin, and compares what they answer,
//! line by line: every call, accepted and refused, with files, pool, log and book after it. The first word is the
//! program of the proved runner, the second that of the twin, the third how many sessions.

use compare::inputs::{Board, damage_text, damage_trace};
use compare::random::Random;
use std::collections::BTreeMap;
use std::io::Write;
use std::process::{Command, Stdio};

fn hex(bytes: &[u8]) -> String {
    if bytes.is_empty() {
        return "-".to_string();
    }
    bytes.iter().map(|byte| format!("{byte:02x}")).collect()
}

/// A fresh start: most often with memory enough.
fn start(random: &mut Random) -> String {
    let store = *random.one_of(&["table", "image"]);
    let tight = random.once_in(4);
    let bytes = if tight {
        random.between(0, 300)
    } else {
        65_536
    };
    let places = if tight { random.between(0, 12) } else { 1_024 };
    let log = if random.once_in(12) {
        random.between(0, 200)
    } else {
        1_088
    };
    let book = if random.once_in(12) {
        random.between(60, 70)
    } else {
        256
    };
    format!("start {store} {bytes} {places} {log} {book}")
}

fn policy(random: &mut Random) -> String {
    let patience = random.below(40);
    match random.below(4) {
        0 => "policy order".to_string(),
        1 => format!("policy last {patience}"),
        2 => format!("policy high {patience}"),
        _ => {
            let most = *random.one_of(&[4, 10, 64]);
            let lines: Vec<String> = (0..random.between(1, 12))
                .map(|_| random.below(most).to_string())
                .collect();
            format!("policy list {patience} {}", lines.join(","))
        }
    }
}

/// An image: one that says little, or a damaged one.
fn image(random: &mut Random) -> Vec<u8> {
    let mut bytes = vec![0; 193];
    let count = random.between(0, 3);
    bytes[0] = count as u8;
    for entry in 0..count {
        bytes[1 + 3 * entry] = (entry * 2 + random.below(3)) as u8;
        bytes[3 + 3 * entry] = random.below(6) as u8;
    }
    if random.once_in(6) {
        bytes.pop();
    }
    bytes
}

/// A session: a board, and commands as an engineer might give them in any order.
fn session(random: &mut Random, saved: &[u8]) -> String {
    let mut board = Board::random(random);
    let mut lines = vec![start(random), "policy order".to_string()];
    let mut text = board.text(random);
    if random.once_in(10) {
        damage_text(&mut text, random);
    }
    lines.push(format!("script {}", hex(&text)));
    lines.push("lay".to_string());
    for _ in 0..random.between(4, 40) {
        let line = match random.below(30) {
            0 => {
                board = board.later(random);
                format!("script {}", hex(&board.text(random)))
            }
            1 | 2 => "lay".to_string(),
            3..=5 => "build".to_string(),
            6 | 7 => "begin".to_string(),
            8..=16 => "step".to_string(),
            17 => "close keep".to_string(),
            18 => "close back".to_string(),
            19..=21 => policy(random),
            22 => "save".to_string(),
            23 => {
                let mut file = saved.to_vec();
                if random.once_in(2) {
                    damage_trace(&mut file, random);
                }
                format!("load {}", hex(&file))
            }
            24 => format!("audit {}", random.below(8)),
            25 => "report".to_string(),
            26 => format!("image {}", hex(&image(random))),
            27 if random.once_in(4) => start(random),
            28 => random
                .one_of(&[
                    "nothing",
                    "step 1",
                    "audit x",
                    "",
                    "# a note",
                    "policy list 1 64",
                ])
                .to_string(),
            _ => "book".to_string(),
        };
        lines.push(line);
        for told in ["files", "pool", "log", "book"] {
            if random.once_in(5) {
                lines.push(told.to_string());
            }
        }
    }
    lines.extend(["files", "pool", "log", "book", "image"].map(str::to_string));
    lines.join("\n") + "\n"
}

/// What a console answers.
fn answers(program: &str, input: &str) -> String {
    let mut child = Command::new(program)
        .stdin(Stdio::piped())
        .stdout(Stdio::piped())
        .spawn()
        .expect("the console starts");
    let mut stdin = child.stdin.take().expect("it is piped");
    let text = input.to_string();
    let writer = std::thread::spawn(move || stdin.write_all(text.as_bytes()));
    let output = child.wait_with_output().expect("the console ends");
    writer
        .join()
        .expect("the writer ends")
        .expect("the console reads all");
    assert!(output.status.success());
    String::from_utf8(output.stdout).expect("answers are text")
}

/// The trace file that the last save of a session answered.
fn saved_in(answers: &str) -> Vec<u8> {
    let last = answers
        .lines()
        .rev()
        .find_map(|line| line.strip_prefix("saved "));
    let digits = last.unwrap_or("00000000");
    let byte = |at| u8::from_str_radix(&digits[at..at + 2], 16).expect("the digits of a byte");
    (0..digits.len()).step_by(2).map(byte).collect()
}

/// The first words of the answers, with their numbers where they tell a refusal or a stop.
fn count(answers: &str, counts: &mut BTreeMap<String, usize>) {
    for line in answers.lines() {
        let words: Vec<&str> = line.split(' ').take(2).collect();
        let told = match words[..] {
            ["refused" | "stopped" | "blank", number] => format!("{} {number}", words[0]),
            ["put", "back"] => "put back".to_string(),
            ["act" | "skip", _] if line.contains("stopped") => format!("{}, and a stop", words[0]),
            [word, ..] if word.starts_with(|first: char| first.is_ascii_lowercase()) => {
                word.to_string()
            }
            _ => "what a part holds".to_string(),
        };
        *counts.entry(told).or_default() += 1;
    }
}

fn main() {
    let words: Vec<String> = std::env::args().collect();
    let [_, ours, theirs, sessions] = &words[..] else {
        panic!("two programs and a number of sessions");
    };
    let sessions: u64 = sessions.parse().expect("a number of sessions");
    let mut counts = BTreeMap::new();
    let mut saved = vec![0; 4];
    let mut commands = 0;
    for seed in 0..sessions {
        let input = session(&mut Random::new(seed), &saved);
        let (told, twin) = (answers(ours, &input), answers(theirs, &input));
        for (at, (line, other)) in told.lines().zip(twin.lines()).enumerate() {
            assert_eq!(
                line, other,
                "session {seed}, line {at} of the answers to\n{input}"
            );
        }
        assert_eq!(told, twin, "session {seed}, the answers to\n{input}");
        count(&told, &mut counts);
        commands += input.lines().count();
        saved = saved_in(&told);
    }
    println!("{sessions} sessions of {commands} commands in all, no difference");
    for (told, count) in counts {
        println!("  {count:7}  {told}");
    }
}
