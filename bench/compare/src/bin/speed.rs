//! How long the proved runner and the twin take, side by side: medians over many repetitions, in microseconds, the ratio
//! of the two, and how much longer each takes at four times the size.

use compare::loads::{Share, chain, contents, largest_trace, long_script, longer_list};
use compare::{Ours, Policy, Runner, Setting, Theirs};
use std::hint::black_box;
use std::time::Instant;

/// How often each row is run: the two runners take turns.
const TIMES: usize = 401;

/// How many releases a rerun makes on the parts of the first.
const RERUNS: usize = 20;

/// What is timed of a runner.
type Work = Box<dyn Fn(&mut dyn Runner)>;

/// A row of the table: its name, what a share of it is, and how many times it is done in one go.
struct Row {
    name: &'static str,
    work: fn(Share) -> Work,
    goes: usize,
}

fn rows() -> Vec<Row> {
    vec![
        Row {
            name: "read a script of 16,384 bytes",
            work: read_script,
            goes: 1,
        },
        Row {
            name: "first build of 63 lines",
            work: first_build,
            goes: 1,
        },
        Row {
            name: "rerun, all 63 lines skipped",
            work: rerun,
            goes: RERUNS,
        },
        Row {
            name: "wrong guess, two runs of 63 lines",
            work: wrong_guess,
            goes: 1,
        },
        Row {
            name: "load, audit, save the largest trace file",
            work: trace,
            goes: 1,
        },
        Row {
            name: "put 1,024 contents of 64 bytes",
            work: put,
            goes: 1,
        },
    ]
}

fn read_script(share: Share) -> Work {
    let text = long_script(share);
    Box::new(move |runner| {
        black_box(runner.script(black_box(&text)));
    })
}

fn first_build(share: Share) -> Work {
    let text = chain(share);
    Box::new(move |runner| {
        black_box(runner.release(black_box(&text)));
    })
}

fn rerun(share: Share) -> Work {
    let text = chain(share);
    let setting = Setting {
        times: RERUNS,
        ..Setting::RELEASE
    };
    Box::new(move |runner| {
        let account = black_box(runner.builds(black_box(&text), &text, &setting, &[]));
        assert_eq!(account[..6], [0, 0, 0, 0, 0, share.of(64) as u8 - 1]);
    })
}

fn wrong_guess(share: Share) -> Work {
    let (first, second) = (chain(share), longer_list(share));
    let setting = Setting {
        times: 1,
        policy: Policy::LastRun,
        ..Setting::RELEASE
    };
    Box::new(move |runner| {
        let account = black_box(runner.builds(black_box(&first), &second, &setting, &[]));
        assert_eq!(account[..2], [0, 33]);
    })
}

fn trace(share: Share) -> Work {
    let file = largest_trace(share);
    Box::new(move |runner| {
        let saved = black_box(runner.trace(black_box(&file), &Setting::RELEASE));
        assert_eq!(saved, Ok(&file[..]));
    })
}

fn put(share: Share) -> Work {
    let list = contents(share);
    Box::new(move |runner| {
        let numbers = black_box(runner.put(black_box(&list), 65_536, 1_024));
        assert_eq!(numbers.len(), 2 * share.of(1_024));
    })
}

/// The microseconds that some work takes.
fn time(work: &Work, runner: &mut dyn Runner) -> f64 {
    let start = Instant::now();
    work(runner);
    start.elapsed().as_secs_f64() * 1e6
}

fn median(mut times: Vec<f64>) -> f64 {
    times.sort_by(f64::total_cmp);
    times[times.len() / 2]
}

/// The medians of both, who take turns.
fn measure(work: &Work, goes: usize) -> [f64; 2] {
    let (mut ours, mut theirs) = (Ours::new(), Theirs::new());
    let mut times = [vec![], vec![]];
    for _ in 0..TIMES {
        times[0].push(time(work, &mut ours));
        times[1].push(time(work, &mut theirs));
    }
    times.map(|times| median(times) / goes as f64)
}

fn main() {
    println!(
        "{:<44}{:>9}{:>12}{:>12}{:>8}",
        "microseconds, medians", "size", "ours", "twin", "ratio"
    );
    for row in rows() {
        let mut firsts = [0.0; 2];
        for share in Share::ALL {
            let [ours, theirs] = measure(&(row.work)(share), row.goes);
            if share == Share::Quarter {
                firsts = [ours, theirs];
            }
            let size = format!("{share:?}").to_lowercase();
            println!(
                "{:<44}{size:>9}{ours:>12.1}{theirs:>12.1}{:>8.2}",
                row.name,
                ours / theirs
            );
            if share == Share::Full {
                let grown = [ours / firsts[0], theirs / firsts[1]];
                println!(
                    "{:<44}{:>9}{:>11.1}x{:>11.1}x",
                    "  full by quarter", "", grown[0], grown[1]
                );
            }
        }
    }
}
