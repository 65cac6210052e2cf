//! For a sense of scale: the same copies and joins done by `ninja` and by `make` over real files, and how many processes
//! they start. The lines are those of one script of 63 lines, which `release` builds in memory.

use compare::{Ours, Runner};
use std::fmt::Write;
use std::fs;
use std::path::Path;
use std::process::{Command, Stdio};
use std::time::Instant;

/// How often each is run.
const TIMES: usize = 21;

/// The lines: file `to` is a copy of the one before it, or joins it and file 0.
fn steps() -> impl Iterator<Item = (usize, bool)> {
    (1..64).map(|to| (to, to % 4 == 1))
}

fn script() -> String {
    let mut text = String::new();
    for file in 0..64 {
        writeln!(text, "file {file:02} f{file}").unwrap();
    }
    writeln!(text, "have f0 {}", "plane".repeat(10)).unwrap();
    for (to, joins) in steps() {
        let from = to - 1;
        match joins {
            true => writeln!(text, "join f{from} f0 f{to}").unwrap(),
            false => writeln!(text, "copy f{from} f{to}").unwrap(),
        }
    }
    text
}

fn ninja_file() -> String {
    let mut text =
        "rule copy\n command = cp $in $out\nrule join\n command = cat $in > $out\n".to_string();
    for (to, joins) in steps() {
        let from = to - 1;
        match joins {
            true => writeln!(text, "build f{to}: join f{from} f0").unwrap(),
            false => writeln!(text, "build f{to}: copy f{from}").unwrap(),
        }
    }
    text
}

fn make_file() -> String {
    let mut text = "f63:\n".to_string();
    for (to, joins) in steps() {
        let from = to - 1;
        match joins {
            true => writeln!(text, "f{to}: f{from} f0\n\tcat f{from} f0 > f{to}").unwrap(),
            false => writeln!(text, "f{to}: f{from}\n\tcp f{from} f{to}").unwrap(),
        }
    }
    text
}

fn remove_outputs(folder: &Path) {
    for to in 1..64 {
        let _ = fs::remove_file(folder.join(format!("f{to}")));
    }
}

/// How many processes were started since the machine was.
fn processes() -> usize {
    let stat = fs::read_to_string("/proc/stat").unwrap_or_default();
    let line = stat
        .lines()
        .find_map(|line| line.strip_prefix("processes "));
    line.and_then(|number| number.parse().ok()).unwrap_or(0)
}

/// The median of some times in milliseconds, and the fewest processes that were started.
fn median(mut runs: Vec<(f64, usize)>) -> (f64, usize) {
    runs.sort_by(|a, b| a.0.total_cmp(&b.0));
    let fewest = runs.iter().map(|run| run.1).min().unwrap_or(0);
    (runs[runs.len() / 2].0, fewest)
}

/// Runs a tool in a folder, from nothing or with all outputs there.
fn run(tool: &str, folder: &Path, from_nothing: bool) -> (f64, usize) {
    let once = |_| {
        if from_nothing {
            remove_outputs(folder);
        }
        let before = processes();
        let start = Instant::now();
        let status = Command::new(tool)
            .current_dir(folder)
            .stdout(Stdio::null())
            .status()
            .expect("the tool is installed");
        assert!(status.success());
        (start.elapsed().as_secs_f64() * 1e3, processes() - before)
    };
    median((0..TIMES).map(once).collect())
}

fn main() -> std::io::Result<()> {
    let folder = std::env::temp_dir().join(format!("release-bench-{}", std::process::id()));
    fs::create_dir_all(&folder)?;
    fs::write(folder.join("f0"), "plane".repeat(10))?;
    fs::write(folder.join("build.ninja"), ninja_file())?;
    fs::write(folder.join("Makefile"), make_file())?;
    println!(
        "{:<32}{:>14}{:>12}",
        "63 copies and joins", "milliseconds", "processes"
    );
    let text = script();
    let mut ours = Ours::new();
    let release = |_| {
        let start = Instant::now();
        assert!(
            ours.release(text.as_bytes())
                .starts_with(b"kept executed 63")
        );
        (start.elapsed().as_secs_f64() * 1e3, 0)
    };
    let (time, _) = median((0..TIMES).map(release).collect());
    println!("{:<32}{time:>14.3}{:>12}", "release, in memory", 0);
    for tool in ["ninja", "make"] {
        for (from_nothing, what) in [(true, "from nothing"), (false, "nothing to do")] {
            let (time, started) = run(tool, &folder, from_nothing);
            println!("{:<32}{time:>14.3}{started:>12}", format!("{tool}, {what}"));
        }
    }
    fs::remove_dir_all(&folder)
}
