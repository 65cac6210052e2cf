//! The program `release`: builds the script on standard input and prints the report.

use std::io::{self, Read, Write};

use twin::{
    Book, LastRun, Log, Pool, REPORT_BYTES, Refusal, Script, ScriptRefusal, TEXT_CAP, Table, build,
    lay, report,
};

const PATIENCE: u8 = 4;

fn main() {
    // An input or output that breaks has nobody to be told: standard error stays empty.
    let _ = io::stdout().write_all(&released(&read_text()));
}

/// As much of the input as tells that a text is too long.
fn read_text() -> Vec<u8> {
    let mut text = Vec::new();
    let most = TEXT_CAP as u64 + 1;
    let _ = io::stdin().lock().take(most).read_to_end(&mut text);
    text
}

/// What is printed for a text.
fn released(text: &[u8]) -> Vec<u8> {
    let printed = Script::read(text)
        .map_err(|ScriptRefusal { refusal, .. }| refusal)
        .and_then(|script| build_and_report(&script));
    printed.unwrap_or_else(|refusal| format!("{refusal}\n").into_bytes())
}

fn build_and_report(script: &Script) -> Result<Vec<u8>, Refusal> {
    let mut files = Table::new();
    let mut pool = Pool::new(65_536, 1_024);
    let mut log = Log::new(1_088);
    let mut book = Book::new(256);
    lay(script, &mut files, &mut pool, &log)?;
    let mut policy = LastRun::primed(PATIENCE, &book, script);
    let answer = build(
        script,
        &mut policy,
        &mut files,
        &mut pool,
        &mut log,
        &mut book,
    );
    let mut buffer = vec![0; REPORT_BYTES];
    let length = report(&mut buffer, &answer, script, &files, &pool)?;
    buffer.truncate(length);
    Ok(buffer)
}
