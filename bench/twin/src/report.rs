//! The report: what a build came to, as text.

use std::io::Write;

use crate::acts::Stop;
use crate::calls::{BuildAnswer, BuildRefusal};
use crate::files::{FILES, FileStore};
use crate::pool::Pool;
use crate::refusal::Refusal;
use crate::script::Script;

/// The least bytes of a buffer for a report; every report fits in them.
pub const REPORT_BYTES: usize = 2_048;

/// Writes the report at the start of a buffer, and tells its length.
pub fn report<S: FileStore + ?Sized>(
    buffer: &mut [u8],
    answer: &BuildAnswer,
    script: &Script,
    files: &S,
    pool: &Pool,
) -> Result<usize, Refusal> {
    if buffer.len() < REPORT_BYTES {
        return Err(Refusal::ReportBufferShort);
    }
    let room = buffer.len();
    let mut rest = buffer;
    write_report(&mut rest, answer, script, files, pool).map_err(|_| Refusal::ReportBufferShort)?;
    Ok(room - rest.len())
}

fn write_report<S: FileStore + ?Sized>(
    out: &mut impl Write,
    answer: &BuildAnswer,
    script: &Script,
    files: &S,
    pool: &Pool,
) -> std::io::Result<()> {
    writeln!(out, "{}", first_line(answer))?;
    for file in 0..FILES as u8 {
        if let Some(content) = pool.content(files.tell(file)) {
            write!(out, "{file:02} ")?;
            out.write_all(script.label(file).unwrap_or(b"-"))?;
            writeln!(out, " {}", content.len())?;
        }
    }
    Ok(())
}

fn first_line(answer: &BuildAnswer) -> String {
    match answer {
        Ok(built) => {
            let counts = built.counts;
            format!(
                "kept executed {} skipped {}",
                counts.executed, counts.skipped
            )
        }
        Err(BuildRefusal::Begin(refusal)) => refusal.to_string(),
        Err(BuildRefusal::Stopped { stop, .. }) => stop_words(stop),
    }
}

/// A stop as the report tells it.
pub(crate) fn stop_words(stop: &Stop) -> String {
    let number = stop.number();
    match stop.hazard() {
        None => format!("stopped {number} {}", stop.line),
        Some(hazard) => format!(
            "stopped {number} {} {:02} {} {}",
            hazard.kind.name(),
            hazard.file(),
            hazard.earlier.line,
            hazard.later.line,
        ),
    }
}
