//! Script order: the plain run against which runs are compared.

use crate::acts::{Entry, Stop};
use crate::engine::Progress;
use crate::files::{FileStore, Table};
use crate::log::numbers_of;
use crate::pool::Pool;
use crate::script::Script;

/// What script order came to, on copies of files and pool.
#[derive(Clone, Debug)]
pub struct ScriptOrderRun {
    pub files: Table,
    pub pool: Pool,
    pub entries: Vec<Entry>,
    pub stop: Option<Stop>,
}

/// Runs the lines from 0 up, each with all its acts, without log, book, policy or skip.
pub fn script_order<S: FileStore + ?Sized>(
    script: &Script,
    files: &S,
    pool: &Pool,
) -> ScriptOrderRun {
    let mut table = Table::new();
    for (file, number) in (0..).zip(numbers_of(files)) {
        table.set(file, number);
    }
    let mut pool = pool.clone();
    let mut progress = Progress::new();
    progress.start(script.commands());
    let mut stop = None;
    while let (None, Some(line)) = (stop, progress.left().lowest()) {
        stop = progress.act(line, &mut table, &mut pool).err();
    }
    ScriptOrderRun {
        files: table,
        pool,
        entries: progress.entries().to_vec(),
        stop,
    }
}
