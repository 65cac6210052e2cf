//! A release runner: scripts of up to 64 lines that copy, join, gather, choose, tally and check
//! files. Lines may be started early by a policy; hazards are caught; runs are put back; records
//! let lines be skipped; trace files save the records.
//!
//! The calls ([`lay`], [`load`], [`audit`], [`begin`], [`step`], [`close`], [`build`], [`save`],
//! [`report`]) work on four parts: a [`FileStore`], a [`Pool`], a [`Log`] and a [`Book`].

mod acts;
mod book;
mod calls;
mod command;
pub mod console;
mod engine;
mod files;
mod log;
mod order;
mod policy;
mod pool;
mod record;
mod refusal;
mod report;
mod script;
mod trace;

pub use acts::{Act, Entry, Hazard, HazardKind, Stop, StopGround};
pub use book::{BOOK_CAP, Book};
pub use calls::{
    BuildAnswer, BuildRefusal, Built, CloseRefusal, Counts, Ending, How, StepRefusal, Stepped,
    Ticket, Wish, audit, begin, build, close, lay, step,
};
pub use command::{Command, Kind, List, Next, file_number};
pub use engine::LineState;
pub use files::{FILES, FileStore, IMAGE_BYTES, Image, Table};
pub use log::Log;
pub use order::{ScriptOrderRun, script_order};
pub use policy::{
    Choice, HighestFirst, LastRun, LineSet, ListPolicy, MOST_PATIENCE, Patient, Policy, ScriptOrder,
};
pub use pool::{CONTENT_CAP, NoRoom, POOL_BYTES_CAP, POOL_PLACES_CAP, Pool};
pub use record::{FileContent, Record, Standing};
pub use refusal::Refusal;
pub use report::{REPORT_BYTES, report};
pub use script::{Have, LINES_CAP, Script, ScriptRefusal, TEXT_CAP, Word, next_word};
pub use trace::{TRACE_CAP, load, save};

/// The most acts that one line can make: one list, 15 listed files, one write.
pub const ACTS_PER_LINE: usize = 17;
