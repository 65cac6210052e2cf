//! Two runners behind one trait: the proved one, through its static library, and the twin, which was written in plain
//! Rust from docs/ alone. tests/ compares what they answer; src/bin/speed.rs, how long they take.

pub mod inputs;
pub mod loads;
pub mod ours;
pub mod random;
pub mod runner;
pub mod theirs;

pub use ours::Ours;
pub use runner::{Policy, Read, Runner, Setting};
pub use theirs::Theirs;
