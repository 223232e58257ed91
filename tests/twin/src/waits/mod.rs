//! What happened while one waited for the lock (docs/SPEC.md, 16), in plain Rust: the check, and waits to compare it on.

pub mod cells;
pub mod cells_of_texts;
pub mod check;
pub mod compare;
pub mod damage;
pub mod events;
pub mod generate;
pub mod grounds;
pub mod maker;
pub mod read;
pub mod sized;
pub mod tables;
pub mod ways;
