//! What a replay answered, told over time. Every answer is the proved library's; nothing here decides one.

pub mod culprits;
pub mod log;
pub mod places;
pub mod records;
pub mod refusals;
pub mod story;
mod teller;
pub mod words;

#[cfg(test)]
pub mod made_up;
