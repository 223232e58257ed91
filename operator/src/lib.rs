//! What the operator's commands share: the proved library, words for what it answers by numbers, and its answers told and
//! drawn.

pub mod account;
pub mod drawing;
pub mod library;
pub mod why;
