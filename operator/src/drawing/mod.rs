//! A story as a page: one picture with its words, in one file that needs nothing else.

pub mod chart;
pub mod frame;
pub mod ids;
pub mod labels;
pub mod lanes;
pub mod layout;
pub mod legend;
pub mod marks;
pub mod page;
pub mod picture;
pub mod rows;
pub mod svg;
pub mod tables;
