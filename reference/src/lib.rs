//! A second program for documents 01 and 02, written from these documents
//! alone, so that its output can be held against the first one's. It shares
//! no code and no tables with it.
//!
//! - [`terms`]: rules and slips as values.
//! - [`reading`]: from text to values, with refusals.
//! - [`writing`]: from values to plain text.
//! - [`matching`]: a rule against a slip.
//! - [`comparing`]: how many items are compared for it.
//! - [`carrying`]: what a rule makes of a slip.
//! - [`overlaps`]: which slips two rules share.
//! - [`committing`]: how long the list of these is, and the list in a buffer.
//! - [`book`]: which of several rules a slip gets, and which of them overlap.
//! - [`search`]: which values make two fields equal.
//! - [`answers`]: what the programs print for a line, or for a book.
//! - [`generate`], [`draw`]: seeded texts on which the two are compared.

pub mod answers;
pub mod book;
pub mod carrying;
pub mod committing;
pub mod comparing;
pub mod draw;
pub mod generate;
mod grammar;
mod graph;
mod groups;
mod layouts;
pub mod matching;
pub mod overlaps;
pub mod reading;
mod rules;
pub mod search;
pub mod terms;
pub mod writing;
