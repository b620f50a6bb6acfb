//! Tests of each part against documents 01 and 02.

mod book;
mod book_by_trial;
mod carrying;
mod carrying_by_trial;
mod command;
mod committing;
mod comparing;
mod comparing_by_trial;
mod generated;
mod matching;
mod matching_by_trial;
mod minus;
mod overlaps_by_trial;
mod pairs;
mod places;
mod reading_rules;
mod reading_slips;
mod right_sides;
mod search_by_trial;
mod shown;
mod solve;
mod support;
mod universe;
mod writing;
