//! Tests of the wrapper: the documents' cases, lent memory, the second program
//! on generated lines, and programs in C.

mod c;
mod carrying;
mod committing;
mod comparison;
mod document;
mod memory;
