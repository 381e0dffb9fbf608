//! The proved library beside the second program: both get the same input, and the first
//! difference ends the run with that input in hex.
//!
//! `ffi` is the library and `random` the numbers behind every input. The modules named
//! after a part of document 01 make that part's inputs, good and bad, and compare one call
//! at a time; `books`, `turns` and `outcome` do so for document 02's Q-1, and `contradictions`
//! has Q-2's account. A comparison yields what both programs gave, for a test to hold to a
//! number or a `Tally` to count.
//!
//! `soak` and `calls` are behind the program soak; `patterns`, `tables`, `trial`, `coverage`,
//! `cells` and `drawing` behind the program coverage.

pub mod bench;
pub mod book;
pub mod books;
pub mod calls;
pub mod cells;
pub mod compare;
pub mod contradictions;
pub mod coverage;
pub mod drawing;
pub mod ffi;
pub mod frames;
pub mod lent;
pub mod listing;
pub mod options;
pub mod outcome;
pub mod paths;
pub mod patterns;
pub mod progress;
pub mod random;
pub mod runs;
pub mod settings;
pub mod soak;
pub mod tables;
pub mod tally;
pub mod trial;
pub mod turns;
pub mod vote;
pub mod words;
