//! Domewhistle's second program: the rules of document 01, "Build scope and its precise
//! rules", and of document 02's requests Q-1, "Every card is sender in turn", and Q-2, "Two
//! different words on one path", written again from the documents alone, so that outcomes can
//! be compared.
//!
//! There is one module for each part of document 01; `books` and `outcome` are Q-1's, and Q-2
//! is in `book`. A refusal is its number alone, as document 01's table "Refusal numbers" gives
//! it.

#![forbid(unsafe_code)]

pub mod book;
pub mod books;
pub mod exchange;
pub mod frames;
pub mod listing;
pub mod outcome;
pub mod paths;
pub mod vote;
pub mod words;

/// A number from 1 to 16 of the table "Refusal numbers".
pub type Refusal = u8;
