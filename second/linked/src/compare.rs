//! The outcomes of the two programs, and their comparison.

use crate::random;
use second::Refusal;
use std::fmt::{Arguments, Debug};

/// 0, or the refusal's number, as the library gives it.
pub fn number_of<T>(outcome: &Result<T, Refusal>) -> u8 {
    outcome.as_ref().err().copied().unwrap_or(0)
}

/// Ends the run where the two programs differ; `call` names the call and its whole input.
pub fn compare<T: PartialEq + Debug>(call: Arguments, library: T, second: T) {
    if library != second {
        let seed = random::seed();
        panic!("SEED={seed} {call}: library {library:x?}, second program {second:x?}");
    }
}
