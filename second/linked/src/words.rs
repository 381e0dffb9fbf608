//! Document 01, "Words": single words and lists, and what both programs make of them.

use crate::compare::compare;
use crate::ffi;
use crate::random::Random;
use second::book::CONTRADICTED;
use second::words::{self, E};

/// The ends of the ranges that the document tells apart, those of 32 bits, 0, and Q-2's word.
pub const ENDS: [i32; 11] = [
    i32::MIN,
    -1_000_000_000,
    -999_999_999,
    0,
    999_999_999,
    E,
    E + 1,
    E + 2,
    E + 3,
    CONTRADICTED,
    i32::MAX,
];

/// The levels, some that are over 3, and some whose low bits are a level.
pub const LEVELS: [usize; 10] = [0, 1, 2, 3, 4, 5, 256, 65_537, 1 << 32, usize::MAX];

/// A word of any kind, often one near an end of a range.
pub fn word(random: &mut Random) -> i32 {
    match random.below(4) {
        0 => random.pick(&ENDS).wrapping_add(random.below(5) as i32 - 2),
        1 => random.pick(&[E, E + 1, E + 2, E + 3, CONTRADICTED]),
        2 => random.below(100) as i32 - 50,
        _ => random.bits() as i32,
    }
}

/// Words of which few differ, so that some majorities are found and some narrowly missed.
pub fn words(random: &mut Random, length: usize) -> Vec<i32> {
    let different: Vec<i32> = (0..1 + random.below(5)).map(|_| word(random)).collect();
    let weight = random.below(4);
    let mut any = || random.below(different.len() + weight).saturating_sub(weight);
    (0..length).map(|_| different[any()]).collect()
}

pub fn read_wrap_unwrap(word: i32) {
    for level in LEVELS {
        read_at(level, word);
    }
    wrap(word);
    unwrap(word);
}

pub fn read_at(level: usize, word: i32) -> i32 {
    let second = words::read_at(level, word);
    let call = format_args!("read_at level {level:x} word {word:x}");
    compare(call, ffi::read_at(level, word), second);
    second
}

pub fn wrap(word: i32) -> i32 {
    let second = words::wrap(word);
    compare(format_args!("wrap word {word:x}"), ffi::wrap(word), second);
    second
}

pub fn unwrap(word: i32) -> i32 {
    let second = words::unwrap(word);
    compare(format_args!("unwrap word {word:x}"), ffi::unwrap(word), second);
    second
}

/// The majority of a list, which both programs find.
pub fn majority(list: &[i32]) -> i32 {
    let second = words::majority(list);
    compare(format_args!("majority list {list:x?}"), ffi::majority(list), second);
    second
}
