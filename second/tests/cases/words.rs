//! Document 01, "Words": single words and lists, with what is made of them.

use second::words::{Kind, E};

const E1: i32 = E + 1;
const E2: i32 = E + 2;
const E3: i32 = E + 3;

/// A word, its kind, what it reads as at levels 0 to 3, and what it is wrapped and unwrapped.
pub type Word = (i32, Kind, [i32; 4], i32, i32);

const fn ordinary(word: i32) -> Word {
    (word, Kind::Ordinary, [word; 4], word, word)
}

const fn bad(word: i32) -> Word {
    (word, Kind::Bad, [E; 4], E, E)
}

/// Both ends of every range, words near them, and the one that Q-2 stores.
pub const WORDS: [Word; 23] = [
    bad(-2_147_483_648),
    bad(-2_147_483_647),
    bad(-1_000_000_003),
    bad(-1_000_000_002),
    bad(-1_000_000_001),
    bad(-1_000_000_000),
    ordinary(-999_999_999),
    ordinary(-999_999_998),
    ordinary(-120),
    ordinary(-1),
    ordinary(0),
    ordinary(1),
    ordinary(999_999_998),
    ordinary(999_999_999),
    (1_000_000_000, Kind::Missing { wraps: 0 }, [E, E, E, E], E1, E),
    (1_000_000_001, Kind::Missing { wraps: 1 }, [E, E1, E1, E1], E2, E),
    (1_000_000_002, Kind::Missing { wraps: 2 }, [E, E, E2, E2], E3, E1),
    (1_000_000_003, Kind::Missing { wraps: 3 }, [E, E, E, E3], E, E2),
    bad(1_000_000_004),
    bad(1_000_000_005),
    bad(1_000_000_009),
    bad(2_147_483_646),
    bad(2_147_483_647),
];

/// Holds a program's functions to the words; a level over 3 reads as level 3.
pub fn hold_words(
    read_at: impl Fn(usize, i32) -> i32,
    wrap: impl Fn(i32) -> i32,
    unwrap: impl Fn(i32) -> i32,
) {
    for (word, _, read, wrapped, unwrapped) in WORDS {
        for level in [0, 1, 2, 3, 4, 5, 1_000, usize::MAX] {
            assert_eq!(read_at(level, word), read[level.min(3)], "{word} at level {level}");
        }
        assert_eq!((wrap(word), unwrap(word)), (wrapped, unwrapped), "{word}");
    }
}

/// Lists, each with its majority; the first five are document 01's.
const MAJORITIES: [(&[i32], i32); 13] = [
    (&[5, 5, 7], 5),
    (&[5, 7], E),
    (&[5, E, E], 5),
    (&[], E),
    (&[E1, E1, 4, E], E1),
    (&[7, 5, 5], 5),
    (&[1, 2, 2, 3], E),
    (&[1, 1, 2, 2], E),
    (&[E, E, E], E),
    (&[-120, 120, -120], -120),
    (&[5, 5, 7, 8], E),
    (&[5, 5, 5, 7, 8], 5),
    (&[i32::MIN, E, i32::MIN, i32::MAX], i32::MIN),
];

pub fn hold_majorities(majority: impl Fn(&[i32]) -> i32) {
    for (list, word) in MAJORITIES {
        assert_eq!(majority(list), word, "{list:?}");
    }
}
