//! Document 01, "Words".

/// Unwrapped missing.
pub const E: i32 = 1_000_000_000;

/// Missing is wrapped at most this many times.
pub const MOST_WRAPS: usize = 3;

#[derive(Clone, Copy, Debug, PartialEq, Eq)]
pub enum Kind {
    Ordinary,
    Missing { wraps: usize },
    Bad,
}

pub fn kind(word: i32) -> Kind {
    match word {
        -999_999_999..=999_999_999 => Kind::Ordinary,
        1_000_000_000 => Kind::Missing { wraps: 0 },
        1_000_000_001 => Kind::Missing { wraps: 1 },
        1_000_000_002 => Kind::Missing { wraps: 2 },
        1_000_000_003 => Kind::Missing { wraps: 3 },
        _ => Kind::Bad,
    }
}

/// A level over 3 needs no case of its own: no word is wrapped more than 3 times.
pub fn read_at(level: usize, word: i32) -> i32 {
    match kind(word) {
        Kind::Ordinary => word,
        Kind::Missing { wraps } if wraps <= level => word,
        _ => E,
    }
}

pub fn wrap(word: i32) -> i32 {
    match kind(word) {
        Kind::Ordinary => word,
        Kind::Missing { wraps } if wraps < MOST_WRAPS => word + 1,
        _ => E,
    }
}

pub fn unwrap(word: i32) -> i32 {
    match kind(word) {
        Kind::Ordinary => word,
        Kind::Missing { wraps } if wraps > 0 => word - 1,
        _ => E,
    }
}

/// The hybrid majority. Only E is struck: a wrapped missing word counts like any other.
pub fn majority(list: &[i32]) -> i32 {
    let mut left: Vec<i32> = list.iter().copied().filter(|&word| word != E).collect();
    left.sort_unstable();
    // A word that fills more than half of a sorted list stands in its middle.
    let Some(&middle) = left.get(left.len() / 2) else {
        return E;
    };
    let first = left.partition_point(|&word| word < middle);
    let end = left.partition_point(|&word| word <= middle);
    if end - first > left.len() / 2 {
        middle
    } else {
        E
    }
}
