//! Document 02, Q-2: what a word meets at its slot, and what the words accepted on one path
//! leave there, worked out from all of them at once.

use crate::random::seed;
use second::book::CONTRADICTED;
use second::words::E;

/// What a word that is entered meets at its slot.
#[derive(Clone, Copy, Debug, PartialEq, Eq)]
pub enum Met {
    E,
    /// The same word.
    Same,
    /// Another word, which it contradicts.
    Another,
    Contradicted,
}

impl Met {
    pub const ALL: [(Met, &'static str); 4] = [
        (Met::E, "E"),
        (Met::Same, "same"),
        (Met::Another, "another"),
        (Met::Contradicted, "contradicted"),
    ];

    pub fn of(held: i32, word: i32) -> Self {
        match held {
            E => Met::E,
            CONTRADICTED => Met::Contradicted,
            _ if held == word => Met::Same,
            _ => Met::Another,
        }
    }
}

/// What the words accepted on one path leave: the leading E count for nothing, and all others
/// must be the same.
pub fn left_by(accepted: &[i32]) -> i32 {
    let leading = accepted.iter().take_while(|&&word| word == E).count();
    match &accepted[leading..] {
        [] => E,
        [first, others @ ..] if others.iter().all(|word| word == first) => *first,
        _ => CONTRADICTED,
    }
}

/// The words accepted on each path of a book, and what they leave at its slots.
pub struct Accepted {
    paths: Vec<Vec<i32>>,
    left: Vec<i32>,
}

impl Accepted {
    /// Of a book that holds these words, each being the first on its path.
    pub fn new(words: &[i32]) -> Self {
        Accepted { paths: words.iter().map(|&word| vec![word]).collect(), left: words.to_vec() }
    }

    pub fn add(&mut self, slot: usize, word: i32) {
        self.paths[slot].push(word);
        self.left[slot] = left_by(&self.paths[slot]);
    }

    /// What the words leave, slot by slot.
    pub fn left(&self) -> &[i32] {
        &self.left
    }

    /// Ends the run where a book holds other words than these leave.
    pub fn hold(&self, words: &[i32]) {
        let differs = (0..self.left.len()).find(|&slot| words.get(slot) != self.left.get(slot));
        if let Some(slot) = differs {
            let (seed, held, accepted) = (seed(), words.get(slot), &self.paths[slot]);
            panic!("SEED={seed} slot {slot:x} accepted {accepted:x?} and holds {held:x?}");
        }
    }
}
