//! Words one at a time at every level, and majorities of lists.

#[path = "../../tests/cases/words.rs"]
mod cases;

use cases::{hold_majorities, hold_words};
use linked::random::Random;
use linked::words::{majority, read_at, read_wrap_unwrap, unwrap, word, words, wrap, ENDS};
use second::words::{kind, Kind, E};

#[test]
fn worked_words_and_majorities() {
    hold_words(read_at, wrap, unwrap);
    hold_majorities(majority);
}

#[test]
fn words_around_every_end_of_a_range() {
    for end in ENDS {
        for offset in -50_000..=50_000 {
            read_wrap_unwrap(end.wrapping_add(offset));
        }
    }
}

#[test]
fn a_million_words() {
    let mut random = Random::new("words");
    for _ in 0..1_000_000 {
        read_wrap_unwrap(random.bits() as i32);
        read_wrap_unwrap(word(&mut random));
    }
}

/// How many majorities were ordinary, E, wrapped missing and bad.
#[derive(Default)]
struct Found([u64; 4]);

impl Found {
    fn add(&mut self, word: i32) {
        let place = match kind(word) {
            Kind::Ordinary => 0,
            Kind::Missing { wraps: 0 } => 1,
            Kind::Missing { .. } => 2,
            Kind::Bad => 3,
        };
        self.0[place] += 1;
    }
}

#[test]
fn majorities_of_few_different_words() {
    let mut random = Random::new("majorities");
    let mut found = Found::default();
    for _ in 0..400_000 {
        let length = random.below(41);
        found.add(majority(&words(&mut random, length)));
    }
    assert!(found.0.iter().all(|&times| times > 20_000), "{:?}", found.0);
}

/// Lists in which one word fills half of what is left, or one place more or less.
#[test]
fn majorities_by_one_word() {
    let mut random = Random::new("majorities by one word");
    let (mut won, mut missed) = (0, 0);
    for _ in 0..20_000 {
        let left = 1 + random.below(30);
        let winner = word(&mut random);
        let times = (left / 2 + random.below(3)).saturating_sub(1);
        let mut list = vec![winner; times];
        list.resize_with(left, || word(&mut random));
        list.resize(left + random.below(11), E);
        random.shuffle(&mut list);
        if majority(&list) == E {
            missed += 1;
        } else {
            won += 1;
        }
    }
    assert!(won > 5_000 && missed > 5_000, "{won} won, {missed} missed");
}
