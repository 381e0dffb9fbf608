//! Votes from lists of words.

#[path = "../../tests/cases/votes.rs"]
mod cases;

use cases::hold_votes;
use linked::lent::Lent;
use linked::random::Random;
use linked::settings::{all, any, any_slot};
use linked::tally::Tally;
use linked::vote::vote_at;
use linked::words::{word, words};
use second::paths::SLOTS;
use second::words::{kind, Kind};

#[test]
fn worked_votes() {
    hold_votes(|settings, words, slot| vote_at(settings, &Lent::new(words.to_vec()), slot, 9));
}

#[test]
fn every_number_to_1200_in_every_setting() {
    let mut random = Random::new("every setting");
    let mut outcomes = Tally::default();
    let mut missing = [0; 4];
    let mut ordinary = 0;
    for settings in all() {
        let words = Lent::new(words(&mut random, SLOTS));
        for slot in 0..=1_200 {
            let outcome = vote_at(settings, &words, slot, word(&mut random));
            outcomes.count(outcome);
            match outcome.map(kind) {
                Ok(Kind::Ordinary) => ordinary += 1,
                Ok(Kind::Missing { wraps }) => missing[wraps] += 1,
                Ok(Kind::Bad) => panic!("a vote is ordinary or missing"),
                Err(_) => {}
            }
        }
    }
    outcomes.expect(&[0, 8], 40_000);
    assert!(ordinary > 10_000 && missing.iter().all(|&times| times > 500), "{missing:?}");
}

#[test]
fn any_settings_lists_and_slots() {
    let mut random = Random::new("any votes");
    let mut outcomes = Tally::default();
    for _ in 0..200_000 {
        let settings = any(&mut random);
        let length = random.length(SLOTS);
        let words = Lent::new(words(&mut random, length));
        let slot = any_slot(&mut random);
        outcomes.count(vote_at(settings, &words, slot, word(&mut random)));
    }
    outcomes.expect(&[0, 1, 2, 3, 4, 5, 8], 2_000);
}
