//! A card's book: two that words straggle into, one that words contradict each other in, and
//! long runs of enterings, both lists compared after each call.

#[path = "../../tests/cases/contradictions.rs"]
mod contradictions;
#[path = "../../tests/cases/given.rs"]
mod given;

use contradictions::{hold_contradictions, hold_left};
use given::with;
use linked::bench::Bench;
use linked::book::Book;
use linked::contradictions::{left_by, Accepted};
use linked::lent::Lent;
use linked::random::Random;
use linked::runs::{Outcomes, Run};
use linked::settings::all_rounds;
use linked::vote::vote_at;
use second::paths::{Settings, SLOTS};
use second::words::E;
use second::Refusal;
use std::panic::catch_unwind;
use Call::{Enter, Open, Refill, Spoil};

#[derive(Clone, Copy, Debug)]
enum Call {
    Open,
    /// A slot and a word.
    Enter(usize, i32),
    /// Somebody else writes into every vote.
    Spoil,
    Refill,
}

/// n, m, t and p; a call; what comes of it; then the answer held, and the answer worked out
/// afresh from the words.
type Step = ([usize; 4], Call, Result<(), Refusal>, i32, i32);

const DONE: Result<(), Refusal> = Ok(());
const SPOILT: i32 = E + 3;

const SMALL: [usize; 4] = [4, 1, 0, 1];
const LARGE: [usize; 4] = [10, 3, 4, 6];

/// Slots 0, 3 and 4 are live.
const SMALL_BOOK: &[Step] = &[
    (SMALL, Open, DONE, E, E),
    (SMALL, Enter(0, 10), DONE, 10, 10),
    (SMALL, Enter(3, 10), DONE, 10, 10),
    (SMALL, Enter(4, 30), DONE, 10, 10),
    // 10, E and 30.
    (SMALL, Enter(3, 20), DONE, E, E),
    (SMALL, Enter(1, 10), Err(8), E, E),
    (SMALL, Enter(2, 10), Err(8), E, E),
    (SMALL, Enter(5, 10), Err(8), E, E),
    (SMALL, Enter(11, 10), Err(8), E, E),
    (SMALL, Enter(1_110, 10), Err(8), E, E),
    (SMALL, Enter(1_111, 10), Err(8), E, E),
    (SMALL, Enter(4, 20), DONE, 10, 10),
    (SMALL, Open, DONE, E, E),
    (SMALL, Enter(4, 20), DONE, E, E),
    (SMALL, Enter(3, 20), DONE, 20, 20),
    (SMALL, Enter(0, 10), DONE, 20, 20),
    (SMALL, Enter(3, E + 4), DONE, E, E),
    (SMALL, Enter(0, i32::MIN), DONE, E, E),
    (SMALL, Open, DONE, E, E),
    (SMALL, Enter(3, E + 1), DONE, E, E),
    (SMALL, Enter(4, E + 1), DONE, E, E),
    (SMALL, Enter(0, E + 1), DONE, E, E),
    (SMALL, Enter(0, E), DONE, E, E),
    (SMALL, Open, DONE, E, E),
    (SMALL, Enter(0, E), DONE, E, E),
    (SMALL, Enter(4, -120), DONE, E, E),
    (SMALL, Enter(3, -120), DONE, -120, -120),
    (SMALL, Enter(0, 999_999_999), DONE, -120, -120),
    (SMALL, Enter(3, 999_999_999), DONE, E, E),
    (SMALL, Open, DONE, E, E),
    (SMALL, Enter(3, 999_999_999), DONE, E, E),
    (SMALL, Enter(0, 999_999_999), DONE, 999_999_999, 999_999_999),
    (SMALL, Enter(4, E + 2), DONE, 999_999_999, 999_999_999),
    (SMALL, Enter(4, -E), DONE, 999_999_999, 999_999_999),
    (SMALL, Enter(3, 999_999_999), DONE, 999_999_999, 999_999_999),
    ([0, 0, 0, 0], Enter(3, 7), Err(1), 999_999_999, 999_999_999),
    ([11, 4, 11, 11], Enter(3, 7), Err(1), 999_999_999, 999_999_999),
    ([4, 4, 4, 4], Enter(3, 7), Err(2), 999_999_999, 999_999_999),
    ([3, 3, 0, 1], Enter(3, 7), Err(2), 999_999_999, 999_999_999),
    ([4, 1, 4, 4], Enter(3, 7), Err(3), 999_999_999, 999_999_999),
    ([4, 1, 0, 4], Enter(3, 7), Err(4), 999_999_999, 999_999_999),
];

/// Slots 136, 836, 839 and 840 are the paths by relays 0, 2, 5, by 7, 2, 5, by 7, 2, 8 and by
/// 7, 2, 9.
const LARGE_BOOK: &[Step] = &[
    (LARGE, Open, DONE, E, E),
    (LARGE, Enter(0, 500), DONE, 500, 500),
    (LARGE, Enter(1, 500), DONE, 500, 500),
    (LARGE, Enter(2, 300), DONE, 500, 500),
    (LARGE, Enter(3, 300), DONE, E, E),
    (LARGE, Enter(13, 700), DONE, 300, 300),
    (LARGE, Enter(14, 500), DONE, E, E),
    (LARGE, Enter(136, 500), DONE, E, E),
    (LARGE, Enter(236, E + 3), DONE, E, E),
    (LARGE, Enter(24, E + 2), DONE, 500, 500),
    (LARGE, Enter(5, 1), Err(8), 500, 500),
    (LARGE, Enter(7, 1), Err(8), 500, 500),
    (LARGE, Enter(11, 1), Err(8), 500, 500),
    (LARGE, Enter(133, 1), Err(8), 500, 500),
    (LARGE, Enter(1_110, 1), Err(8), 500, 500),
    (LARGE, Enter(840, 900), DONE, 500, 500),
    (LARGE, Enter(83, 900), DONE, 500, 500),
    (LARGE, Enter(8, 900), DONE, E, E),
    (LARGE, Enter(839, -5), DONE, E, E),
    (LARGE, Enter(836, -5), DONE, E, E),
    // At slot 83 the votes 900, 900, -5 and -5 become 900, E, -5 and -5.
    (LARGE, Enter(840, -5), DONE, 500, 500),
    (LARGE, Enter(0, 300), DONE, E, E),
    (LARGE, Enter(1, 300), DONE, E, E),
    (LARGE, Enter(4, 300), DONE, 300, 300),
    (LARGE, Enter(840, i32::MAX), DONE, 300, 300),
    (LARGE, Enter(10, -300), DONE, E, E),
    (LARGE, Enter(9, 300), DONE, 300, 300),
    ([0, 3, 4, 6], Enter(0, 7), Err(1), 300, 300),
    ([11, 3, 4, 6], Enter(0, 7), Err(1), 300, 300),
    ([10, 4, 10, 10], Enter(0, 7), Err(2), 300, 300),
    ([3, 3, 4, 6], Enter(0, 7), Err(2), 300, 300),
    ([10, 3, 10, 10], Enter(0, 7), Err(3), 300, 300),
    ([10, 3, 4, 10], Enter(0, 7), Err(4), 300, 300),
    (LARGE, Spoil, DONE, SPOILT, 300),
    // Votes are re-made where the slot is left as it was: contradicted, and with the same word.
    (LARGE, Enter(0, 300), DONE, E, 300),
    (LARGE, Enter(4, 300), DONE, E, 300),
    (LARGE, Enter(3, 300), DONE, 300, 300),
    (LARGE, Spoil, DONE, SPOILT, 300),
    ([10, 3, 4, 10], Refill, Err(4), SPOILT, 300),
    (LARGE, Refill, DONE, 300, 300),
];

fn settings_of([n, m, t, p]: [usize; 4]) -> Settings {
    Settings { n, m, t, p }
}

/// The book of a card after these steps, all its places 7 before.
fn kept(own: [usize; 4], steps: &[Step]) -> Book {
    let mut book = Book::new(vec![7; SLOTS], vec![7; SLOTS]);
    for step in steps {
        let &(settings, call, outcome, held, afresh) = step;
        let settings = settings_of(settings);
        let came = match call {
            Open => book.open(settings),
            Enter(slot, word) => book.enter(settings, slot, word).map(drop),
            Refill => book.refill(settings),
            Spoil => {
                book = Book::new(book.words().to_vec(), vec![SPOILT; SLOTS]);
                DONE
            }
        };
        assert_eq!(came, outcome, "{step:?}");
        assert_eq!(book.held_answer(9), Ok(held), "{step:?}");
        let words = Lent::new(book.words().to_vec());
        assert_eq!(vote_at(settings_of(own), &words, 0, 9), Ok(afresh), "{step:?}");
    }
    book
}

#[test]
fn worked_books() {
    kept(SMALL, SMALL_BOOK);
    let large = kept(LARGE, LARGE_BOOK);
    assert_eq!(large.votes()[9], 300, "slot 9 is live");
    assert_eq!(large.votes()[5], SPOILT, "slot 5 is not live");
}

#[test]
fn worked_contradictions() {
    use contradictions::Call;
    hold_left(left_by);
    hold_contradictions(|settings, call, [words, mut votes]| {
        let mut book = Book::new(words.clone(), votes.clone());
        let outcome = match call {
            Call::Open => book.open(settings),
            Call::Enter(slot, word) => book.enter(settings, slot, word).map(drop),
            Call::EnterFrame(current, frame) => {
                book.enter_frame(settings, current, &frame).map(drop)
            }
            Call::Refill => book.refill(settings),
            Call::Fill(given) => with(given, |exchange| {
                let [words, votes] = Bench::of(exchange).fill(settings.p, &words, &votes)?;
                book = Book::new(words, votes);
                DONE
            }),
            Call::Write(slot, vote) => {
                votes[slot] = vote;
                book = Book::new(words, votes);
                DONE
            }
        };
        (outcome, [book.words().to_vec(), book.votes().to_vec()])
    });
}

/// What both programs do wrong alike is seen too: the first word left, the last one, or E.
#[test]
fn words_that_the_accepted_ones_do_not_leave_are_seen() {
    let seen = |held: i32| {
        let mut accepted = Accepted::new(&[E; SLOTS]);
        accepted.add(3, 5);
        accepted.add(3, 7);
        let mut words = [E; SLOTS];
        words[3] = held;
        catch_unwind(|| accepted.hold(&words)).is_err()
    };
    assert_eq!([5, 7, E, 1_000_000_009].map(seen), [true, true, true, false]);
}

#[test]
fn lists_of_another_length() {
    for (words, votes, slot) in [(1_110, SLOTS, 3), (SLOTS, 1_110, 1), (SLOTS, 1_112, 3)] {
        let mut book = Book::new(vec![7; words], vec![7; votes]);
        assert_eq!(book.enter(settings_of(SMALL), slot, 7), Err(5), "{words} words, {votes} votes");
        assert_eq!(book.held_answer(9), Err(5), "{words} words, {votes} votes");
    }
}

const RUNS_OF_EACH: usize = 30;
const ENTERINGS: usize = 500;

#[test]
fn long_runs_with_every_number_of_cards_and_rounds() {
    let mut random = Random::new("runs");
    let mut outcomes = Outcomes::default();
    for rounds in all_rounds() {
        for _ in 0..RUNS_OF_EACH {
            let mut run = Run::new(&mut random, &mut outcomes, rounds);
            for _ in 0..ENTERINGS {
                run.enter();
            }
        }
    }
    let enterings = outcomes.enter.outcomes.total() + outcomes.enter_frame.outcomes.total();
    assert!(enterings >= (34 * RUNS_OF_EACH * ENTERINGS) as u64);
    outcomes.open.expect(&[0, 1, 2, 3, 4, 5], 10);
    outcomes.refill.expect(&[0, 1, 2, 3, 4, 5], 10);
    outcomes.held_answer.expect(&[0, 5], 1_000);
    outcomes.enter.expect(&[0, 1, 2, 3, 4, 5, 8], 100);
    outcomes.enter_frame.expect(&[0, 1, 2, 3, 4, 5, 8, 9, 10, 11, 12, 13, 14, 15], 100);
}
