//! Document 02, Q-1: the books of every sender, and outcomes; worked by hand and in long runs.

#[path = "../../tests/cases/books.rs"]
mod books;
#[path = "../../tests/cases/given.rs"]
mod given;
#[path = "../../tests/cases/outcomes.rs"]
mod outcomes;

use books::{hold_long_lists, Call};
use linked::bench::Bench;
use linked::books::Books;
use linked::frames::{frame_of, record_for};
use linked::lent::Lent;
use linked::outcome::{broken, start, Rack};
use linked::patterns::{self, Pattern};
use linked::random::Random;
use linked::runs::Outcomes;
use linked::settings::{all, all_rounds, live_slots};
use linked::tables::{Limits, Tables, X};
use linked::tally::{Enterings, Tally};
use linked::turns::Turns;
use linked::words::{word, words};
use outcomes::hold_outcomes;
use second::books::BOOKS;
use second::exchange::{ARBITRARY, GOOD};
use second::frames::FRAME_LENGTH;
use second::outcome::OUTCOME;
use second::paths::{Settings, CARDS};
use second::words::E;
use second::Refusal;
use std::panic::catch_unwind;

#[test]
fn worked_long_lists() {
    hold_long_lists(|settings, call, list| {
        let mut books = Books::new(list);
        let came = match call {
            Call::Open => books.open(settings),
            Call::Enter(slot, word) => books.enter(settings, slot, word).map(drop),
            Call::EnterFrame(current, frame) => {
                books.enter_frame(settings, current, frame).map(drop)
            }
            Call::Refill => books.refill(settings),
        };
        (came, books.list().to_vec())
    });
}

#[test]
fn worked_outcomes() {
    assert_eq!(start(&[7; OUTCOME]), Ok(vec![E; OUTCOME]));
    hold_outcomes(|exchange, before| Bench::of(exchange).set_row(before));
}

/// Each call in every good setting, on books of any words and on opened ones: a word, and the
/// same or another by a frame.
#[test]
fn every_setting() {
    let mut random = Random::new("long lists");
    let (mut others, mut enterings) = (Tally::default(), Enterings::default());
    let mut books = Books::new(words(&mut random, BOOKS));
    for settings in all() {
        if random.one_in(2) {
            others.count(books.open(settings));
        }
        let (slot, first) = (random.pick(&live_slots(settings)), word(&mut random));
        enterings.count(books.enter(settings, slot, first));
        others.count(books.refill(settings));
        let second = if random.one_in(2) { first } else { word(&mut random) };
        let frame = frame_of(&record_for(settings, 3, slot, second));
        enterings.count(books.enter_frame(settings, 3, &frame));
        if random.one_in(8) {
            books = Books::new(words(&mut random, BOOKS));
        }
    }
    others.expect(&[0], 1_500);
    enterings.expect(&[0], 100);
}

/// A frame for the book of each of ten senders, opened or of any words, of which every byte
/// takes many values.
#[test]
fn every_byte_of_a_frame_damaged() {
    let mut random = Random::new("frames in long lists");
    let mut outcomes = Tally::default();
    for t in 0..CARDS {
        let settings = Settings { n: CARDS, m: 3, t, p: 4 };
        let any = words(&mut random, BOOKS);
        let list = if random.one_in(4) { any } else { vec![E; BOOKS] };
        let (current, slot) = (random.bits() as u16, random.pick(&live_slots(settings)));
        let frame = frame_of(&record_for(settings, current, slot, word(&mut random)));
        for place in 0..FRAME_LENGTH {
            let any = random.byte();
            for byte in (0..=11).chain([any, 127, 128, 254, 255]) {
                let mut frame = frame;
                frame[place] = byte;
                let mut books = Books::new(list.clone());
                outcomes.count(books.enter_frame(settings, current, &frame));
            }
        }
    }
    outcomes.expect(&[0, 8, 10, 11, 12, 13, 14, 15], 20);
}

const RUNS_OF_EACH: usize = 5;
const CALLS: usize = 100;

#[test]
fn long_lists_in_mixed_runs() {
    let mut random = Random::new("turns");
    let (mut outcomes, mut ordinary) = (Outcomes::default(), 0);
    for rounds in all_rounds() {
        for _ in 0..RUNS_OF_EACH {
            let mut run = Turns::new(&mut random, &mut outcomes, rounds);
            for _ in 0..CALLS {
                run.call();
            }
            ordinary += run.ordinary;
        }
    }
    outcomes.open.expect(&[0, 1, 2, 3, 4, 5], 5);
    outcomes.refill.expect(&[0, 1, 2, 3, 4, 5], 5);
    outcomes.enter.expect(&[0, 1, 2, 3, 4, 5, 8], 10);
    outcomes.enter_frame.expect(&[0, 1, 2, 3, 4, 5, 8, 9, 10, 11, 12, 13, 14, 15], 10);
    outcomes.held_answer.expect(&[0], 50_000);
    assert!(ordinary > 5_000, "{ordinary} ordinary answers");
}

/// Racks with any faulty cards and any words, each with some exchanges of any sender.
#[test]
fn outcomes_in_runs_of_exchanges() {
    let mut random = Random::new("outcomes");
    let (mut outcomes, mut promised) = (Tally::default(), [0; 3]);
    for rounds in all_rounds() {
        for _ in 0..RUNS_OF_EACH {
            let mut rack = Rack::drawn(&mut random, rounds);
            promised[rack.promise() as usize] += 1;
            for _ in 0..8 {
                outcomes.count(rack.exchange(&mut random));
            }
        }
    }
    outcomes.expect(&[0, 1, 2, 3, 5, 6, 7], 3);
    assert!(promised.iter().all(|&racks| racks >= 3), "{promised:?}");
}

/// Every card is sender in turn, and in turn again, in every fault pattern of small racks:
/// faulty cards that do no harm, then an attack.
#[test]
fn outcomes_of_every_pattern() {
    let mut random = Random::new("patterns in turn");
    let mut promised = [0; 3];
    for (n, m) in all_rounds().into_iter().filter(|&(n, _)| n <= 4) {
        for first in patterns::all(n, m).filter(|pattern| pattern.t == 0) {
            let mut rack = Rack::new(first);
            promised[rack.promise() as usize] += 1;
            for t in 0..n {
                let places = Pattern { t, ..first }.places();
                let limits = Limits { all: 0, drawn: 1 };
                let set = Tables::new(&places, &mut random)
                    .each(limits, |table| rack.set(t, X, table.to_vec()));
                assert_eq!(set, Ok(()));
            }
        }
    }
    assert!(promised.iter().all(|&racks| racks >= 10), "{promised:?}");
}

#[test]
fn outcomes_of_any_length() {
    let mut random = Random::new("outcome lists");
    let mut outcomes = Tally::default();
    for length in 0..=2 * OUTCOME {
        outcomes.count(start(&words(&mut random, length)));
    }
    for _ in 0..1_000 {
        let length = random.length(OUTCOME);
        outcomes.count(start(&words(&mut random, length)));
    }
    outcomes.expect(&[0, 5], 20);
}

/// Four cards, the last one arbitrary. Senders 0 and 3 have told their values, 10 and 20;
/// their rows' first five words are given.
fn seen(m: usize, rows: [[i32; 5]; 2]) -> Option<&'static str> {
    let mut statuses = [GOOD; CARDS];
    statuses[3] = ARBITRARY;
    let (mut values, mut outcome) = ([None; CARDS], [E; OUTCOME]);
    (values[0], values[3]) = (Some(10), Some(20));
    outcome[..5].copy_from_slice(&rows[0]);
    outcome[30..35].copy_from_slice(&rows[1]);
    broken(&Pattern { n: 4, m, t: 0, statuses }, &values, &outcome)
}

#[test]
fn broken_promises_are_seen() {
    let (wrong, differ) = (
        Some("a good sender's value does not stand in a good column"),
        Some("two good columns differ"),
    );
    let not_e = Some("a place that no exchange sets is not E");
    let (right, told) = ([10, 10, 10, 99, E], [8, 8, 8, 7, E]);
    assert_eq!(seen(1, [right, told]), None);
    assert_eq!(seen(1, [[10, 10, 20, 99, E], told]), wrong);
    assert_eq!(seen(1, [[20, 20, 20, 99, E], told]), wrong);
    assert_eq!(seen(1, [right, [8, 8, 9, 7, E]]), differ);
    assert_eq!(seen(1, [[10, 10, 10, 99, 10], told]), not_e);
    // Where a is over m a good sender's value stands, and other columns may differ.
    assert_eq!(seen(0, [right, [8, 8, 9, 7, E]]), None);
    assert_eq!(seen(0, [[10, 10, 20, 99, E], told]), wrong);
    // Outside the bound only E is promised: 4 against 2 and 2.
    assert_eq!(seen(2, [[10, 11, 12, 99, E], [8, 8, 9, 7, E]]), None);
    assert_eq!(seen(2, [right, [8, 8, 8, 7, 8]]), not_e);
}

/// No exchange has set these rows, of a card and of a sender that there is not.
#[test]
fn rows_that_no_exchange_set_are_e() {
    let cards = Pattern { n: 4, m: 1, t: 0, statuses: [GOOD; CARDS] };
    for place in [0, 3, 39, 40, 99] {
        let mut outcome = [E; OUTCOME];
        assert_eq!(broken(&cards, &[None; CARDS], &outcome), None);
        outcome[place] = 10;
        assert!(broken(&cards, &[None; CARDS], &outcome).is_some(), "{place}");
    }
}

/// What both programs do wrong alike is seen too: a call for places 1 and 2 that changes
/// another, and a refusal that changes any.
#[test]
fn changes_elsewhere_are_seen() {
    let seen = |place: usize, outcome: Result<(), Refusal>| {
        let call = move || {
            let number = outcome.err().unwrap_or(0);
            let name = ("list", format_args!("a call"));
            let library = |list: &mut [i32]| {
                list[place] = 7;
                number
            };
            let second = |list: &mut [i32]| {
                list[place] = 7;
                outcome
            };
            Lent::new(vec![0; 4]).call(name, 1..3, library, second)
        };
        catch_unwind(call).is_err()
    };
    assert_eq!([0, 1, 2, 3].map(|place| seen(place, Ok(()))), [true, false, false, true]);
    assert_eq!([0, 1, 2, 3].map(|place| seen(place, Err(5))), [true; 4]);
}
