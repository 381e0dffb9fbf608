//! Exchanges on the bench: words, answers, filled books and the bound.

#[path = "../../tests/cases/exchanges.rs"]
mod cases;
#[path = "../../tests/cases/given.rs"]
mod given;

use cases::{hold_books, hold_exchanges};
use linked::bench::{any_statuses, bound, statuses, Bench};
use linked::random::Random;
use linked::settings::{all_rounds, any, any_slot, of_rounds};
use linked::tally::Tally;
use linked::words::{word, words};
use second::outcome::OUTCOME;
use second::paths::{CARDS, SLOTS};

#[test]
fn worked_exchanges() {
    hold_exchanges(
        |exchange, list| Bench::of(exchange).all_answers(&list),
        |exchange, p| Bench::of(exchange).answer_for(p, 9),
        |n, m, statuses| bound(n, m, statuses, 9),
    );
}

#[test]
fn worked_books() {
    hold_books(
        |exchange, p, slot| Bench::of(exchange).word_for(p, slot, 9),
        |exchange, p, [words, votes]| Bench::of(exchange).fill(p, &words, &votes),
    );
}

#[test]
fn every_word_of_many_exchanges() {
    let mut random = Random::new("bench words");
    let mut outcomes = Tally::default();
    for (n, m) in all_rounds() {
        for _ in 0..8 {
            let settings = of_rounds(&mut random, n, m);
            let bench = Bench::good(&mut random, n, m, settings.t);
            for slot in 0..=1_200 {
                outcomes.count(bench.word_for(settings.p, slot, word(&mut random)));
            }
        }
    }
    outcomes.expect(&[0, 8], 5_000);
}

#[test]
fn every_answer_and_book_of_many_exchanges() {
    let mut random = Random::new("answers");
    let mut outcomes = Tally::default();
    for (n, m) in all_rounds() {
        for t in (0..n).cycle().take(20) {
            let bench = Bench::good(&mut random, n, m, t);
            outcomes.count(bench.all_answers(&words(&mut random, CARDS)));
            outcomes.count(bench.set_row(&words(&mut random, OUTCOME)));
            for p in 0..n {
                outcomes.count(bench.answer_for(p, word(&mut random)));
                let book = [words(&mut random, SLOTS), words(&mut random, SLOTS)];
                outcomes.count(bench.fill(p, &book[0], &book[1]));
            }
        }
    }
    outcomes.expect(&[0], 9_000);
}

#[test]
fn any_exchanges() {
    let mut random = Random::new("any exchanges");
    let [mut word_for, mut answer_for, mut all_answers, mut fill, mut set_row] =
        [(); 5].map(|()| Tally::default());
    for _ in 0..10_000 {
        let (bench, p) = Bench::any(&mut random);
        let slot = any_slot(&mut random);
        word_for.count(bench.word_for(p, slot, word(&mut random)));
        answer_for.count(bench.answer_for(p, word(&mut random)));
        let [answers, words, votes, outcome] = [CARDS, SLOTS, SLOTS, OUTCOME].map(|right| {
            let length = random.length(right);
            words(&mut random, length)
        });
        all_answers.count(bench.all_answers(&answers));
        fill.count(bench.fill(p, &words, &votes));
        set_row.count(bench.set_row(&outcome));
    }
    word_for.expect(&[0, 1, 2, 3, 4, 5, 6, 7, 8], 100);
    answer_for.expect(&[0, 1, 2, 3, 4, 5, 6, 7], 100);
    all_answers.expect(&[0, 1, 2, 3, 5, 6, 7], 100);
    fill.expect(&[0, 1, 2, 3, 4, 5, 6, 7], 100);
    set_row.expect(&[0, 1, 2, 3, 5, 6, 7], 100);
}

/// Every number of faulty cards of each kind among n, in any order.
#[test]
fn the_bound_for_every_number_of_faulty_cards() {
    let mut random = Random::new("bound");
    let (mut held, mut outcomes) = ([0, 0], Tally::default());
    for (n, m) in all_rounds() {
        for counts in 0..(n + 1).pow(3) {
            let counts = [counts % (n + 1), counts / (n + 1) % (n + 1), counts / (n + 1).pow(2)];
            if counts.iter().sum::<usize>() > n {
                continue;
            }
            let faulty = (1..=3).zip(counts).flat_map(|(status, count)| vec![status; count]);
            let mut list: Vec<u8> = faulty.collect();
            list.resize(n, 0);
            random.shuffle(&mut list);
            list.resize(CARDS, 0);
            let outcome = bound(n, m, &list, word(&mut random));
            outcomes.count(outcome);
            held[usize::from(outcome == Ok(true))] += 1;
        }
    }
    outcomes.expect(&[0], 3_948);
    assert!(held[0] > 500 && held[1] > 200, "{held:?}");
}

#[test]
fn any_bounds() {
    let mut random = Random::new("any bounds");
    let mut outcomes = Tally::default();
    for _ in 0..300_000 {
        let settings = any(&mut random);
        let list = any_statuses(&mut random, settings.n);
        outcomes.count(bound(settings.n, settings.m, &list, word(&mut random)));
        outcomes.count(bound(10, 3, &statuses(&mut random, 10), word(&mut random)));
    }
    outcomes.expect(&[0, 1, 2, 5, 7], 5_000);
}
