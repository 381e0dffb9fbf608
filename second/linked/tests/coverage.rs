//! Fault patterns of few cards, and what the coverage tells of itself.

use linked::ffi::all_answers;
use linked::patterns::{all, Faults, Pattern, Promise};
use linked::random::Random;
use linked::tables::{Limits, X};
use linked::trial::{agreed, broken, tried};
use linked::words::{word, words};
use second::exchange::{Exchange, ARBITRARY, GOOD, MANIFEST, PLACES, SYMMETRIC};
use second::paths::CARDS;
use second::words::E;
use std::process::{Command, Output};

fn coverage(arguments: &[&str]) -> Output {
    let program = env!("CARGO_BIN_EXE_coverage");
    Command::new(program).args(arguments).output().expect("the coverage runs")
}

fn text(output: &Output) -> String {
    assert_eq!(output.status.code(), Some(0), "{}", String::from_utf8_lossy(&output.stderr));
    String::from_utf8(output.stdout.clone()).expect("plain text")
}

fn pattern(n: usize, m: usize, statuses: &[u8]) -> Pattern {
    let mut list = [0; CARDS];
    list[..n].copy_from_slice(statuses);
    Pattern { n, m, t: 0, statuses: list }
}

#[test]
fn every_promise_is_kept() {
    let table = text(&coverage(&["--quick"]));
    assert!(table.ends_with("every promise kept\n"), "{table}");
    assert!(table.contains("| 4 | 1 | 1024 |"), "{table}");
}

#[test]
fn a_seed_repeats_its_picture() {
    let picture = |seed| text(&coverage(&["--picture", "--quick", "--seed", seed]));
    let first = picture("7");
    assert_eq!(first, picture("7"));
    assert_ne!(first, picture("8"));
    // The 56 cells of two m, the legend's four, and the picture's own title.
    assert_eq!(first.matches("<title>").count(), 2 * 56 + 4 + 1);
    assert!(first.starts_with("<svg ") && first.ends_with("</svg>\n"));
}

#[test]
fn wrong_command_lines_end_with_2() {
    for arguments in [&["--slow"][..], &["--seed"], &["--seed", "x"], &["file"]] {
        assert_eq!(coverage(arguments).status.code(), Some(2), "{arguments:?}");
    }
    assert!(text(&coverage(&["--help"])).starts_with("usage: coverage"));
}

#[test]
fn promises() {
    let promise = |n, m, a, s, c| Faults { a, s, c }.promise(n, m);
    assert_eq!(promise(4, 1, 1, 0, 0), Promise::Agreed);
    assert_eq!(promise(3, 1, 1, 0, 0), Promise::Nothing);
    assert_eq!(promise(5, 0, 1, 0, 0), Promise::Right);
    assert_eq!(promise(7, 2, 0, 2, 0), Promise::Agreed);
    assert_eq!(promise(7, 2, 0, 2, 1), Promise::Nothing);
    assert_eq!(all(3, 1).count(), 3 * 64);
}

/// Document 01, "Worked by hand": the two exchanges outside the bound.
#[test]
fn outside_the_bound_good_cards_may_differ() {
    let limits = Limits { all: 512, drawn: 0 };
    let mut random = Random::new("outside");
    for outside in [pattern(3, 1, &[0, 0, 1]), pattern(5, 0, &[1, 0, 0, 0, 0])] {
        let trial = tried(&outside, limits, &mut random).expect("no promise is broken");
        assert!(0 < trial.agreed && trial.agreed < trial.tables, "{trial:?}");
    }
}

/// Without an arbitrary card and with m at most 1, good cards differ from a good sender
/// alone.
#[test]
fn without_arbitrary_cards_only_a_good_sender_is_left_alone() {
    let mut random = Random::new("symmetric");
    let mut failed = 0;
    for (n, m) in [(3, 0), (3, 1), (4, 0), (4, 1), (5, 0), (5, 1)] {
        let patterns = all(n, m).filter(|p| p.faults().a == 0 && p.good().count() >= 2);
        for pattern in patterns {
            let limits = Limits { all: 256, drawn: 64 };
            let trial = tried(&pattern, limits, &mut random).expect("no promise is broken");
            let good_sender = pattern.statuses[pattern.t] == GOOD;
            assert!(trial.always() || good_sender, "{pattern:?}");
            failed += usize::from(!trial.always());
        }
    }
    assert_eq!(failed, 212);
}

/// The sender is card 0 and the other two are good; the table says 20 everywhere.
#[test]
fn broken_promises_are_seen() {
    let table = vec![20; PLACES];
    let seen = |sender: u8, [first, second, third]: [i32; 3]| {
        let mut answers = [99; CARDS];
        answers[..3].copy_from_slice(&[first, second, third]);
        broken(&pattern(3, 1, &[sender, 0, 0]), Promise::Agreed, &table, &answers)
    };
    let (wrong, differ) = (Some("a good card is not right"), Some("two good cards differ"));
    assert_eq!(seen(GOOD, [X, X, X]), None);
    assert_eq!(seen(GOOD, [X, X, 20]), wrong);
    assert_eq!(seen(GOOD, [20, X, X]), wrong);
    assert_eq!(seen(SYMMETRIC, [7, 20, 20]), None);
    assert_eq!(seen(SYMMETRIC, [7, X, X]), wrong);
    assert_eq!(seen(MANIFEST, [7, E, E]), None);
    assert_eq!(seen(MANIFEST, [7, 20, 20]), wrong);
    assert_eq!(seen(ARBITRARY, [7, 8, 8]), None);
    assert_eq!(seen(ARBITRARY, [7, 8, 9]), differ);
}

/// Where a is over m the good cards need only be right.
#[test]
fn no_more_is_promised_than_document_01_does() {
    let (table, mut answers) = (vec![20; PLACES], [99; CARDS]);
    answers[..3].copy_from_slice(&[7, 8, 9]);
    let arbitrary = pattern(3, 0, &[ARBITRARY, 0, 0]);
    assert_eq!(broken(&arbitrary, Promise::Right, &table, &answers), None);
    let manifest = pattern(3, 0, &[MANIFEST, 0, 0]);
    assert!(broken(&manifest, Promise::Right, &table, &answers).is_some());
    assert_eq!(broken(&manifest, Promise::Nothing, &table, &answers), None);
    assert!(!agreed(&manifest, &answers));
}

/// The table's other places change no good card's answer.
#[test]
fn places_are_all_that_good_cards_hear_of() {
    let mut random = Random::new("places");
    for (n, m) in [(4, 2), (5, 1), (5, 3)] {
        for pattern in all(n, m).step_by(7) {
            let mut tables = [vec![E; PLACES], words(&mut random, PLACES)];
            for place in pattern.places() {
                let told = word(&mut random);
                tables.iter_mut().for_each(|table| table[place.at] = told);
            }
            let [alone, among_others] = tables.map(|table| good_answers(&pattern, &table));
            assert_eq!(alone, among_others, "{pattern:?}");
        }
    }
}

fn good_answers(pattern: &Pattern, table: &[i32]) -> Vec<i32> {
    let Pattern { n, m, t, statuses } = *pattern;
    let mut answers = [E; CARDS];
    let exchange = Exchange { n, m, t, x: X, statuses: &statuses, table };
    assert_eq!(all_answers(&exchange, &mut answers), 0);
    pattern.good().map(|p| answers[p]).collect()
}
