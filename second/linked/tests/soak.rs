//! A short soak, and what the soak tells of itself.

use linked::calls::Calls;
use linked::compare::compare;
use linked::contradictions::Met;
use linked::soak::difference;
use std::panic;
use std::process::{Command, Output};

fn soak(arguments: &[&str]) -> Output {
    let program = env!("CARGO_BIN_EXE_soak");
    Command::new(program).args(arguments).output().expect("the soak runs")
}

fn text(output: &Output) -> String {
    assert_eq!(output.status.code(), Some(0), "{}", String::from_utf8_lossy(&output.stderr));
    String::from_utf8(output.stdout.clone()).expect("plain text")
}

#[test]
fn every_refusal_comes_and_nothing_differs() {
    let summary = text(&soak(&["--count", "300000"]));
    assert!(summary.ends_with("inputs, no difference\n"), "{summary}");
    assert!(summary.contains("\nentered, met "), "{summary}");
}

#[test]
fn a_seed_repeats_its_run() {
    let run = |seed| text(&soak(&["--count", "20000", "--seed", seed]));
    assert_eq!(run("7"), run("7"));
    let counts = |seed| run(seed).lines().nth(3).map(str::to_string);
    assert_ne!(counts("7"), counts("8"));
}

#[test]
fn wrong_command_lines_end_with_2() {
    for arguments in [&["--counts"][..], &["--count"], &["--count", "many"], &["--seed", "-1"]] {
        assert_eq!(soak(arguments).status.code(), Some(2), "{arguments:?}");
    }
    assert!(text(&soak(&["--help"])).starts_with("usage: soak"));
}

#[test]
fn refusals_that_did_not_come_are_named() {
    let mut calls = Calls::default();
    assert_eq!(calls.missing().len(), 131);
    calls.bound.add(7);
    assert_eq!(calls.missing().len(), 130);
    assert!(calls.unexpected().is_empty());
    calls.bound.add(8);
    assert_eq!(calls.unexpected(), ["bound: 8"]);
}

#[test]
fn what_no_word_met_is_named() {
    let mut calls = Calls::default();
    assert_eq!(calls.unmet().len(), 16);
    for (met, _) in Met::ALL {
        calls.book.enter.count(Ok(met));
        calls.book.enter_frame.count(Ok(met));
        calls.books.enter_frame.count(Ok(met));
    }
    calls.books.enter.count(Ok(Met::Same));
    calls.books.enter.count(Err(8));
    let unmet = ["books_enter: E", "books_enter: another", "books_enter: contradicted"];
    assert_eq!(calls.unmet(), unmet);
}

#[test]
fn a_difference_is_told_with_its_input() {
    let differ = || compare(format_args!("wrap word {:x}", 255), 1, 2);
    let panic = panic::catch_unwind(differ).expect_err("1 is not 2");
    let told = difference(77, &*panic);
    let seed = linked::random::seed();
    let expected =
        format!("seed {seed}, input 77: SEED={seed} wrap word ff: library 1, second program 2");
    assert_eq!(told, expected);
}
