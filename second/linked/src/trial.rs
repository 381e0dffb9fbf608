//! One fault pattern under many tables: what the good cards answer, against what the bound
//! promises.

use crate::ffi;
use crate::patterns::{Pattern, Promise};
use crate::random::{seed, Random};
use crate::tables::{Limits, Tables, X};
use crate::words::word;
use second::exchange::{Exchange, GOOD, MANIFEST, SYMMETRIC};
use second::paths::CARDS;
use second::words::{read_at, E};

/// How many tables were tried, and in how many any two good cards agreed.
#[derive(Clone, Copy, Debug, Default)]
pub struct Trial {
    pub tables: u64,
    pub agreed: u64,
}

impl Trial {
    pub fn add(&mut self, other: Trial) {
        self.tables += other.tables;
        self.agreed += other.agreed;
    }

    pub fn always(&self) -> bool {
        self.agreed == self.tables
    }
}

/// Tries a pattern's tables; a promise that is not kept is a failure.
pub fn tried(pattern: &Pattern, limits: Limits, random: &mut Random) -> Result<Trial, String> {
    check_bound(pattern, random)?;
    let promise = pattern.promise();
    let places = pattern.places();
    let mut trial = Trial::default();
    Tables::new(&places, random).each(limits, |table| {
        let answers = answers(pattern, table)?;
        trial.tables += 1;
        trial.agreed += u64::from(agreed(pattern, &answers));
        match broken(pattern, promise, table, &answers) {
            None => Ok(()),
            Some(broken) => Err(told(pattern, table, &answers, broken)),
        }
    })?;
    Ok(trial)
}

/// The library's bound is the one that the promises are taken from.
fn check_bound(pattern: &Pattern, random: &mut Random) -> Result<(), String> {
    let mut held = word(random);
    let number = ffi::bound(pattern.n, pattern.m, &pattern.statuses, &mut held);
    let promised = i32::from(pattern.promise() == Promise::Agreed);
    if (number, held) == (0, promised) {
        Ok(())
    } else {
        Err(format!("{pattern:?}: the bound gives {number}, {held}, not 0, {promised}"))
    }
}

fn answers(pattern: &Pattern, table: &[i32]) -> Result<[i32; CARDS], String> {
    let Pattern { n, m, t, statuses } = *pattern;
    let mut answers = [E; CARDS];
    let exchange = Exchange { n, m, t, x: X, statuses: &statuses, table };
    match ffi::all_answers(&exchange, &mut answers) {
        0 => Ok(answers),
        number => Err(told(pattern, table, &answers, &format!("refused with {number}"))),
    }
}

/// Any two good cards have the same answer.
pub fn agreed(pattern: &Pattern, answers: &[i32; CARDS]) -> bool {
    let mut good = pattern.good().map(|p| answers[p]);
    let first = good.next();
    good.all(|answer| Some(answer) == first)
}

/// What a good card must answer, where the sender is not arbitrary.
fn right(pattern: &Pattern, table: &[i32]) -> Option<i32> {
    match pattern.statuses[pattern.t] {
        GOOD => Some(X),
        SYMMETRIC => Some(read_at(0, table[0])),
        MANIFEST => Some(E),
        _ => None,
    }
}

/// Which part of its promise an exchange does not keep.
pub fn broken(
    pattern: &Pattern,
    promise: Promise,
    table: &[i32],
    answers: &[i32; CARDS],
) -> Option<&'static str> {
    if promise == Promise::Nothing {
        return None;
    }
    let right = right(pattern, table);
    if right.is_some_and(|right| pattern.good().any(|p| answers[p] != right)) {
        return Some("a good card is not right");
    }
    let differ = promise == Promise::Agreed && !agreed(pattern, answers);
    differ.then_some("two good cards differ")
}

/// The exchange, so that it can be repeated: the table is E but for the words named.
fn told(pattern: &Pattern, table: &[i32], answers: &[i32; CARDS], what: &str) -> String {
    let Pattern { n, m, t, statuses } = pattern;
    let named = table.iter().enumerate().filter(|(_, &word)| word != E);
    let named: Vec<String> = named
        .map(|(at, word)| format!("slot {} receiver {} word {word}", at / CARDS, at % CARDS))
        .collect();
    let (seed, answers, named) = (seed(), &answers[..*n], named.join(", "));
    let given = format!("n {n} m {m} t {t} x {X} statuses {statuses:?} table {named}");
    format!("{what}: seed {seed}, {given}; answers {answers:?}")
}
