//! Document 02, Q-1: the outcome, with the answer of every card for every sender. It is a
//! table, or a lent list with one row after the other.

use crate::exchange::{answers, check, Exchange};
use crate::paths::CARDS;
use crate::words::E;
use crate::Refusal;

/// A row for each sender, and in it a word for each card.
pub type Outcome = [[i32; CARDS]; CARDS];

/// The length of the list.
pub const OUTCOME: usize = CARDS * CARDS;

pub fn start() -> Outcome {
    [[E; CARDS]; CARDS]
}

/// The outcome with the row of the exchange's sender set. The other rows may hold anything.
pub fn set_row(exchange: &Exchange, mut outcome: Outcome) -> Result<Outcome, Refusal> {
    let row = row(exchange)?;
    outcome[exchange.t] = row;
    Ok(outcome)
}

pub fn start_list(outcome: &mut [i32]) -> Result<(), Refusal> {
    if outcome.len() != OUTCOME {
        return Err(5);
    }
    outcome.fill(E);
    Ok(())
}

pub fn set_in_list(exchange: &Exchange, outcome: &mut [i32]) -> Result<(), Refusal> {
    check(exchange, None, outcome.len() == OUTCOME)?;
    let row = row(exchange)?;
    let first = CARDS * exchange.t;
    outcome[first..first + CARDS].copy_from_slice(&row);
    Ok(())
}

/// Every card's answer, the faulty ones' too; E from n up.
fn row(exchange: &Exchange) -> Result<[i32; CARDS], Refusal> {
    let mut row = [E; CARDS];
    answers(exchange, &mut row)?;
    Ok(row)
}
