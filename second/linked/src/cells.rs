//! Seven cards, some of them faulty: where good cards agreed, cell by cell, for the picture
//! of the bound.

use crate::patterns::{Faults, Pattern, Promise};
use crate::random::Random;
use crate::tables::Limits;
use crate::trial::{tried, Trial};
use second::exchange::{ARBITRARY, GOOD, MANIFEST, SYMMETRIC};
use second::paths::CARDS;

pub const N: usize = 7;
pub const ROUNDS_SHOWN: [usize; 2] = [1, 2];

/// At most so many are faulty where two good cards are left to agree.
pub const MOST_FAULTY: usize = N - 2;

/// What is known of one cell's agreement.
#[derive(Clone, Copy, Debug, PartialEq, Eq)]
pub enum Class {
    /// Within the bound.
    Promised,
    /// Outside the bound, and no trial failed.
    Held,
    /// Some trial failed, but none with a sender of some status.
    FailedForSome,
    /// Some trial failed with a sender of every status that there is.
    FailedForAll,
}

/// The exchanges of one m, a, s and c.
#[derive(Clone, Copy, Debug)]
pub struct Cell {
    pub m: usize,
    pub faults: Faults,
    pub class: Class,
    pub trial: Trial,
}

/// Every cell, tried with so many tables.
pub fn cells(limits: Limits) -> Result<Vec<Cell>, String> {
    let mut random = Random::new("picture");
    let mut cells = Vec::new();
    for m in ROUNDS_SHOWN {
        for faults in all_faults() {
            cells.push(cell(m, faults, limits, &mut random)?);
        }
    }
    Ok(cells)
}

fn all_faults() -> impl Iterator<Item = Faults> {
    (0..=MOST_FAULTY).flat_map(|a| {
        (0..=MOST_FAULTY - a)
            .flat_map(move |s| (0..=MOST_FAULTY - a - s).map(move |c| Faults { a, s, c }))
    })
}

fn cell(m: usize, faults: Faults, limits: Limits, random: &mut Random) -> Result<Cell, String> {
    let (mut trial, mut kept, mut failed) = (Trial::default(), 0, 0);
    for sender in [GOOD, ARBITRARY, SYMMETRIC, MANIFEST] {
        if !cards(faults).contains(&sender) {
            continue;
        }
        let outcome = tried_with(m, faults, sender, limits, random)?;
        trial.add(outcome);
        if outcome.always() {
            kept += 1;
        } else {
            failed += 1;
        }
    }
    let class = match (faults.promise(N, m), failed, kept) {
        (Promise::Agreed, ..) => Class::Promised,
        (_, 0, _) => Class::Held,
        (_, _, 0) => Class::FailedForAll,
        _ => Class::FailedForSome,
    };
    Ok(Cell { m, faults, class, trial })
}

/// The statuses of the seven cards.
fn cards(faults: Faults) -> [u8; N] {
    let Faults { a, s, c } = faults;
    let mut cards = [GOOD; N];
    cards[..a].fill(ARBITRARY);
    cards[a..a + s].fill(SYMMETRIC);
    cards[a + s..a + s + c].fill(MANIFEST);
    cards
}

/// A sender of this status, with the cards in four orders.
fn tried_with(
    m: usize,
    faults: Faults,
    sender: u8,
    limits: Limits,
    random: &mut Random,
) -> Result<Trial, String> {
    let (mut trial, mut order) = (Trial::default(), cards(faults));
    for _ in 0..4 {
        random.shuffle(&mut order);
        let t = order.iter().position(|&status| status == sender).expect("such a card");
        let mut statuses = [GOOD; CARDS];
        statuses[..N].copy_from_slice(&order);
        trial.add(tried(&Pattern { n: N, m, t, statuses }, limits, random)?);
    }
    Ok(trial)
}
