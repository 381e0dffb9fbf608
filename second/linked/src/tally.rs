//! Counts of outcomes, so that a test can tell that it met every refusal it is there for, and
//! all that a word can meet at its slot.

use crate::compare::number_of;
use crate::contradictions::Met;
use second::Refusal;

/// How often each outcome came: 0, or a refusal's number.
#[derive(Debug, Default)]
pub struct Tally([u64; 17]);

impl Tally {
    pub fn add(&mut self, number: u8) {
        self.0[usize::from(number)] += 1;
    }

    /// Counts what a call yields.
    pub fn count<T>(&mut self, outcome: Result<T, Refusal>) {
        self.add(number_of(&outcome));
    }

    pub fn times(&self, number: u8) -> u64 {
        self.0[usize::from(number)]
    }

    pub fn total(&self) -> u64 {
        self.0.iter().sum()
    }

    /// Each of these outcomes came at least so often, and no other came.
    pub fn expect(&self, numbers: &[u8], least: u64) {
        for (number, &times) in (0u8..).zip(&self.0) {
            if numbers.contains(&number) {
                assert!(times >= least, "outcome {number} came {times} times, not {least}");
            } else {
                assert_eq!(times, 0, "outcome {number} came");
            }
        }
    }
}

/// The outcomes of a call that enters a word, and what the entered words met at their slots.
#[derive(Debug, Default)]
pub struct Enterings {
    pub outcomes: Tally,
    met: [u64; Met::ALL.len()],
}

impl Enterings {
    /// Counts what a call yields.
    pub fn count(&mut self, outcome: Result<Met, Refusal>) {
        self.outcomes.count(outcome);
        if let Ok(met) = outcome {
            self.met[met as usize] += 1;
        }
    }

    pub fn times(&self, met: Met) -> u64 {
        self.met[met as usize]
    }

    /// Each of these outcomes came at least so often, and no other; each thing that a word can
    /// meet was met as often.
    pub fn expect(&self, numbers: &[u8], least: u64) {
        self.outcomes.expect(numbers, least);
        for (met, name) in Met::ALL {
            let times = self.times(met);
            assert!(times >= least, "{name} was met {times} times, not {least}");
        }
    }
}
