//! Document 02, Q-1: outcomes in both programs, and the exchanges of one rack into one of
//! them, held to what is promised of it.

use crate::bench::{ordinary, statuses, Bench};
use crate::ffi;
use crate::lent::Lent;
use crate::patterns::{Pattern, Promise};
use crate::random::{seed, Random};
use crate::words::words;
use second::exchange::{GOOD, PLACES};
use second::outcome::{self, OUTCOME};
use second::paths::CARDS;
use second::words::E;
use second::Refusal;

/// An outcome started in a list that holds `before`; yields what it holds then.
pub fn start(before: &[i32]) -> Result<Vec<i32>, Refusal> {
    let mut list = Lent::new(before.to_vec());
    let call = ("outcome", format_args!("outcome_start"));
    let outcome = list.call(call, 0..before.len(), ffi::outcome_start, outcome::start_list);
    outcome.map(|()| list.second().to_vec())
}

/// Exchanges of which n, m and statuses are kept, into an outcome that was started.
pub struct Rack {
    /// The pattern's own sender counts for nothing.
    cards: Pattern,
    outcome: Vec<i32>,
    /// By sender, the value of its last exchange that was not refused.
    values: [Option<i32>; CARDS],
}

impl Rack {
    pub fn new(cards: Pattern) -> Self {
        let outcome = start(&[7; OUTCOME]).expect("a list of an outcome's length");
        Rack { cards, outcome, values: [None; CARDS] }
    }

    /// A rack of n cards with m rounds, of whom some are faulty.
    pub fn drawn(random: &mut Random, (n, m): (usize, usize)) -> Self {
        Rack::new(Pattern { n, m, t: 0, statuses: statuses(random, n) })
    }

    pub fn promise(&self) -> Promise {
        self.cards.promise()
    }

    /// An exchange of any sender with any words; one time in four it is refused.
    pub fn exchange(&mut self, random: &mut Random) -> Result<(), Refusal> {
        let t = random.below(self.cards.n);
        let table = words(random, PLACES);
        let x = ordinary(random, &table);
        if random.one_in(4) {
            self.refused(random, t, x, table)
        } else {
            self.set(t, x, table)
        }
    }

    /// Sets a sender's row, and holds the outcome to the promises.
    pub fn set(&mut self, t: usize, x: i32, table: Vec<i32>) -> Result<(), Refusal> {
        let Pattern { n, m, statuses, .. } = self.cards;
        let bench = Bench::new((n, m, t), x, statuses.to_vec(), table);
        self.outcome = bench.set_row(&self.outcome)?;
        self.values[t] = Some(x);
        let Rack { cards, outcome, values } = self;
        let (seed, broken) = (seed(), broken(cards, values, outcome));
        assert_eq!(broken, None, "SEED={seed} {cards:?} values {values:?} outcome {outcome:?}");
        Ok(())
    }

    /// The same, spoilt in one way or more for which it is refused.
    fn refused(
        &self,
        random: &mut Random,
        mut t: usize,
        mut x: i32,
        mut table: Vec<i32>,
    ) -> Result<(), Refusal> {
        let Pattern { mut n, mut m, statuses, .. } = self.cards;
        let (mut statuses, mut outcome) = (statuses.to_vec(), self.outcome.clone());
        for _ in 0..1 + random.below(3) {
            match random.below(8) {
                0 => n = random.pick(&[0, CARDS + 1, 256 + CARDS, usize::MAX]),
                1 => m = random.pick(&[CARDS, 4, 256, usize::MAX]),
                2 => t = random.pick(&[self.cards.n, CARDS, 256, usize::MAX]),
                3 => shorten(random, &mut statuses),
                4 => shorten(random, &mut table),
                5 => shorten(random, &mut outcome),
                6 => statuses[0] = random.pick(&[4, 5, 128, 255]),
                _ => x = random.pick(&[E, E + 1, -E, i32::MIN, i32::MAX]),
            }
        }
        let set = Bench::new((n, m, t), x, statuses, table).set_row(&outcome);
        assert!(set.is_err(), "a spoilt exchange is refused");
        set.map(drop)
    }
}

/// Takes off the last place or half of them; three times leave one of ten.
fn shorten<T>(random: &mut Random, list: &mut Vec<T>) {
    list.truncate(random.pick(&[list.len() - 1, list.len() / 2]));
}

/// What an outcome, from all E, does not keep of what is promised; by sender, `values` has
/// the value of its last exchange.
pub fn broken(
    cards: &Pattern,
    values: &[Option<i32>; CARDS],
    outcome: &[i32],
) -> Option<&'static str> {
    let promise = cards.promise();
    for (t, row) in outcome.chunks(CARDS).enumerate() {
        let unset = if values[t].is_some() { &row[cards.n..] } else { row };
        if unset.iter().any(|&word| word != E) {
            return Some("a place that no exchange sets is not E");
        }
        let good: Vec<i32> = cards.good().map(|p| row[p]).collect();
        let right = values[t].filter(|_| cards.statuses[t] == GOOD && promise != Promise::Nothing);
        if right.is_some_and(|x| good.iter().any(|&word| word != x)) {
            return Some("a good sender's value does not stand in a good column");
        }
        if promise == Promise::Agreed && good.windows(2).any(|pair| pair[0] != pair[1]) {
            return Some("two good columns differ");
        }
    }
    None
}
