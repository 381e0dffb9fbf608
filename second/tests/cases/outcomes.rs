//! Document 02, Q-1: the outcome, one row after the other: a word for sender t and card p at
//! place 10 t + p.

use super::given::{with, Given};
use second::exchange::Exchange;
use second::words::E;
use second::Refusal;

/// An exchange, and what comes of it: the first words of its sender's row, E after them.
type Step = (Given, Result<&'static [i32], Refusal>);

/// The cards 0 to 3, of whom the last is arbitrary, each in turn and some of them again.
const STEPS: &[Step] = &[
    (([4, 1, 0], 10, &[0, 0, 0, 1], &[(4, 1, 500)]), Ok(&[10, 10, 10, 10])),
    // The arbitrary sender tells 10, 20 and 30, and itself 77: its column is filled too.
    (
        ([4, 1, 3], 5, &[0, 0, 0, 1], &[(0, 0, 10), (0, 1, 20), (0, 2, 30), (0, 3, 77)]),
        Ok(&[E, E, E, 77]),
    ),
    (([4, 1, 1], -120, &[0, 0, 0, 1], &[(4, 0, 500)]), Ok(&[-120, -120, -120, -120])),
    // What is refused sets no row, whichever sender it names.
    (([11, 1, 0], 11, &[0, 0, 0, 1], &[]), Err(1)),
    (([4, 4, 0], 11, &[0, 0, 0, 1], &[]), Err(2)),
    (([4, 1, 4], 11, &[0, 0, 0, 1], &[]), Err(3)),
    (([4, 1, 0], 11, &[0, 0, 0, 4], &[]), Err(7)),
    (([4, 1, 0], 11, &[0, 0, 0, 1, 1], &[]), Err(7)),
    (([4, 1, 0], E, &[0, 0, 0, 1], &[]), Err(6)),
    (([4, 1, 2], 999_999_999, &[0, 0, 0, 1], &[]), Ok(&[999_999_999; 4])),
    // The same senders again: 10, 10 and 30 this time, and another value.
    (([4, 1, 3], 5, &[0, 0, 0, 1], &[(0, 0, 10), (0, 1, 10), (0, 2, 30)]), Ok(&[10, 10, 10, E])),
    (([4, 1, 0], -10, &[0, 0, 0, 1], &[(4, 1, 500)]), Ok(&[-10, -10, -10, -10])),
    // A smaller rack leaves E in the columns that it has not, and a larger one fills all.
    (([2, 1, 0], 12, &[], &[]), Ok(&[12, 12])),
    (([1, 0, 0], 13, &[], &[]), Ok(&[13])),
    (([10, 1, 9], 14, &[], &[]), Ok(&[14; 10])),
    (([10, 1, 5], 15, &[], &[]), Ok(&[15; 10])),
];

/// What an outcome holds before: all E, and any words.
fn starts() -> [Vec<i32>; 2] {
    [vec![E; 100], (0..100).collect()]
}

/// Holds a program's outcome to the table, each row at its place and the others kept. A
/// list of 100 words is handed in, and handed back unless the exchange is refused.
pub fn hold_outcomes(set: impl Fn(&Exchange, &[i32]) -> Result<Vec<i32>, Refusal>) {
    for mut outcome in starts() {
        for step in STEPS {
            let &(given, row) = step;
            let expected = row.map(|row| {
                let mut expected = outcome.clone();
                let first = 10 * given.0[2];
                expected[first..first + 10].fill(E);
                expected[first..first + row.len()].copy_from_slice(row);
                expected
            });
            let came = with(given, |exchange| set(exchange, &outcome));
            assert_eq!(came, expected, "{step:?}");
            outcome = came.unwrap_or(outcome);
        }
    }
}
