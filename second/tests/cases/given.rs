//! An exchange as a table gives it.

use second::exchange::{Exchange, PLACES};
use second::paths::CARDS;
use second::words::E;

/// n, m and t; x; the first cards' statuses, the others being good; and what the table has,
/// by slot and receiver, E elsewhere.
pub type Given = ([usize; 3], i32, &'static [u8], &'static [(usize, usize, i32)]);

/// Hands on the exchange that is given.
pub fn with<T>((settings, x, first, said): Given, call: impl FnOnce(&Exchange) -> T) -> T {
    let [n, m, t] = settings;
    let (mut statuses, mut table) = ([0; CARDS], vec![E; PLACES]);
    statuses[..first.len()].copy_from_slice(first);
    said.iter().for_each(|&(slot, receiver, word)| table[CARDS * slot + receiver] = word);
    call(&Exchange { n, m, t, x, statuses: &statuses, table: &table })
}
