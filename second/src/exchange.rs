//! Document 01, "The exchange on the bench".

use crate::book;
use crate::paths::{
    check_rounds, check_sender, live_path_at, live_paths, slot_of_path, Settings, CARDS, SLOTS,
};
use crate::vote;
use crate::words::{kind, read_at, wrap, Kind, E};
use crate::Refusal;

/// The length of the table: a word for each slot and receiver.
pub const PLACES: usize = SLOTS * CARDS;

pub const GOOD: u8 = 0;
pub const ARBITRARY: u8 = 1;
pub const SYMMETRIC: u8 = 2;
pub const MANIFEST: u8 = 3;

/// An exchange as it was given. Every call that takes it checks it first.
#[derive(Clone, Copy, Debug)]
pub struct Exchange<'a> {
    /// Number of cards.
    pub n: usize,
    /// Rounds of relay.
    pub m: usize,
    /// The sender.
    pub t: usize,
    /// The sender's value.
    pub x: i32,
    pub statuses: &'a [u8],
    pub table: &'a [i32],
}

/// The word that card `p` receives at a slot.
pub fn word(exchange: &Exchange, p: usize, slot: usize) -> Result<i32, Refusal> {
    check(exchange, Some(p), true)?;
    let path = live_path_at(settings_of(exchange, p), slot)?;
    dealt(exchange, p, &path)
}

/// Card `p`'s answer.
pub fn answer(exchange: &Exchange, p: usize) -> Result<i32, Refusal> {
    check(exchange, Some(p), true)?;
    let mut words = [E; SLOTS];
    for (slot, word) in dealt_words(exchange, p)? {
        words[slot] = word;
    }
    vote::answer(settings_of(exchange, p), &words)
}

/// Every card's answer, in the first n places of a list of ten.
pub fn answers(exchange: &Exchange, list: &mut [i32]) -> Result<(), Refusal> {
    check(exchange, None, list.len() == CARDS)?;
    let mut made = Vec::new();
    for p in 0..exchange.n {
        made.push(answer(exchange, p)?);
    }
    list[..exchange.n].copy_from_slice(&made);
    Ok(())
}

/// Deals card `p`'s live words into a book and refills its live votes.
pub fn fill_book(
    exchange: &Exchange,
    p: usize,
    words: &mut [i32],
    votes: &mut [i32],
) -> Result<(), Refusal> {
    check(exchange, Some(p), words.len() == SLOTS && votes.len() == SLOTS)?;
    for (slot, word) in dealt_words(exchange, p)? {
        words[slot] = word;
    }
    book::refill(settings_of(exchange, p), words, votes)
}

/// Whether n > 2a + 2s + c + m and a is at most m.
pub fn bound_holds(n: usize, m: usize, statuses: &[u8]) -> Result<bool, Refusal> {
    check_rounds(n, m)?;
    if statuses.len() != CARDS {
        return Err(5);
    }
    check_statuses(n, statuses)?;
    let count = |status: u8| statuses.iter().take(n).filter(|&&held| held == status).count();
    let (a, s, c) = (count(ARBITRARY), count(SYMMETRIC), count(MANIFEST));
    Ok(n > 2 * a + 2 * s + c + m && a <= m)
}

/// Refusals 1 to 5, 7, 6. Not every call takes a card `p`; `lists_fit` tells whether the
/// lists that a call takes beside the exchange have their lengths.
pub(crate) fn check(exchange: &Exchange, p: Option<usize>, lists_fit: bool) -> Result<(), Refusal> {
    check_sender(exchange.n, exchange.m, exchange.t)?;
    if p.is_some_and(|p| p >= exchange.n) {
        return Err(4);
    }
    if exchange.statuses.len() != CARDS || exchange.table.len() != PLACES || !lists_fit {
        return Err(5);
    }
    check_statuses(exchange.n, exchange.statuses)?;
    if kind(exchange.x) != Kind::Ordinary {
        return Err(6);
    }
    Ok(())
}

/// Refusal 7.
fn check_statuses(n: usize, statuses: &[u8]) -> Result<(), Refusal> {
    let known = statuses.iter().all(|&status| status <= MANIFEST);
    let rest_good = statuses.iter().skip(n).all(|&status| status == GOOD);
    if known && rest_good {
        Ok(())
    } else {
        Err(7)
    }
}

fn settings_of(exchange: &Exchange, p: usize) -> Settings {
    let Exchange { n, m, t, .. } = *exchange;
    Settings { n, m, t, p }
}

/// The words that card `p` receives, each with its slot.
fn dealt_words(exchange: &Exchange, p: usize) -> Result<Vec<(usize, i32)>, Refusal> {
    live_paths(settings_of(exchange, p))
        .into_iter()
        .map(|(slot, path)| Ok((slot, dealt(exchange, p, &path)?)))
        .collect()
}

/// The word that card `p` receives on a live path of a checked exchange.
fn dealt(exchange: &Exchange, p: usize, path: &[usize]) -> Result<i32, Refusal> {
    let sending = path.last().copied().unwrap_or(exchange.t);
    let place = CARDS * slot_of_path(path)?;
    match exchange.statuses[sending] {
        GOOD => sent_by_good(exchange, path),
        ARBITRARY => Ok(exchange.table[place + p]),
        SYMMETRIC => Ok(exchange.table[place]),
        _ => Ok(E),
    }
}

fn sent_by_good(exchange: &Exchange, path: &[usize]) -> Result<i32, Refusal> {
    match path {
        [] => Ok(exchange.x),
        [above @ .., relay] => {
            let received = dealt(exchange, *relay, above)?;
            Ok(wrap(read_at(above.len(), received)))
        }
    }
}
