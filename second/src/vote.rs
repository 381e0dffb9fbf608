//! Document 01, "The vote".

use crate::paths::{live_path_at, longer_paths, slot_of_path, Settings, SLOTS};
use crate::words::{majority, read_at, unwrap, wrap};
use crate::Refusal;

/// The vote at a slot, from the 1,111 words received.
pub fn vote_at(settings: Settings, words: &[i32], slot: usize) -> Result<i32, Refusal> {
    settings.check()?;
    let words = received(words)?;
    let path = live_path_at(settings, slot)?;
    vote_on(settings, words, &path)
}

/// The vote at slot 0.
pub fn answer(settings: Settings, words: &[i32]) -> Result<i32, Refusal> {
    vote_at(settings, words, 0)
}

/// Refusal 5.
pub(crate) fn received(words: &[i32]) -> Result<&[i32; SLOTS], Refusal> {
    words.try_into().map_err(|_| 5)
}

/// The vote at a live path, each longer path's vote being worked out anew.
pub(crate) fn vote_on(
    settings: Settings,
    words: &[i32; SLOTS],
    path: &[usize],
) -> Result<i32, Refusal> {
    let word = words[slot_of_path(path)?];
    if is_read_alone(settings, path) {
        return Ok(read_at(path.len(), word));
    }
    let reports: Vec<i32> = longer_paths(settings, path)
        .iter()
        .map(|longer| vote_on(settings, words, longer))
        .collect::<Result<_, _>>()?;
    Ok(vote_over(path.len(), word, &reports))
}

/// Whether the vote at a live path is the word there and no majority is taken.
pub(crate) fn is_read_alone(settings: Settings, path: &[usize]) -> bool {
    settings.p == settings.t || path.len() == settings.m
}

/// The card's own report counts once, beside the votes of the longer paths.
pub(crate) fn vote_over(level: usize, word: i32, reports: &[i32]) -> i32 {
    let own_report = wrap(read_at(level, word));
    unwrap(majority(&[&[own_report], reports].concat()))
}
