//! Document 01, "The book": the words received and the votes held, in two lent lists. What a
//! second word on one path does is document 02's Q-2.

use crate::paths::{live_path_at, live_paths, longer_paths, slot_of_path, Settings, SLOTS};
use crate::vote::{is_read_alone, received, vote_on, vote_over};
use crate::words::{read_at, E};
use crate::Refusal;

/// Stands at a slot whose path told different words. It is a bad word, so it reads as E.
pub const CONTRADICTED: i32 = 1_000_000_009;

pub fn open(settings: Settings, words: &mut [i32], votes: &mut [i32]) -> Result<(), Refusal> {
    check(settings, words, votes)?;
    words.fill(E);
    votes.fill(E);
    Ok(())
}

pub fn enter(
    settings: Settings,
    words: &mut [i32],
    votes: &mut [i32],
    slot: usize,
    word: i32,
) -> Result<(), Refusal> {
    check(settings, words, votes)?;
    let path = live_path_at(settings, slot)?;
    words[slot] = left_by(words[slot], word);
    // A live path and each path above it have slots, so nothing is refused from here on.
    for level in (0..=path.len()).rev() {
        let above = &path[..level];
        votes[slot_of_path(above)?] = remade(settings, words, votes, above)?;
    }
    Ok(())
}

pub fn refill(settings: Settings, words: &[i32], votes: &mut [i32]) -> Result<(), Refusal> {
    check(settings, words, votes)?;
    let words = received(words)?;
    let mut made = Vec::new();
    for (slot, path) in live_paths(settings) {
        made.push((slot, vote_on(settings, words, &path)?));
    }
    for (slot, vote) in made {
        votes[slot] = vote;
    }
    Ok(())
}

/// The vote at slot 0 as it stands, unread.
pub fn held_answer(words: &[i32], votes: &[i32]) -> Result<i32, Refusal> {
    check_lists(words, votes)?;
    Ok(votes[0])
}

/// Refusals 1 to 5.
pub(crate) fn check(settings: Settings, words: &[i32], votes: &[i32]) -> Result<(), Refusal> {
    settings.check()?;
    check_lists(words, votes)
}

fn check_lists(words: &[i32], votes: &[i32]) -> Result<(), Refusal> {
    if words.len() != SLOTS || votes.len() != SLOTS {
        return Err(5);
    }
    Ok(())
}

/// What a slot holds once a word has come on its path. The two are compared unread, and E
/// over another word is a different word too.
fn left_by(held: i32, word: i32) -> i32 {
    if held == E || held == word {
        word
    } else {
        CONTRADICTED
    }
}

/// The vote at a live path from its word and the held votes of the longer paths, which
/// are read at their level because the lists may have come with any numbers.
fn remade(
    settings: Settings,
    words: &[i32],
    votes: &[i32],
    path: &[usize],
) -> Result<i32, Refusal> {
    let word = words[slot_of_path(path)?];
    if is_read_alone(settings, path) {
        return Ok(read_at(path.len(), word));
    }
    let mut reports = Vec::new();
    for longer in longer_paths(settings, path) {
        reports.push(read_at(longer.len(), votes[slot_of_path(&longer)?]));
    }
    Ok(vote_over(path.len(), word, &reports))
}
