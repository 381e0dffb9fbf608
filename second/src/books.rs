//! Document 02, Q-1: a card's books for every sender, in one lent list. Sender after sender
//! it holds 1,111 words and then 1,111 votes.

use crate::paths::{Settings, CARDS, SLOTS};
use crate::{book, frames, Refusal};

/// A book's words and votes.
const BOOK: usize = 2 * SLOTS;

/// The length of the list, however many cards there are.
pub const BOOKS: usize = CARDS * BOOK;

pub fn open(settings: Settings, books: &mut [i32]) -> Result<(), Refusal> {
    let (words, votes) = book_of_sender(settings, books)?;
    book::open(settings, words, votes)
}

pub fn enter(settings: Settings, books: &mut [i32], slot: usize, word: i32) -> Result<(), Refusal> {
    let (words, votes) = book_of_sender(settings, books)?;
    book::enter(settings, words, votes, slot, word)
}

pub fn refill(settings: Settings, books: &mut [i32]) -> Result<(), Refusal> {
    let (words, votes) = book_of_sender(settings, books)?;
    book::refill(settings, words, votes)
}

/// A frame for another sender than the settings' is refused as it is in a single book.
pub fn enter_frame(
    settings: Settings,
    books: &mut [i32],
    current: u16,
    frame: &[u8],
) -> Result<(), Refusal> {
    let (words, votes) = book_of_sender(settings, books)?;
    frames::enter_frame(settings, words, votes, current, frame)
}

/// The words and the votes of the settings' sender; refusals 1 to 5.
fn book_of_sender(
    settings: Settings,
    books: &mut [i32],
) -> Result<(&mut [i32], &mut [i32]), Refusal> {
    settings.check()?;
    if books.len() != BOOKS {
        return Err(5);
    }
    let first = BOOK * settings.t;
    Ok(books[first..first + BOOK].split_at_mut(SLOTS))
}
