//! The second program's functions as C sees the library's: omh.h with the prefix `second`.
//! A caller owes what omh.h says: no null pointer, right lengths, no overlap.

use second::exchange::{self, Exchange};
use second::paths::Settings;
use second::{book, books, frames, listing, outcome, vote, words, Refusal};
use std::slice::{from_raw_parts, from_raw_parts_mut};

fn number(done: Result<(), Refusal>) -> u8 {
    done.err().unwrap_or(0)
}

#[no_mangle]
pub unsafe extern "C" fn second_majority(list: *const i32, list_len: usize) -> i32 {
    words::majority(from_raw_parts(list, list_len))
}

#[no_mangle]
pub unsafe extern "C" fn second_vote_at(
    n: usize,
    m: usize,
    t: usize,
    p: usize,
    words: *const i32,
    words_len: usize,
    slot: usize,
    vote: *mut i32,
) -> u8 {
    let words = from_raw_parts(words, words_len);
    number(vote::vote_at(Settings { n, m, t, p }, words, slot).map(|word| *vote = word))
}

#[no_mangle]
pub unsafe extern "C" fn second_open(
    n: usize,
    m: usize,
    t: usize,
    p: usize,
    words: *mut i32,
    words_len: usize,
    votes: *mut i32,
    votes_len: usize,
) -> u8 {
    let words = from_raw_parts_mut(words, words_len);
    let votes = from_raw_parts_mut(votes, votes_len);
    number(book::open(Settings { n, m, t, p }, words, votes))
}

#[no_mangle]
pub unsafe extern "C" fn second_enter(
    n: usize,
    m: usize,
    t: usize,
    p: usize,
    words: *mut i32,
    words_len: usize,
    votes: *mut i32,
    votes_len: usize,
    slot: usize,
    word: i32,
) -> u8 {
    let words = from_raw_parts_mut(words, words_len);
    let votes = from_raw_parts_mut(votes, votes_len);
    number(book::enter(Settings { n, m, t, p }, words, votes, slot, word))
}

#[no_mangle]
pub unsafe extern "C" fn second_refill(
    n: usize,
    m: usize,
    t: usize,
    p: usize,
    words: *const i32,
    words_len: usize,
    votes: *mut i32,
    votes_len: usize,
) -> u8 {
    let words = from_raw_parts(words, words_len);
    let votes = from_raw_parts_mut(votes, votes_len);
    number(book::refill(Settings { n, m, t, p }, words, votes))
}

#[no_mangle]
pub unsafe extern "C" fn second_enter_frame(
    n: usize,
    m: usize,
    t: usize,
    p: usize,
    words: *mut i32,
    words_len: usize,
    votes: *mut i32,
    votes_len: usize,
    current: u16,
    frame: *const u8,
    frame_len: usize,
) -> u8 {
    let words = from_raw_parts_mut(words, words_len);
    let votes = from_raw_parts_mut(votes, votes_len);
    let frame = from_raw_parts(frame, frame_len);
    number(frames::enter_frame(Settings { n, m, t, p }, words, votes, current, frame))
}

#[no_mangle]
pub unsafe extern "C" fn second_books_open(
    n: usize,
    m: usize,
    t: usize,
    p: usize,
    books: *mut i32,
    books_len: usize,
) -> u8 {
    let books = from_raw_parts_mut(books, books_len);
    number(books::open(Settings { n, m, t, p }, books))
}

#[no_mangle]
pub unsafe extern "C" fn second_books_enter(
    n: usize,
    m: usize,
    t: usize,
    p: usize,
    books: *mut i32,
    books_len: usize,
    slot: usize,
    word: i32,
) -> u8 {
    let books = from_raw_parts_mut(books, books_len);
    number(books::enter(Settings { n, m, t, p }, books, slot, word))
}

#[no_mangle]
pub unsafe extern "C" fn second_books_refill(
    n: usize,
    m: usize,
    t: usize,
    p: usize,
    books: *mut i32,
    books_len: usize,
) -> u8 {
    let books = from_raw_parts_mut(books, books_len);
    number(books::refill(Settings { n, m, t, p }, books))
}

#[no_mangle]
pub unsafe extern "C" fn second_books_enter_frame(
    n: usize,
    m: usize,
    t: usize,
    p: usize,
    books: *mut i32,
    books_len: usize,
    current: u16,
    frame: *const u8,
    frame_len: usize,
) -> u8 {
    let books = from_raw_parts_mut(books, books_len);
    let frame = from_raw_parts(frame, frame_len);
    number(books::enter_frame(Settings { n, m, t, p }, books, current, frame))
}

#[no_mangle]
pub unsafe extern "C" fn second_word_for(
    n: usize,
    m: usize,
    t: usize,
    x: i32,
    statuses: *const u8,
    statuses_len: usize,
    table: *const i32,
    table_len: usize,
    p: usize,
    slot: usize,
    word: *mut i32,
) -> u8 {
    let statuses = from_raw_parts(statuses, statuses_len);
    let table = from_raw_parts(table, table_len);
    let exchange = Exchange { n, m, t, x, statuses, table };
    number(exchange::word(&exchange, p, slot).map(|dealt| *word = dealt))
}

#[no_mangle]
pub unsafe extern "C" fn second_fill(
    n: usize,
    m: usize,
    t: usize,
    x: i32,
    statuses: *const u8,
    statuses_len: usize,
    table: *const i32,
    table_len: usize,
    p: usize,
    words: *mut i32,
    words_len: usize,
    votes: *mut i32,
    votes_len: usize,
) -> u8 {
    let statuses = from_raw_parts(statuses, statuses_len);
    let table = from_raw_parts(table, table_len);
    let words = from_raw_parts_mut(words, words_len);
    let votes = from_raw_parts_mut(votes, votes_len);
    number(exchange::fill_book(&Exchange { n, m, t, x, statuses, table }, p, words, votes))
}

#[no_mangle]
pub unsafe extern "C" fn second_answer_for(
    n: usize,
    m: usize,
    t: usize,
    x: i32,
    statuses: *const u8,
    statuses_len: usize,
    table: *const i32,
    table_len: usize,
    p: usize,
    answer: *mut i32,
) -> u8 {
    let statuses = from_raw_parts(statuses, statuses_len);
    let table = from_raw_parts(table, table_len);
    number(
        exchange::answer(&Exchange { n, m, t, x, statuses, table }, p).map(|word| *answer = word),
    )
}

#[no_mangle]
pub unsafe extern "C" fn second_all_answers(
    n: usize,
    m: usize,
    t: usize,
    x: i32,
    statuses: *const u8,
    statuses_len: usize,
    table: *const i32,
    table_len: usize,
    answers: *mut i32,
    answers_len: usize,
) -> u8 {
    let statuses = from_raw_parts(statuses, statuses_len);
    let table = from_raw_parts(table, table_len);
    let answers = from_raw_parts_mut(answers, answers_len);
    number(exchange::answers(&Exchange { n, m, t, x, statuses, table }, answers))
}

#[no_mangle]
pub unsafe extern "C" fn second_outcome_start(outcome: *mut i32, outcome_len: usize) -> u8 {
    number(outcome::start_list(from_raw_parts_mut(outcome, outcome_len)))
}

#[no_mangle]
pub unsafe extern "C" fn second_outcome_set(
    n: usize,
    m: usize,
    t: usize,
    x: i32,
    statuses: *const u8,
    statuses_len: usize,
    table: *const i32,
    table_len: usize,
    outcome: *mut i32,
    outcome_len: usize,
) -> u8 {
    let statuses = from_raw_parts(statuses, statuses_len);
    let table = from_raw_parts(table, table_len);
    let list = from_raw_parts_mut(outcome, outcome_len);
    number(outcome::set_in_list(&Exchange { n, m, t, x, statuses, table }, list))
}

#[no_mangle]
pub unsafe extern "C" fn second_list(file: *const u8, file_len: usize, text: *mut u8) -> usize {
    let listing = listing::listing(from_raw_parts(file, file_len));
    from_raw_parts_mut(text, listing.len()).copy_from_slice(listing.as_bytes());
    listing.len()
}
