//! The functions of the archive libomh.a, each with a safe wrapper. The declarations follow
//! host/omh.h.
//!
//! What a caller owes there, a slice gives: its pointer is not null, its memory has its
//! length, and one that is lent to be written overlaps no other.

use second::exchange::Exchange;
use second::frames::Record;
use second::paths::{Settings, ROUNDS};

/// A frame's fields, and the longest text of a listing.
pub const FIELDS: usize = 8;
pub const TEXT: usize = 176;

#[link(name = "omh", kind = "static")]
extern "C" {
    fn omh_read_at(level: usize, word: i32) -> i32;
    fn omh_wrap(word: i32) -> i32;
    fn omh_unwrap(word: i32) -> i32;
    fn omh_majority(list: *const i32, list_len: usize) -> i32;
    fn omh_settings_refused(n: usize, m: usize, t: usize, p: usize) -> u8;
    fn omh_slot_of(level: usize, q1: usize, q2: usize, q3: usize, slot: *mut usize) -> u8;
    fn omh_slot_above(slot: usize, above: *mut usize) -> u8;
    fn omh_is_live(n: usize, m: usize, t: usize, p: usize, slot: usize, live: *mut i32) -> u8;
    fn omh_vote_at(
        n: usize,
        m: usize,
        t: usize,
        p: usize,
        words: *const i32,
        words_len: usize,
        slot: usize,
        vote: *mut i32,
    ) -> u8;
    fn omh_open(
        n: usize,
        m: usize,
        t: usize,
        p: usize,
        words: *mut i32,
        words_len: usize,
        votes: *mut i32,
        votes_len: usize,
    ) -> u8;
    fn omh_enter(
        n: usize,
        m: usize,
        t: usize,
        p: usize,
        words: *mut i32,
        words_len: usize,
        votes: *mut i32,
        votes_len: usize,
        slot: usize,
        word: i32,
    ) -> u8;
    fn omh_refill(
        n: usize,
        m: usize,
        t: usize,
        p: usize,
        words: *const i32,
        words_len: usize,
        votes: *mut i32,
        votes_len: usize,
    ) -> u8;
    fn omh_held_answer(
        words: *const i32,
        words_len: usize,
        votes: *const i32,
        votes_len: usize,
        answer: *mut i32,
    ) -> u8;
    fn omh_books_open(
        n: usize,
        m: usize,
        t: usize,
        p: usize,
        books: *mut i32,
        books_len: usize,
    ) -> u8;
    fn omh_books_enter(
        n: usize,
        m: usize,
        t: usize,
        p: usize,
        books: *mut i32,
        books_len: usize,
        slot: usize,
        word: i32,
    ) -> u8;
    fn omh_books_refill(
        n: usize,
        m: usize,
        t: usize,
        p: usize,
        books: *mut i32,
        books_len: usize,
    ) -> u8;
    fn omh_next_exchange(x: u16) -> u16;
    fn omh_age(current: u16, frame: u16) -> u16;
    fn omh_age_class(current: u16, frame: u16) -> u8;
    fn omh_read_frame(frame: *const u8, frame_len: usize, fields: *mut i32) -> u8;
    fn omh_write_frame(
        exchange: u16,
        sender: u8,
        level: u8,
        q1: u8,
        q2: u8,
        q3: u8,
        receiver: u8,
        word: i32,
        buffer: *mut u8,
        buffer_len: usize,
    ) -> u8;
    fn omh_enter_frame(
        n: usize,
        m: usize,
        t: usize,
        p: usize,
        words: *mut i32,
        words_len: usize,
        votes: *mut i32,
        votes_len: usize,
        current: u16,
        frame: *const u8,
        frame_len: usize,
    ) -> u8;
    fn omh_books_enter_frame(
        n: usize,
        m: usize,
        t: usize,
        p: usize,
        books: *mut i32,
        books_len: usize,
        current: u16,
        frame: *const u8,
        frame_len: usize,
    ) -> u8;
    fn omh_word_for(
        n: usize,
        m: usize,
        t: usize,
        x: i32,
        statuses: *const u8,
        statuses_len: usize,
        table: *const i32,
        table_len: usize,
        p: usize,
        slot: usize,
        word: *mut i32,
    ) -> u8;
    fn omh_answer_for(
        n: usize,
        m: usize,
        t: usize,
        x: i32,
        statuses: *const u8,
        statuses_len: usize,
        table: *const i32,
        table_len: usize,
        p: usize,
        answer: *mut i32,
    ) -> u8;
    fn omh_all_answers(
        n: usize,
        m: usize,
        t: usize,
        x: i32,
        statuses: *const u8,
        statuses_len: usize,
        table: *const i32,
        table_len: usize,
        answers: *mut i32,
        answers_len: usize,
    ) -> u8;
    fn omh_fill(
        n: usize,
        m: usize,
        t: usize,
        x: i32,
        statuses: *const u8,
        statuses_len: usize,
        table: *const i32,
        table_len: usize,
        p: usize,
        words: *mut i32,
        words_len: usize,
        votes: *mut i32,
        votes_len: usize,
    ) -> u8;
    fn omh_bound(
        n: usize,
        m: usize,
        statuses: *const u8,
        statuses_len: usize,
        held: *mut i32,
    ) -> u8;
    fn omh_outcome_start(outcome: *mut i32, outcome_len: usize) -> u8;
    fn omh_outcome_set(
        n: usize,
        m: usize,
        t: usize,
        x: i32,
        statuses: *const u8,
        statuses_len: usize,
        table: *const i32,
        table_len: usize,
        outcome: *mut i32,
        outcome_len: usize,
    ) -> u8;
    fn omh_list(file: *const u8, file_len: usize, text: *mut u8) -> usize;
}

// Words

pub fn read_at(level: usize, word: i32) -> i32 {
    unsafe { omh_read_at(level, word) }
}

pub fn wrap(word: i32) -> i32 {
    unsafe { omh_wrap(word) }
}

pub fn unwrap(word: i32) -> i32 {
    unsafe { omh_unwrap(word) }
}

pub fn majority(list: &[i32]) -> i32 {
    unsafe { omh_majority(list.as_ptr(), list.len()) }
}

// Settings and paths

pub fn settings_refused(settings: Settings) -> u8 {
    let Settings { n, m, t, p } = settings;
    unsafe { omh_settings_refused(n, m, t, p) }
}

pub fn slot_of(level: usize, relays: [usize; ROUNDS], slot: &mut usize) -> u8 {
    let [q1, q2, q3] = relays;
    unsafe { omh_slot_of(level, q1, q2, q3, slot) }
}

pub fn slot_above(slot: usize, above: &mut usize) -> u8 {
    unsafe { omh_slot_above(slot, above) }
}

pub fn is_live(settings: Settings, slot: usize, live: &mut i32) -> u8 {
    let Settings { n, m, t, p } = settings;
    unsafe { omh_is_live(n, m, t, p, slot, live) }
}

// The vote

pub fn vote_at(settings: Settings, words: &[i32], slot: usize, vote: &mut i32) -> u8 {
    let Settings { n, m, t, p } = settings;
    unsafe { omh_vote_at(n, m, t, p, words.as_ptr(), words.len(), slot, vote) }
}

// The book

pub fn open(settings: Settings, words: &mut [i32], votes: &mut [i32]) -> u8 {
    let Settings { n, m, t, p } = settings;
    unsafe {
        omh_open(n, m, t, p, words.as_mut_ptr(), words.len(), votes.as_mut_ptr(), votes.len())
    }
}

pub fn enter(
    settings: Settings,
    words: &mut [i32],
    votes: &mut [i32],
    slot: usize,
    word: i32,
) -> u8 {
    let Settings { n, m, t, p } = settings;
    let (words_len, votes_len) = (words.len(), votes.len());
    let (words, votes) = (words.as_mut_ptr(), votes.as_mut_ptr());
    unsafe { omh_enter(n, m, t, p, words, words_len, votes, votes_len, slot, word) }
}

pub fn refill(settings: Settings, words: &[i32], votes: &mut [i32]) -> u8 {
    let Settings { n, m, t, p } = settings;
    unsafe { omh_refill(n, m, t, p, words.as_ptr(), words.len(), votes.as_mut_ptr(), votes.len()) }
}

pub fn held_answer(words: &[i32], votes: &[i32], answer: &mut i32) -> u8 {
    unsafe { omh_held_answer(words.as_ptr(), words.len(), votes.as_ptr(), votes.len(), answer) }
}

// The books of every sender

pub fn books_open(settings: Settings, books: &mut [i32]) -> u8 {
    let Settings { n, m, t, p } = settings;
    unsafe { omh_books_open(n, m, t, p, books.as_mut_ptr(), books.len()) }
}

pub fn books_enter(settings: Settings, books: &mut [i32], slot: usize, word: i32) -> u8 {
    let Settings { n, m, t, p } = settings;
    unsafe { omh_books_enter(n, m, t, p, books.as_mut_ptr(), books.len(), slot, word) }
}

pub fn books_refill(settings: Settings, books: &mut [i32]) -> u8 {
    let Settings { n, m, t, p } = settings;
    unsafe { omh_books_refill(n, m, t, p, books.as_mut_ptr(), books.len()) }
}

// Frames

pub fn next_exchange(number: u16) -> u16 {
    unsafe { omh_next_exchange(number) }
}

pub fn age(current: u16, frame: u16) -> u16 {
    unsafe { omh_age(current, frame) }
}

pub fn age_class(current: u16, frame: u16) -> u8 {
    unsafe { omh_age_class(current, frame) }
}

pub fn read_frame(frame: &[u8], fields: &mut [i32; FIELDS]) -> u8 {
    unsafe { omh_read_frame(frame.as_ptr(), frame.len(), fields.as_mut_ptr()) }
}

pub fn write_frame(record: &Record, buffer: &mut [u8]) -> u8 {
    let Record { exchange, sender, level, relays: [q1, q2, q3], receiver, word } = *record;
    let (buffer, buffer_len) = (buffer.as_mut_ptr(), buffer.len());
    unsafe {
        omh_write_frame(exchange, sender, level, q1, q2, q3, receiver, word, buffer, buffer_len)
    }
}

pub fn enter_frame(
    settings: Settings,
    words: &mut [i32],
    votes: &mut [i32],
    current: u16,
    frame: &[u8],
) -> u8 {
    let Settings { n, m, t, p } = settings;
    let (words_len, votes_len, frame_len) = (words.len(), votes.len(), frame.len());
    let (words, votes, frame) = (words.as_mut_ptr(), votes.as_mut_ptr(), frame.as_ptr());
    unsafe {
        omh_enter_frame(n, m, t, p, words, words_len, votes, votes_len, current, frame, frame_len)
    }
}

pub fn books_enter_frame(settings: Settings, books: &mut [i32], current: u16, frame: &[u8]) -> u8 {
    let Settings { n, m, t, p } = settings;
    let (books_len, frame_len) = (books.len(), frame.len());
    let (books, frame) = (books.as_mut_ptr(), frame.as_ptr());
    unsafe { omh_books_enter_frame(n, m, t, p, books, books_len, current, frame, frame_len) }
}

// The bench

pub fn word_for(exchange: &Exchange, p: usize, slot: usize, word: &mut i32) -> u8 {
    let Exchange { n, m, t, x, statuses, table } = *exchange;
    let (statuses_len, table_len) = (statuses.len(), table.len());
    let (statuses, table) = (statuses.as_ptr(), table.as_ptr());
    unsafe { omh_word_for(n, m, t, x, statuses, statuses_len, table, table_len, p, slot, word) }
}

pub fn answer_for(exchange: &Exchange, p: usize, answer: &mut i32) -> u8 {
    let Exchange { n, m, t, x, statuses, table } = *exchange;
    let (statuses_len, table_len) = (statuses.len(), table.len());
    let (statuses, table) = (statuses.as_ptr(), table.as_ptr());
    unsafe { omh_answer_for(n, m, t, x, statuses, statuses_len, table, table_len, p, answer) }
}

pub fn all_answers(exchange: &Exchange, answers: &mut [i32]) -> u8 {
    let Exchange { n, m, t, x, statuses, table } = *exchange;
    let (statuses_len, table_len, answers_len) = (statuses.len(), table.len(), answers.len());
    let (statuses, table, answers) = (statuses.as_ptr(), table.as_ptr(), answers.as_mut_ptr());
    unsafe {
        omh_all_answers(n, m, t, x, statuses, statuses_len, table, table_len, answers, answers_len)
    }
}

pub fn fill(exchange: &Exchange, p: usize, words: &mut [i32], votes: &mut [i32]) -> u8 {
    let Exchange { n, m, t, x, statuses, table } = *exchange;
    let (statuses_len, table_len) = (statuses.len(), table.len());
    let (statuses, table) = (statuses.as_ptr(), table.as_ptr());
    let (words_len, votes_len) = (words.len(), votes.len());
    let (words, votes) = (words.as_mut_ptr(), votes.as_mut_ptr());
    unsafe {
        omh_fill(
            n,
            m,
            t,
            x,
            statuses,
            statuses_len,
            table,
            table_len,
            p,
            words,
            words_len,
            votes,
            votes_len,
        )
    }
}

pub fn bound(n: usize, m: usize, statuses: &[u8], held: &mut i32) -> u8 {
    unsafe { omh_bound(n, m, statuses.as_ptr(), statuses.len(), held) }
}

// The outcome

pub fn outcome_start(outcome: &mut [i32]) -> u8 {
    unsafe { omh_outcome_start(outcome.as_mut_ptr(), outcome.len()) }
}

pub fn outcome_set(exchange: &Exchange, outcome: &mut [i32]) -> u8 {
    let Exchange { n, m, t, x, statuses, table } = *exchange;
    let (statuses_len, table_len, outcome_len) = (statuses.len(), table.len(), outcome.len());
    let (statuses, table, outcome) = (statuses.as_ptr(), table.as_ptr(), outcome.as_mut_ptr());
    unsafe {
        omh_outcome_set(n, m, t, x, statuses, statuses_len, table, table_len, outcome, outcome_len)
    }
}

// Listing

pub fn list(file: &[u8], text: &mut [u8; TEXT]) -> usize {
    unsafe { omh_list(file.as_ptr(), file.len(), text.as_mut_ptr()) }
}
