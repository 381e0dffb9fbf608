//! Document 01, "The book": one book kept by both programs, compared after each call.

use crate::compare::{compare, number_of};
use crate::contradictions::Met;
use crate::ffi;
use crate::frames::told;
use crate::lent::Lent;
use second::paths::Settings;
use second::words::E;
use second::{book, frames, Refusal};
use std::fmt::Arguments;

pub struct Book {
    words: Lent<i32>,
    votes: Lent<i32>,
}

impl Book {
    /// A book with these lists, which may have any lengths and hold any words.
    pub fn new(words: Vec<i32>, votes: Vec<i32>) -> Self {
        Book { words: Lent::new(words), votes: Lent::new(votes) }
    }

    pub fn open(&mut self, settings: Settings) -> Result<(), Refusal> {
        self.call(
            format_args!("open {settings:x?}"),
            |words, votes| ffi::open(settings, words, votes),
            |words, votes| book::open(settings, words, votes),
        )
    }

    pub fn enter(&mut self, settings: Settings, slot: usize, word: i32) -> Result<Met, Refusal> {
        let held = self.held(slot);
        let outcome = self.call(
            format_args!("enter {settings:x?} slot {slot:x} word {word:x}"),
            |words, votes| ffi::enter(settings, words, votes, slot, word),
            |words, votes| book::enter(settings, words, votes, slot, word),
        );
        outcome.map(|()| Met::of(held, word))
    }

    pub fn refill(&mut self, settings: Settings) -> Result<(), Refusal> {
        self.call(
            format_args!("refill {settings:x?}"),
            |words, votes| ffi::refill(settings, words, votes),
            |words, votes| book::refill(settings, words, votes),
        )
    }

    pub fn enter_frame(
        &mut self,
        settings: Settings,
        current: u16,
        frame: &[u8],
    ) -> Result<Met, Refusal> {
        let (slot, word) = told(frame);
        let held = self.held(slot);
        let lent = Lent::new(frame.to_vec());
        let call = format_args!("enter_frame {settings:x?} current {current:x} {frame:02x?}");
        let outcome = self.call(
            call,
            |words, votes| ffi::enter_frame(settings, words, votes, current, lent.library()),
            |words, votes| frames::enter_frame(settings, words, votes, current, lent.second()),
        );
        lent.compare("frame", call);
        outcome.map(|()| Met::of(held, word))
    }

    /// The held answer; `before` is what the lent place holds before the call.
    pub fn held_answer(&self, before: i32) -> Result<i32, Refusal> {
        let Book { words, votes } = self;
        let (library, second) =
            ([words.library(), votes.library()], [words.second(), votes.second()]);
        let answer = held_answer(library, second, before);
        words.compare("words", format_args!("held_answer"));
        votes.compare("votes", format_args!("held_answer"));
        answer
    }

    /// The words received, as both programs have them.
    pub fn words(&self) -> &[i32] {
        self.words.second()
    }

    /// The word at a slot; E for a number that is none.
    pub fn held(&self, slot: usize) -> i32 {
        self.words().get(slot).copied().unwrap_or(E)
    }

    /// The votes held, likewise.
    pub fn votes(&self) -> &[i32] {
        self.votes.second()
    }

    /// Makes a call in both programs and compares the outcome and both lists, which a
    /// refusal leaves as they were.
    fn call(
        &mut self,
        call: Arguments,
        library: impl FnOnce(&mut [i32], &mut [i32]) -> u8,
        second: impl FnOnce(&mut [i32], &mut [i32]) -> Result<(), Refusal>,
    ) -> Result<(), Refusal> {
        let before = (self.words.second().to_vec(), self.votes.second().to_vec());
        let number = library(self.words.library_mut(), self.votes.library_mut());
        let second = second(self.words.second_mut(), self.votes.second_mut());
        let call = format_args!("{call} words {:x?} votes {:x?}", before.0, before.1);
        compare(call, number, number_of(&second));
        self.words.compare("words", call);
        self.votes.compare("votes", call);
        let kept = self.words.second() == before.0 && self.votes.second() == before.1;
        assert!(number == 0 || kept, "{call}: a refusal changed the book");
        second
    }
}

/// The held answer of two lists, as the library is lent them and the second program.
pub fn held_answer(library: [&[i32]; 2], second: [&[i32]; 2], before: i32) -> Result<i32, Refusal> {
    let mut answer = Lent::new(vec![before]);
    let [words, votes] = library;
    let number = ffi::held_answer(words, votes, &mut answer.library_mut()[0]);
    let [words, votes] = second;
    let outcome = book::held_answer(words, votes);
    answer.second_mut()[0] = outcome.unwrap_or(before);
    let call = format_args!("held_answer words {words:x?} votes {votes:x?} place {before:x}");
    compare(call, number, number_of(&outcome));
    answer.compare("answer", call);
    compare(call, library, second);
    outcome
}
