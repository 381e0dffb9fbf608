//! Document 02, Q-1: one card's books for every sender, kept by both programs in a long list
//! and compared after each call.

use crate::book::held_answer;
use crate::contradictions::Met;
use crate::ffi;
use crate::frames::told;
use crate::lent::Lent;
use second::paths::Settings;
use second::words::E;
use second::{books, Refusal};
use std::fmt::Arguments;
use std::ops::Range;

/// A book's words, and its words and votes.
const HALF: usize = 1_111;
const PART: usize = 2_222;

pub struct Books(Lent<i32>);

/// A sender's places in the list; there are none for a number that is no card.
fn part(t: usize) -> Range<usize> {
    let start = t.saturating_mul(PART);
    start..start.saturating_add(PART)
}

impl Books {
    /// Books in this list, which may have any length and hold any words.
    pub fn new(list: Vec<i32>) -> Self {
        Books(Lent::new(list))
    }

    pub fn open(&mut self, settings: Settings) -> Result<(), Refusal> {
        self.call(
            (settings, format_args!("books_open {settings:x?}")),
            |list| ffi::books_open(settings, list),
            |list| books::open(settings, list),
        )
    }

    pub fn enter(&mut self, settings: Settings, slot: usize, word: i32) -> Result<Met, Refusal> {
        let held = self.held(settings.t, slot);
        let outcome = self.call(
            (settings, format_args!("books_enter {settings:x?} slot {slot:x} word {word:x}")),
            |list| ffi::books_enter(settings, list, slot, word),
            |list| books::enter(settings, list, slot, word),
        );
        outcome.map(|()| Met::of(held, word))
    }

    pub fn refill(&mut self, settings: Settings) -> Result<(), Refusal> {
        self.call(
            (settings, format_args!("books_refill {settings:x?}")),
            |list| ffi::books_refill(settings, list),
            |list| books::refill(settings, list),
        )
    }

    pub fn enter_frame(
        &mut self,
        settings: Settings,
        current: u16,
        frame: &[u8],
    ) -> Result<Met, Refusal> {
        let (slot, word) = told(frame);
        let held = self.held(settings.t, slot);
        let lent = Lent::new(frame.to_vec());
        let call = format_args!("books_enter_frame {settings:x?} current {current:x} {frame:02x?}");
        let outcome = self.call(
            (settings, call),
            |list| ffi::books_enter_frame(settings, list, current, lent.library()),
            |list| books::enter_frame(settings, list, current, lent.second()),
        );
        lent.compare("frame", call);
        outcome.map(|()| Met::of(held, word))
    }

    /// The held answer of a sender's two lists; `before` is what the lent place holds before
    /// the call.
    pub fn held_answer(&self, t: usize, before: i32) -> Result<i32, Refusal> {
        let lists = [self.0.library(), self.0.second()].map(|list| {
            let (words, votes) = list[part(t)].split_at(HALF);
            [words, votes]
        });
        held_answer(lists[0], lists[1], before)
    }

    /// A sender's words; none for a number that is no card, or in a list that is too short.
    pub fn words(&self, t: usize) -> &[i32] {
        self.list().get(part(t)).map_or(&[], |part| &part[..HALF])
    }

    /// The word at a sender's slot; E where there is none.
    pub fn held(&self, t: usize, slot: usize) -> i32 {
        self.words(t).get(slot).copied().unwrap_or(E)
    }

    /// The list, as both programs have it.
    pub fn list(&self) -> &[i32] {
        self.0.second()
    }

    /// Makes a call for the settings' sender, which may change that sender's book alone.
    fn call(
        &mut self,
        (settings, call): (Settings, Arguments),
        library: impl FnOnce(&mut [i32]) -> u8,
        second: impl FnOnce(&mut [i32]) -> Result<(), Refusal>,
    ) -> Result<(), Refusal> {
        self.0.call(("books", call), part(settings.t), library, second)
    }
}
