//! Runs of calls on one card's book: words entered by slot and by frame, good ones and
//! refused ones, second words for a slot, and other calls between them.

use crate::book::Book;
use crate::contradictions::{Accepted, Met};
use crate::frames::{damage, frame_of, record_for, told};
use crate::random::Random;
use crate::settings::{any, any_slot, live_slots, of_rounds};
use crate::tally::{Enterings, Tally};
use crate::words::{word, words};
use second::book::CONTRADICTED;
use second::paths::{Settings, SLOTS};
use second::words::E;
use second::Refusal;

/// Lengths of a book's two lists that are refused, in either order.
const OTHER_LENGTHS: [[usize; 2]; 6] = [
    [0, 0],
    [0, SLOTS],
    [1, SLOTS],
    [SLOTS - 1, SLOTS],
    [SLOTS, SLOTS + 1],
    [SLOTS - 1, SLOTS + 1],
];

/// The outcomes of each call on a book, or on the books of every sender.
#[derive(Debug, Default)]
pub struct Outcomes {
    pub open: Tally,
    pub enter: Enterings,
    pub refill: Tally,
    pub held_answer: Tally,
    pub enter_frame: Enterings,
}

pub struct Run<'a> {
    random: &'a mut Random,
    outcomes: &'a mut Outcomes,
    settings: Settings,
    live: Vec<usize>,
    /// The words that are entered; few differ, so that votes are won.
    words: Vec<i32>,
    current: u16,
    book: Book,
    accepted: Accepted,
}

impl<'a> Run<'a> {
    /// A run of a card among n with m rounds. Its book is opened, or holds any words.
    pub fn new(random: &'a mut Random, outcomes: &'a mut Outcomes, (n, m): (usize, usize)) -> Self {
        let settings = of_rounds(random, n, m);
        let book = Book::new(words(random, SLOTS), words(random, SLOTS));
        let accepted = Accepted::new(book.words());
        let (words, current) = (words(random, 64), random.bits() as u16);
        let live = live_slots(settings);
        let mut run = Run { random, outcomes, settings, live, words, current, book, accepted };
        if run.random.one_in(2) {
            run.open(settings);
        }
        run
    }

    /// Enters one word by slot or by frame, and at times makes another call first. Then the
    /// book must hold what its accepted words leave.
    pub fn enter(&mut self) {
        if self.random.one_in(6) {
            self.other_call();
        }
        if self.random.one_in(3) {
            self.enter_frame();
        } else {
            let (settings, (slot, word)) = (self.settings(), self.slot_and_word());
            let outcome = self.book.enter(settings, slot, word);
            self.outcomes.enter.count(outcome);
            self.accept(outcome, (slot, word));
        }
        self.accepted.hold(self.book.words());
    }

    fn enter_frame(&mut self) {
        let (settings, (slot, word)) = (self.settings(), self.slot_and_word());
        let frame = frame(self.random, settings, self.current, slot, word);
        let outcome = self.book.enter_frame(settings, self.current, &frame);
        self.outcomes.enter_frame.count(outcome);
        self.accept(outcome, told(&frame));
    }

    /// Takes note of a word that was entered.
    fn accept(&mut self, outcome: Result<Met, Refusal>, (slot, word): (usize, i32)) {
        if outcome.is_ok() {
            self.accepted.add(slot, word);
        }
    }

    fn open(&mut self, settings: Settings) {
        let outcome = self.book.open(settings);
        self.outcomes.open.count(outcome);
        if outcome.is_ok() {
            self.accepted = Accepted::new(&[E; SLOTS]);
        }
    }

    fn other_call(&mut self) {
        let settings = self.settings();
        match self.random.below(16) {
            0 => self.open(settings),
            1..=3 => self.outcomes.refill.count(self.book.refill(settings)),
            4..=5 => self.current = self.current.wrapping_add(1),
            6..=8 => self.call_with_other_lengths(),
            _ => {
                let before = word(self.random);
                self.outcomes.held_answer.count(self.book.held_answer(before));
            }
        }
    }

    /// Makes each call on a book of which a list or both have another length.
    fn call_with_other_lengths(&mut self) {
        let (settings, (slot, word)) = (self.settings(), self.slot_and_word());
        let record = record_for(settings, self.current, slot.min(SLOTS - 1), word);
        let mut lengths = self.random.pick(&OTHER_LENGTHS);
        self.random.shuffle(&mut lengths);
        let [words, votes] = lengths.map(|length| words(self.random, length));
        let mut book = Book::new(words, votes);
        self.outcomes.open.count(book.open(settings));
        self.outcomes.enter.count(book.enter(settings, slot, word));
        self.outcomes.refill.count(book.refill(settings));
        self.outcomes.held_answer.count(book.held_answer(word));
        let outcome = book.enter_frame(settings, self.current, &frame_of(&record));
        self.outcomes.enter_frame.count(outcome);
    }

    /// The run's own settings; one time in sixteen any.
    fn settings(&mut self) -> Settings {
        if self.random.one_in(16) {
            any(self.random)
        } else {
            self.settings
        }
    }

    /// A slot and a word for it. A contradicted slot would stay so: one time in eight the
    /// book is opened anew.
    fn slot_and_word(&mut self) -> (usize, i32) {
        let slot = slot(self.random, &self.live);
        if self.book.held(slot) == CONTRADICTED && self.random.one_in(8) {
            self.open(self.settings);
        }
        (slot, word_for(self.random, &self.words, self.book.held(slot)))
    }
}

/// A live slot; one time in eight any.
pub(crate) fn slot(random: &mut Random, live: &[usize]) -> usize {
    if random.one_in(8) {
        any_slot(random)
    } else {
        random.pick(live)
    }
}

/// A word for a slot: every other time the one that it holds, if that is not E, so that not
/// all paths contradict themselves; else one of these words, one time in eight any.
pub(crate) fn word_for(random: &mut Random, words: &[i32], held: i32) -> i32 {
    if held != E && random.one_in(2) {
        held
    } else if random.one_in(8) {
        word(random)
    } else {
        random.pick(words)
    }
}

/// A frame for a slot, the last one for a number that is none; one time in four damaged.
pub(crate) fn frame(
    random: &mut Random,
    settings: Settings,
    current: u16,
    slot: usize,
    word: i32,
) -> Vec<u8> {
    let record = record_for(settings, current, slot.min(SLOTS - 1), word);
    let mut frame = frame_of(&record).to_vec();
    if random.one_in(4) {
        for _ in 0..1 + random.below(3) {
            damage(random, &mut frame);
        }
    }
    frame
}
