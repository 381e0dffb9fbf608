//! Document 02, Q-1: runs of calls on one card's books for every sender, mixed: words entered
//! by slot and by frame, good ones and refused ones, second words for a slot, opening and
//! refilling between them.

use crate::books::Books;
use crate::contradictions::Accepted;
use crate::frames::{frame_of, record_for, told};
use crate::lent::Lent;
use crate::random::{seed, Random};
use crate::runs::{frame, slot, word_for, Outcomes};
use crate::settings::{any, live_slots, refused};
use crate::vote::vote_at;
use crate::words::{word, words};
use second::book::CONTRADICTED;
use second::books::BOOKS;
use second::paths::{Settings, CARDS, SLOTS};
use second::words::{kind, Kind, E};

/// Lengths of the list that are refused, those of one book and of nine among them.
const OTHER_LENGTHS: [usize; 8] =
    [0, 1, SLOTS, 2 * SLOTS, BOOKS - 2 * SLOTS, BOOKS - 1, BOOKS + 1, 2 * BOOKS];

pub struct Turns<'a> {
    random: &'a mut Random,
    outcomes: &'a mut Outcomes,
    /// The card's settings for each sender.
    settings: Vec<Settings>,
    live: Vec<Vec<usize>>,
    /// The words that are entered; few differ, so that votes are won.
    words: Vec<i32>,
    current: u16,
    books: Books,
    /// By sender, what is known of a book since it was opened.
    opened: [Option<Opened>; CARDS],
    /// How many of the answers were ordinary.
    pub ordinary: u64,
}

/// A book that was opened and that no call in other settings has changed since.
struct Opened {
    accepted: Accepted,
    /// The answer worked out afresh from what the accepted words leave.
    answer: i32,
}

impl<'a> Turns<'a> {
    /// A run of a card among n with m rounds. Each of its books is opened, or holds any words.
    pub fn new(random: &'a mut Random, outcomes: &'a mut Outcomes, (n, m): (usize, usize)) -> Self {
        let p = random.below(n);
        let settings: Vec<Settings> = (0..n).map(|t| Settings { n, m, t, p }).collect();
        let live = settings.iter().map(|&settings| live_slots(settings)).collect();
        let (books, opened) = (Books::new(words(random, BOOKS)), Default::default());
        let (words, current) = (words(random, 64), random.bits() as u16);
        let mut run =
            Turns { random, outcomes, settings, live, words, current, books, opened, ordinary: 0 };
        for t in 0..n {
            if !run.random.one_in(8) {
                run.open(run.settings[t]);
            }
        }
        run
    }

    /// Makes one call for any sender. Then each opened book must hold what its accepted words
    /// leave, and the answer that these give.
    pub fn call(&mut self) {
        let settings = self.settings();
        match self.random.below(40) {
            0 => self.open(settings),
            1..=2 => self.refill(settings),
            3 => self.current = self.current.wrapping_add(1),
            4..=5 => self.call_with_another_length(settings),
            6..=21 => self.enter_frame(settings),
            _ => self.enter(settings),
        }
        for (t, opened) in self.opened.iter().enumerate() {
            let Some(opened) = opened else { continue };
            opened.accepted.hold(self.books.words(t));
            let held = self.books.held_answer(t, word(self.random));
            let (seed, words) = (seed(), opened.accepted.left());
            assert_eq!(held, Ok(opened.answer), "SEED={seed} sender {t} words {words:x?}");
            self.outcomes.held_answer.count(held);
            self.ordinary += u64::from(kind(opened.answer) == Kind::Ordinary);
        }
    }

    fn open(&mut self, settings: Settings) {
        let outcome = self.books.open(settings);
        self.outcomes.open.count(outcome);
        if outcome.is_ok() {
            let accepted = Accepted::new(&[E; SLOTS]);
            self.opened[settings.t] = Some(Opened { accepted, answer: E });
        }
    }

    fn refill(&mut self, settings: Settings) {
        let outcome = self.books.refill(settings);
        self.outcomes.refill.count(outcome);
        if outcome.is_ok() {
            self.forget_others(settings);
        }
    }

    fn enter(&mut self, settings: Settings) {
        let (slot, word) = self.slot_and_word(settings);
        let outcome = self.books.enter(settings, slot, word);
        self.outcomes.enter.count(outcome);
        if outcome.is_ok() {
            self.accept(settings, slot, word);
        }
    }

    /// Enters a frame, one time in eight one for another sender, and as often one of the
    /// exchange before or after.
    fn enter_frame(&mut self, settings: Settings) {
        let (slot, word) = self.slot_and_word(settings);
        let sender = if self.random.one_in(8) { self.settings() } else { settings };
        let named = Settings { t: sender.t, ..settings };
        let step = if self.random.one_in(8) { self.random.pick(&[1, u16::MAX]) } else { 0 };
        let frame = frame(self.random, named, self.current.wrapping_add(step), slot, word);
        let outcome = self.books.enter_frame(settings, self.current, &frame);
        self.outcomes.enter_frame.count(outcome);
        if outcome.is_ok() {
            let (slot, word) = told(&frame);
            self.accept(settings, slot, word);
        }
    }

    /// Makes each call on a list of another length.
    fn call_with_another_length(&mut self, settings: Settings) {
        let (slot, word) = self.slot_and_word(settings);
        let length = self.random.pick(&OTHER_LENGTHS);
        let mut books = Books::new(words(self.random, length));
        let record = record_for(settings, self.current, slot.min(SLOTS - 1), word);
        let outcomes = &mut *self.outcomes;
        outcomes.open.count(books.open(settings));
        outcomes.enter.count(books.enter(settings, slot, word));
        outcomes.refill.count(books.refill(settings));
        let outcome = books.enter_frame(settings, self.current, &frame_of(&record));
        outcomes.enter_frame.count(outcome);
    }

    /// Takes note of a word that was entered.
    fn accept(&mut self, settings: Settings, slot: usize, word: i32) {
        self.forget_others(settings);
        if let Some(opened) = &mut self.opened[settings.t] {
            opened.accepted.add(slot, word);
            let words = Lent::new(opened.accepted.left().to_vec());
            opened.answer = vote_at(settings, &words, 0, word).expect("the card's settings");
        }
    }

    /// Nothing is promised of a book once a call in other settings has changed it.
    fn forget_others(&mut self, settings: Settings) {
        if self.settings.get(settings.t) != Some(&settings) {
            self.opened[settings.t] = None;
        }
    }

    /// The card's settings for any sender; one time in sixteen any, one in eight refused ones.
    fn settings(&mut self) -> Settings {
        match self.random.below(16) {
            0 => any(self.random),
            1..=2 => refused(self.random),
            _ => self.random.pick(&self.settings),
        }
    }

    /// A slot of a sender's and a word for it. A contradicted slot would stay so: one time in
    /// eight that book is opened anew.
    fn slot_and_word(&mut self, settings: Settings) -> (usize, i32) {
        let (t, slot) = (settings.t, self.slot(settings));
        if self.books.held(t, slot) == CONTRADICTED && self.random.one_in(8) {
            self.open(settings);
        }
        (slot, word_for(self.random, &self.words, self.books.held(t, slot)))
    }

    /// A slot of a sender's, often one of the first, so that a slot gets second words and
    /// answers are won.
    fn slot(&mut self, settings: Settings) -> usize {
        let live = self.live.get(settings.t).map_or(&[0][..], |live| live);
        let few = if self.random.one_in(2) { live.len().min(CARDS) } else { live.len() };
        slot(self.random, &live[..few])
    }
}
