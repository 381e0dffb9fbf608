//! Hostile inputs, as many as are asked for: every call of the library gets numbers,
//! lengths, words and bytes that may be refused. Cheap calls come often, costly ones seldom.

use crate::bench::{any_statuses, bound, Bench};
use crate::book::Book;
use crate::books::Books;
use crate::calls::Calls;
use crate::ffi::{FIELDS, TEXT};
use crate::frames::{self, any_record, frame_of, record_for};
use crate::lent::Lent;
use crate::listing::{self, list};
use crate::outcome::start;
use crate::paths::{any_path, is_live, settings_refused, slot_above, slot_of};
use crate::random::{self, Random};
use crate::runs::Run;
use crate::settings::{all_rounds, any, any_slot};
use crate::turns::Turns;
use crate::vote::vote_at;
use crate::words::{self, majority, read_wrap_unwrap, word};
use second::books::BOOKS;
use second::frames::FRAME_LENGTH;
use second::outcome::OUTCOME;
use second::paths::{CARDS, SLOTS};
use std::any::Any;
use std::panic::{self, AssertUnwindSafe};

pub struct Soak {
    random: Random,
    calls: Calls,
}

/// How often each kind of batch comes.
const MIX: [(usize, fn(&mut Soak)); 12] = [
    (200, Soak::words),
    (160, Soak::majorities),
    (70, Soak::exchange_numbers),
    (250, Soak::frames),
    (50, Soak::paths),
    (250, Soak::votes),
    (47, Soak::run),
    (250, Soak::books),
    (20, Soak::turns),
    (60, Soak::long_lists),
    (200, Soak::bounds),
    (625, Soak::exchange),
];

/// Gives the library at least so many inputs, and the last batch to its end; `tell` hears
/// how many are done. The first difference ends the run.
pub fn soak(count: u64, mut tell: impl FnMut(u64)) -> Result<Calls, String> {
    let mut soak = Soak { random: Random::new("soak"), calls: Calls::default() };
    let mut done = 0;
    while done < count {
        let batch = soak.next_batch();
        let outcome = panic::catch_unwind(AssertUnwindSafe(|| batch(&mut soak)));
        done = soak.calls.total();
        outcome.map_err(|panic| difference(done + 1, &*panic))?;
        tell(done);
    }
    Ok(soak.calls)
}

/// What is told of a difference: a comparison names the seed and the whole input.
pub fn difference(number: u64, panic: &(dyn Any + Send)) -> String {
    let text = panic.downcast_ref::<String>().map(String::as_str);
    let text = text.or(panic.downcast_ref::<&str>().copied()).unwrap_or("no message");
    format!("seed {}, input {number}: {text}", random::seed())
}

impl Soak {
    fn next_batch(&mut self) -> fn(&mut Soak) {
        let all = MIX.iter().map(|kind| kind.0).sum();
        let mut left = self.random.below(all);
        for (weight, batch) in MIX {
            if left < weight {
                return batch;
            }
            left -= weight;
        }
        unreachable!("a number below the sum of the weights")
    }

    fn words(&mut self) {
        for _ in 0..100 {
            read_wrap_unwrap(word(&mut self.random));
            self.calls.words.add(0);
        }
    }

    fn majorities(&mut self) {
        for _ in 0..50 {
            let length = self.random.below(20);
            majority(&words::words(&mut self.random, length));
            self.calls.majority.add(0);
        }
    }

    /// Any two numbers, and two that are near each other or half the way round apart.
    fn exchange_numbers(&mut self) {
        let random = &mut self.random;
        for _ in 0..40 {
            let current = random.bits() as u16;
            frames::next_exchange(current);
            self.calls.next_exchange.add(0);
            let any = random.bits() as u16;
            let near = current.wrapping_add(random.pick(&[0, 1 << 15]));
            let near = near.wrapping_add(random.below(5) as u16).wrapping_sub(2);
            for frame in [any, near] {
                let (_, class) = frames::age(current, frame);
                self.calls.age.add(frames::class_number(class));
            }
        }
    }

    /// Frames read, of which some are damaged, and records written to buffers.
    fn frames(&mut self) {
        let random = &mut self.random;
        for _ in 0..50 {
            let record = any_record(random);
            let mut frame = frame_of(&record).to_vec();
            if random.one_in(3) {
                frames::damage(random, &mut frame);
            }
            let before = [(); FIELDS].map(|()| random.bits() as i32);
            self.calls.read_frame.count(frames::read(&frame, before));
            let length = random.length(FRAME_LENGTH);
            self.calls.write_frame.count(frames::write(&record, &random.bytes(length)));
        }
    }

    /// Settings with a slot, the slot above it, and a path.
    fn paths(&mut self) {
        let (random, calls) = (&mut self.random, &mut self.calls);
        for _ in 0..50 {
            let (settings, slot, before) = (any(random), any_slot(random), word(random));
            calls.settings_refused.count(settings_refused(settings));
            calls.is_live.count(is_live(settings, slot, before));
            let (level, relays) = any_path(random);
            let before = random.bits() as usize;
            calls.slot_of.count(slot_of(level, relays, before));
            calls.slot_above.count(slot_above(slot, before));
        }
    }

    /// Votes over one list in any settings.
    fn votes(&mut self) {
        let random = &mut self.random;
        let length = random.length(SLOTS);
        let list = Lent::new(words::words(random, length));
        for _ in 0..20 {
            let (settings, slot, before) = (any(random), any_slot(random), word(random));
            self.calls.vote_at.count(vote_at(settings, &list, slot, before));
        }
    }

    /// A book entered by slot and by frame, and the other calls on it.
    fn run(&mut self) {
        let rounds = self.random.pick(&all_rounds());
        let mut run = Run::new(&mut self.random, &mut self.calls.book, rounds);
        for _ in 0..300 {
            run.enter();
        }
    }

    /// Calls on a book of any lengths in any settings, and frames for any card's book.
    fn books(&mut self) {
        let random = &mut self.random;
        let lists = [(); 2].map(|()| {
            let length = random.length(SLOTS);
            words::words(random, length)
        });
        let [words, votes] = lists;
        let (mut book, outcomes) = (Book::new(words, votes), &mut self.calls.book);
        for _ in 0..4 {
            let (slot, before) = (any_slot(random), word(random));
            outcomes.enter.count(book.enter(any(random), slot, before));
            outcomes.held_answer.count(book.held_answer(before));
            outcomes.refill.count(book.refill(any(random)));
            let (slot, current) = (random.below(1 + CARDS), random.bits() as u16);
            let frame = frame_of(&record_for(any(random), current, slot, before));
            outcomes.enter_frame.count(book.enter_frame(any(random), current, &frame));
            outcomes.open.count(book.open(any(random)));
        }
    }

    /// The books of every sender in a mixed run.
    fn turns(&mut self) {
        let rounds = self.random.pick(&all_rounds());
        let mut run = Turns::new(&mut self.random, &mut self.calls.books, rounds);
        for _ in 0..80 {
            run.call();
        }
    }

    /// Calls on a long list of any length in any settings, and frames for any card's book.
    fn long_lists(&mut self) {
        let random = &mut self.random;
        let length = random.length(BOOKS);
        let (mut books, outcomes) =
            (Books::new(words::words(random, length)), &mut self.calls.books);
        for _ in 0..4 {
            let (slot, word) = (any_slot(random), word(random));
            outcomes.enter.count(books.enter(any(random), slot, word));
            outcomes.refill.count(books.refill(any(random)));
            let (slot, current) = (random.below(1 + CARDS), random.bits() as u16);
            let frame = frame_of(&record_for(any(random), current, slot, word));
            outcomes.enter_frame.count(books.enter_frame(any(random), current, &frame));
            outcomes.open.count(books.open(any(random)));
        }
    }

    fn bounds(&mut self) {
        let random = &mut self.random;
        for _ in 0..20 {
            let settings = any(random);
            let list = any_statuses(random, settings.n);
            let before = word(random);
            self.calls.bound.count(bound(settings.n, settings.m, &list, before));
        }
    }

    /// One exchange in all calls of the bench, and one listing file.
    fn exchange(&mut self) {
        let (bench, p) = Bench::any(&mut self.random);
        let random = &mut self.random;
        for _ in 0..4 {
            let (slot, before) = (any_slot(random), word(random));
            self.calls.word_for.count(bench.word_for(p, slot, before));
        }
        self.calls.answer_for.count(bench.answer_for(p, word(random)));
        let lists = [CARDS, SLOTS, SLOTS, OUTCOME].map(|right| {
            let length = random.length(right);
            words::words(random, length)
        });
        self.calls.all_answers.count(bench.all_answers(&lists[0]));
        self.calls.fill.count(bench.fill(p, &lists[1], &lists[2]));
        self.calls.outcome_set.count(bench.set_row(&lists[3]));
        self.calls.outcome_start.count(start(&lists[3]));
        let before = [(); TEXT].map(|()| self.random.byte());
        let file = self.file();
        self.calls.list.count(list(&file, &before));
    }

    /// A listing file made up, or a good one damaged.
    fn file(&mut self) -> Vec<u8> {
        let random = &mut self.random;
        if random.one_in(2) {
            return listing::garbage(random);
        }
        let mut file = listing::good(random);
        for _ in 0..random.below(4) {
            listing::damage(random, &mut file);
        }
        file
    }
}
