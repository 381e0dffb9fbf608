//! Document 01, "The exchange on the bench": exchanges good and bad, and what both programs
//! make of them.

use crate::compare::{compare, number_of};
use crate::ffi;
use crate::lent::Lent;
use crate::random::Random;
use crate::settings;
use crate::words::{word, words};
use second::exchange::{self, Exchange, PLACES};
use second::outcome;
use second::paths::{Settings, CARDS};
use second::words::{kind, Kind};
use second::Refusal;
use std::fmt::Arguments;
use std::ops::Range;

/// An exchange that both programs are lent.
pub struct Bench {
    n: usize,
    m: usize,
    t: usize,
    x: i32,
    statuses: Lent<u8>,
    table: Lent<i32>,
}

/// The statuses of n cards, of which some are faulty.
pub fn statuses(random: &mut Random, n: usize) -> [u8; CARDS] {
    let mut statuses = [0; CARDS];
    for _ in 0..random.below(n + 1) {
        statuses[random.below(n)] = random.below(4) as u8;
    }
    statuses
}

/// An ordinary word, at times one that stands in the list.
pub fn ordinary(random: &mut Random, list: &[i32]) -> i32 {
    let found = random.pick(list);
    if kind(found) == Kind::Ordinary && !random.one_in(4) {
        found
    } else {
        random.pick(&[-999_999_999, -120, 0, 7, 999_999_999])
    }
}

/// Statuses that may be refused, for their number, an unknown one, or a card from n up.
pub fn any_statuses(random: &mut Random, n: usize) -> Vec<u8> {
    let mut list = statuses(random, n.clamp(1, CARDS)).to_vec();
    if random.one_in(10) {
        list[random.below(CARDS)] = random.pick(&[1, 2, 3, 4, 5, 128, 255]);
    }
    list.resize(random.length(CARDS), 0);
    list
}

impl Bench {
    pub fn new(
        (n, m, t): (usize, usize, usize),
        x: i32,
        statuses: Vec<u8>,
        table: Vec<i32>,
    ) -> Self {
        Bench { n, m, t, x, statuses: Lent::new(statuses), table: Lent::new(table) }
    }

    /// The exchange that is given.
    pub fn of(exchange: &Exchange) -> Self {
        let Exchange { n, m, t, x, statuses, table } = *exchange;
        Bench::new((n, m, t), x, statuses.to_vec(), table.to_vec())
    }

    /// An exchange that no call refuses.
    pub fn good(random: &mut Random, n: usize, m: usize, t: usize) -> Self {
        let table = words(random, PLACES);
        let x = ordinary(random, &table);
        Bench::new((n, m, t), x, statuses(random, n).to_vec(), table)
    }

    /// An exchange of which each part may be refused, and a card that may be.
    pub fn any(random: &mut Random) -> (Self, usize) {
        let Settings { n, m, t, p } = settings::any(random);
        let length = random.length(PLACES);
        let table = words(random, length);
        let x = if random.one_in(10) { word(random) } else { ordinary(random, &[0]) };
        (Bench::new((n, m, t), x, any_statuses(random, n), table), p)
    }

    /// The word for card p at a slot; `before` is what the lent place holds before the call.
    pub fn word_for(&self, p: usize, slot: usize, before: i32) -> Result<i32, Refusal> {
        let mut word = Lent::new(vec![before]);
        let number = ffi::word_for(&self.library(), p, slot, &mut word.library_mut()[0]);
        let second = exchange::word(&self.second(), p, slot);
        word.second_mut()[0] = second.unwrap_or(before);
        let call = format_args!("word_for p {p:x} slot {slot:x} place {before:x}");
        self.compare(call, (number, number_of(&second)), &[&word]);
        second
    }

    pub fn answer_for(&self, p: usize, before: i32) -> Result<i32, Refusal> {
        let mut answer = Lent::new(vec![before]);
        let number = ffi::answer_for(&self.library(), p, &mut answer.library_mut()[0]);
        let second = exchange::answer(&self.second(), p);
        answer.second_mut()[0] = second.unwrap_or(before);
        let call = format_args!("answer_for p {p:x} place {before:x}");
        self.compare(call, (number, number_of(&second)), &[&answer]);
        second
    }

    /// All answers, in a list that holds `before`; yields what it holds then.
    pub fn all_answers(&self, before: &[i32]) -> Result<Vec<i32>, Refusal> {
        self.call("all_answers", before, 0..self.n, ffi::all_answers, exchange::answers)
    }

    /// The sender's row, in an outcome that holds `before`; yields what it holds then.
    pub fn set_row(&self, before: &[i32]) -> Result<Vec<i32>, Refusal> {
        let first = self.t.saturating_mul(CARDS);
        let row = first..first.saturating_add(CARDS);
        self.call("outcome_set", before, row, ffi::outcome_set, outcome::set_in_list)
    }

    /// Makes a call that writes at these places of one list.
    fn call(
        &self,
        name: &str,
        before: &[i32],
        places: Range<usize>,
        library: impl FnOnce(&Exchange, &mut [i32]) -> u8,
        second: impl FnOnce(&Exchange, &mut [i32]) -> Result<(), Refusal>,
    ) -> Result<Vec<i32>, Refusal> {
        let mut list = Lent::new(before.to_vec());
        let given = self.second();
        let call = format_args!("{name} {given:x?}");
        let outcome = list.call(
            ("list", call),
            places,
            |list| library(&self.library(), list),
            |list| second(&given, list),
        );
        self.compare_read(call);
        outcome.map(|()| list.second().to_vec())
    }

    /// A book filled for card p that holds these words and votes before the call; yields
    /// those that it holds then.
    pub fn fill(&self, p: usize, words: &[i32], votes: &[i32]) -> Result<[Vec<i32>; 2], Refusal> {
        let mut book = [Lent::new(words.to_vec()), Lent::new(votes.to_vec())];
        let [w, v] = &mut book;
        let number = ffi::fill(&self.library(), p, w.library_mut(), v.library_mut());
        let second = exchange::fill_book(&self.second(), p, w.second_mut(), v.second_mut());
        let call = format_args!("fill p {p:x} words {words:x?} votes {votes:x?}");
        self.compare(call, (number, number_of(&second)), &[&book[0], &book[1]]);
        let kept = book[0].second() == words && book[1].second() == votes;
        assert!(number == 0 || kept, "{call}: a refusal changed the book");
        second.map(|()| book.map(|list| list.second().to_vec()))
    }

    fn library(&self) -> Exchange<'_> {
        let Bench { n, m, t, x, .. } = *self;
        Exchange { n, m, t, x, statuses: self.statuses.library(), table: self.table.library() }
    }

    fn second(&self) -> Exchange<'_> {
        let Bench { n, m, t, x, .. } = *self;
        Exchange { n, m, t, x, statuses: self.statuses.second(), table: self.table.second() }
    }

    /// Compares the numbers, the lists that a call wrote, and those that it only read.
    fn compare(&self, call: Arguments, numbers: (u8, u8), written: &[&Lent<i32>]) {
        let given = self.second();
        let call = format_args!("{call} {given:x?}");
        compare(call, numbers.0, numbers.1);
        for (place, list) in written.iter().enumerate() {
            list.compare(&format!("written list {place}"), call);
        }
        self.compare_read(call);
    }

    /// Compares the lists that a call only reads.
    fn compare_read(&self, call: Arguments) {
        self.statuses.compare("statuses", call);
        self.table.compare("table", call);
    }
}

/// Whether the bound holds; `before` is what the lent place holds before the call.
pub fn bound(n: usize, m: usize, statuses: &[u8], before: i32) -> Result<bool, Refusal> {
    let lent = Lent::new(statuses.to_vec());
    let mut held = Lent::new(vec![before]);
    let number = ffi::bound(n, m, lent.library(), &mut held.library_mut()[0]);
    let second = exchange::bound_holds(n, m, lent.second());
    held.second_mut()[0] = second.map_or(before, i32::from);
    let call = format_args!("bound n {n:x} m {m:x} statuses {statuses:x?} place {before:x}");
    compare(call, number, number_of(&second));
    held.compare("held", call);
    lent.compare("statuses", call);
    second
}
