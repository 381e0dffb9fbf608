//! The calls of host/omh.h with the refusals that each can give, and a table of the
//! outcomes that came.

use crate::contradictions::Met;
use crate::runs::Outcomes;
use crate::tally::{Enterings, Tally};
use std::fmt::Write;

/// The outcomes of every call. Reading, wrapping and unwrapping one word is one input.
#[derive(Debug, Default)]
pub struct Calls {
    pub words: Tally,
    pub majority: Tally,
    pub settings_refused: Tally,
    pub slot_of: Tally,
    pub slot_above: Tally,
    pub is_live: Tally,
    pub vote_at: Tally,
    pub book: Outcomes,
    /// The calls on the long list, and the held answers of its parts.
    pub books: Outcomes,
    pub next_exchange: Tally,
    pub age: Tally,
    pub read_frame: Tally,
    pub write_frame: Tally,
    pub word_for: Tally,
    pub answer_for: Tally,
    pub all_answers: Tally,
    pub fill: Tally,
    pub bound: Tally,
    pub outcome_start: Tally,
    pub outcome_set: Tally,
    pub list: Tally,
}

/// A call's name, the refusals that it can give, and its outcomes.
pub struct Row<'a> {
    pub name: &'static str,
    pub refusals: &'static [u8],
    pub outcomes: &'a Tally,
}

const SETTINGS: &[u8] = &[1, 2, 3, 4];
const SETTINGS_AND_LISTS: &[u8] = &[1, 2, 3, 4, 5];
const FILLING: &[u8] = &[1, 2, 3, 4, 5, 6, 7];
const ENTERING_A_FRAME: &[u8] = &[1, 2, 3, 4, 5, 8, 9, 10, 11, 12, 13, 14, 15];

impl Calls {
    /// In the order of host/omh.h, with the refusals that stand there. `books, held` is
    /// held_answer on a part of the long list.
    pub fn rows(&self) -> Vec<Row<'_>> {
        let row = |name, refusals, outcomes| Row { name, refusals, outcomes };
        vec![
            row("read, wrap", &[], &self.words),
            row("majority", &[], &self.majority),
            row("settings", SETTINGS, &self.settings_refused),
            row("slot_of", &[8], &self.slot_of),
            row("slot_above", &[8], &self.slot_above),
            row("is_live", SETTINGS, &self.is_live),
            row("vote_at", &[1, 2, 3, 4, 5, 8], &self.vote_at),
            row("open", SETTINGS_AND_LISTS, &self.book.open),
            row("enter", &[1, 2, 3, 4, 5, 8], &self.book.enter.outcomes),
            row("refill", SETTINGS_AND_LISTS, &self.book.refill),
            row("held_answer", &[5], &self.book.held_answer),
            row("books_open", SETTINGS_AND_LISTS, &self.books.open),
            row("books_enter", &[1, 2, 3, 4, 5, 8], &self.books.enter.outcomes),
            row("books_refill", SETTINGS_AND_LISTS, &self.books.refill),
            row("books, held", &[], &self.books.held_answer),
            row("next_exchange", &[], &self.next_exchange),
            row("age, class", &[12, 13], &self.age),
            row("read_frame", &[9, 10, 11, 14], &self.read_frame),
            row("write_frame", &[5, 14], &self.write_frame),
            row("enter_frame", ENTERING_A_FRAME, &self.book.enter_frame.outcomes),
            row("books_enter_frame", ENTERING_A_FRAME, &self.books.enter_frame.outcomes),
            row("word_for", &[1, 2, 3, 4, 5, 6, 7, 8], &self.word_for),
            row("answer_for", FILLING, &self.answer_for),
            row("all_answers", &[1, 2, 3, 5, 6, 7], &self.all_answers),
            row("fill", FILLING, &self.fill),
            row("bound", &[1, 2, 5, 7], &self.bound),
            row("outcome_start", &[5], &self.outcome_start),
            row("outcome_set", &[1, 2, 3, 5, 6, 7], &self.outcome_set),
            row("list", &[1, 2, 3, 6, 7, 9, 10, 11, 16], &self.list),
        ]
    }

    /// The calls that enter a word.
    fn enterings(&self) -> [(&'static str, &Enterings); 4] {
        [
            ("enter", &self.book.enter),
            ("books_enter", &self.books.enter),
            ("enter_frame", &self.book.enter_frame),
            ("books_enter_frame", &self.books.enter_frame),
        ]
    }

    pub fn total(&self) -> u64 {
        self.rows().iter().map(|row| row.outcomes.total()).sum()
    }

    /// Each refusal that a call can give and did not.
    pub fn missing(&self) -> Vec<String> {
        self.refusals_where(|row, number| {
            row.refusals.contains(&number) && row.outcomes.times(number) == 0
        })
    }

    /// Each refusal that a call gave and cannot give.
    pub fn unexpected(&self) -> Vec<String> {
        self.refusals_where(|row, number| {
            !row.refusals.contains(&number) && row.outcomes.times(number) > 0
        })
    }

    /// Each thing that an entered word can meet at its slot, and in a call none did.
    pub fn unmet(&self) -> Vec<String> {
        let mut found = Vec::new();
        for (call, enterings) in self.enterings() {
            let unmet = Met::ALL.iter().filter(|&&(met, _)| enterings.times(met) == 0);
            found.extend(unmet.map(|(_, name)| format!("{call}: {name}")));
        }
        found
    }

    fn refusals_where(&self, chosen: impl Fn(&Row, u8) -> bool) -> Vec<String> {
        let mut found = Vec::new();
        for row in self.rows() {
            let numbers = (1..=16).filter(|&number| chosen(&row, number));
            found.extend(numbers.map(|number| format!("{}: {number}", row.name)));
        }
        found
    }

    /// The inputs by call, and how often each refusal came; a dot where a call has none
    /// with that number. Then what the words that were entered met at their slots.
    pub fn summary(&self) -> String {
        let rows = self.rows();
        let mut text = table(&rows, 1..=8, true);
        let later = |row: &Row| row.refusals.iter().any(|&number| number > 8);
        let rows: Vec<Row> = rows.into_iter().filter(later).collect();
        text.push('\n');
        text += &table(&rows, 9..=16, false);
        text.push('\n');
        text + &met_table(&self.enterings())
    }
}

fn met_table(enterings: &[(&str, &Enterings)]) -> String {
    let mut text = format!("{:17}", "entered, met");
    for (_, name) in Met::ALL {
        let _ = write!(text, " {name:>12}");
    }
    for (call, enterings) in enterings {
        let _ = write!(text, "\n{call:17}");
        for (met, _) in Met::ALL {
            let _ = write!(text, " {:>12}", enterings.times(met));
        }
    }
    text.push('\n');
    text
}

fn table(rows: &[Row], numbers: std::ops::RangeInclusive<u8>, with_totals: bool) -> String {
    let mut text = format!("{:17}", "call");
    if with_totals {
        text += &format!(" {:>10} {:>10}", "inputs", "done");
    }
    for number in numbers.clone() {
        let _ = write!(text, " {number:>8}");
    }
    for Row { name, refusals, outcomes } in rows {
        let _ = write!(text, "\n{name:17}");
        if with_totals {
            let _ = write!(text, " {:>10} {:>10}", outcomes.total(), outcomes.times(0));
        }
        for number in numbers.clone() {
            let times = outcomes.times(number);
            let none = times == 0 && !refusals.contains(&number);
            let cell = if none { ".".to_string() } else { times.to_string() };
            let _ = write!(text, " {cell:>8}");
        }
    }
    text.push('\n');
    text
}
