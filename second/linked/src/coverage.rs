//! The outcomes of fault patterns, counted by n, m and the numbers of faulty cards.

use crate::patterns::{self, Faults, Promise};
use crate::random::Random;
use crate::tables::Limits;
use crate::trial::{tried, Trial};
use std::collections::BTreeMap;
use std::fmt::Write;

/// What was found for the patterns of one row.
#[derive(Clone, Copy, Debug, Default)]
pub struct Row {
    pub patterns: u64,
    pub tables: u64,
    /// Patterns with fewer than two good cards, of which nothing can differ.
    pub few: u64,
    /// Patterns whose good cards agreed in every table, in some, and in none.
    pub always: u64,
    pub sometimes: u64,
    pub never: u64,
}

impl Row {
    fn count(&mut self, good: usize, trial: Trial) {
        self.patterns += 1;
        self.tables += trial.tables;
        match trial {
            _ if good < 2 => self.few += 1,
            _ if trial.always() => self.always += 1,
            Trial { agreed: 0, .. } => self.never += 1,
            _ => self.sometimes += 1,
        }
    }

    fn add(&mut self, other: &Row) {
        self.patterns += other.patterns;
        self.tables += other.tables;
        self.few += other.few;
        self.always += other.always;
        self.sometimes += other.sometimes;
        self.never += other.never;
    }
}

/// A row for each n, m and numbers of faulty cards.
#[derive(Debug, Default)]
pub struct Coverage(BTreeMap<(usize, usize, Faults), Row>);

impl Coverage {
    /// Tries every pattern of n and m; `tell` hears of each.
    pub fn cover(
        &mut self,
        (n, m): (usize, usize),
        limits: Limits,
        random: &mut Random,
        mut tell: impl FnMut(),
    ) -> Result<(), String> {
        for pattern in patterns::all(n, m) {
            let trial = tried(&pattern, limits, random)?;
            let row = self.0.entry((n, m, pattern.faults())).or_default();
            row.count(pattern.good().count(), trial);
            tell();
        }
        Ok(())
    }

    /// The rows that one promise is made of, added up.
    pub fn sum(&self, n: usize, m: usize, promise: Promise) -> Row {
        let mut sum = Row::default();
        for (key, row) in &self.0 {
            if (key.0, key.1) == (n, m) && key.2.promise(n, m) == promise {
                sum.add(row);
            }
        }
        sum
    }

    /// A line for each n, m, a, s and c.
    pub fn table(&self) -> String {
        let mut text = format!(
            " n m  a s c  {:8} {:>9} {:>10} {:>9} {:>8} {:>9} {:>6}\n",
            "promise", "patterns", "tables", "few good", "always", "sometimes", "never"
        );
        for (&(n, m, faults), row) in &self.0 {
            let Faults { a, s, c } = faults;
            let promise = match faults.promise(n, m) {
                Promise::Agreed => "agreed",
                Promise::Right => "right",
                Promise::Nothing => "-",
            };
            let Row { patterns, tables, few, always, sometimes, never } = row;
            let _ = write!(text, "{n:2} {m}  {a} {s} {c}  {promise:8} {patterns:9} {tables:10} ");
            let _ = writeln!(text, "{few:9} {always:8} {sometimes:9} {never:6}");
        }
        text
    }

    /// A line for each n and m: the patterns within the bound, and those outside it.
    pub fn summary(&self) -> String {
        let mut text = String::from(
            "| n | m | patterns | tables | within the bound | outside it \
             | few good | always | sometimes | never |\n",
        );
        text += &format!("|{}\n", "--:|".repeat(10));
        let mut keys: Vec<_> = self.0.keys().map(|key| (key.0, key.1)).collect();
        keys.dedup();
        for (n, m) in keys {
            let within = self.sum(n, m, Promise::Agreed);
            let mut outside = self.sum(n, m, Promise::Nothing);
            outside.add(&self.sum(n, m, Promise::Right));
            let Row { patterns, tables, few, always, sometimes, never } = outside;
            let (all, tables) = (patterns + within.patterns, tables + within.tables);
            let within = within.patterns;
            let _ = write!(text, "| {n} | {m} | {all} | {tables} | {within} | {patterns} ");
            let _ = writeln!(text, "| {few} | {always} | {sometimes} | {never} |");
        }
        text
    }
}
