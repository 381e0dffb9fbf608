//! Memory lent to both programs.

use crate::compare::{compare, number_of};
use second::Refusal;
use std::fmt::{Arguments, Debug};
use std::ops::Range;

/// Places before and after the library's list that no call may touch.
const GUARD: usize = 4;
const GUARD_BYTE: u8 = 0x5A;

/// A list that each program is lent in memory of its own, the library's between guards.
pub struct Lent<T> {
    guarded: Vec<T>,
    second: Vec<T>,
}

impl<T: Copy + PartialEq + Debug + From<u8>> Lent<T> {
    pub fn new(list: Vec<T>) -> Self {
        let guard = [T::from(GUARD_BYTE); GUARD];
        Lent { guarded: [&guard, &list[..], &guard].concat(), second: list }
    }

    pub fn library(&self) -> &[T] {
        &self.guarded[GUARD..self.guarded.len() - GUARD]
    }

    pub fn library_mut(&mut self) -> &mut [T] {
        let end = self.guarded.len() - GUARD;
        &mut self.guarded[GUARD..end]
    }

    pub fn second(&self) -> &[T] {
        &self.second
    }

    pub fn second_mut(&mut self) -> &mut [T] {
        &mut self.second
    }

    /// Makes a call on the list in both programs, and compares the numbers and the lists. One
    /// that is done changes these places at most, a refused one none.
    pub fn call(
        &mut self,
        (name, call): (&str, Arguments),
        places: Range<usize>,
        library: impl FnOnce(&mut [T]) -> u8,
        second: impl FnOnce(&mut [T]) -> Result<(), Refusal>,
    ) -> Result<(), Refusal> {
        let before = self.second.clone();
        let number = library(self.library_mut());
        let outcome = second(self.second_mut());
        let call = format_args!("{call} {name} {before:x?}");
        compare(call, number, number_of(&outcome));
        self.compare(name, call);
        let Range { start, end } = if outcome.is_ok() { places } else { 0..0 };
        let kept = self.second[..start] == before[..start] && self.second[end..] == before[end..];
        assert!(kept, "{call}: {name} changed outside {start}..{end}");
        outcome
    }

    /// The two lists are equal, and the guards stand.
    pub fn compare(&self, name: &str, call: Arguments) {
        let (library, second) = (self.library(), self.second());
        if library != second {
            let place = (0..).find(|&place| library[place] != second[place]).unwrap_or(0);
            compare(format_args!("{call}: {name} at {place}"), library[place], second[place]);
        }
        let guard = [T::from(GUARD_BYTE); GUARD];
        let (before, after) = (&self.guarded[..GUARD], &self.guarded[GUARD + second.len()..]);
        compare(format_args!("{call}: around {name}"), (before, after), (&guard, &guard));
    }
}
