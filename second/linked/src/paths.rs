//! Document 01, "Settings and paths": what both programs make of settings, paths and slots.

use crate::compare::{compare, number_of};
use crate::ffi;
use crate::lent::Lent;
use crate::random::Random;
use second::paths::{self, Settings, CARDS, ROUNDS};
use second::Refusal;
use std::fmt::{Arguments, Debug};

/// A level and relays of which each may be refused.
pub fn any_path(random: &mut Random) -> (usize, [usize; ROUNDS]) {
    (random.number(ROUNDS + 1), [(); ROUNDS].map(|()| random.number(CARDS)))
}

pub fn settings_refused(settings: Settings) -> Result<(), Refusal> {
    let second = settings.check();
    let call = format_args!("settings_refused {settings:x?}");
    compare(call, ffi::settings_refused(settings), number_of(&second));
    second
}

/// The slot of a path; `before` is what the lent place holds before the call.
pub fn slot_of(level: usize, relays: [usize; ROUNDS], before: usize) -> Result<usize, Refusal> {
    let second = paths::slot_of(level, relays);
    let call = format_args!("slot_of level {level:x} relays {relays:x?}");
    in_place(call, before, |place| ffi::slot_of(level, relays, place), second);
    second
}

pub fn slot_above(slot: usize, before: usize) -> Result<usize, Refusal> {
    let second = paths::slot_above(slot);
    let call = format_args!("slot_above {slot:x}");
    in_place(call, before, |place| ffi::slot_above(slot, place), second);
    second
}

pub fn is_live(settings: Settings, slot: usize, before: i32) -> Result<bool, Refusal> {
    let Settings { n, m, t, p } = settings;
    let second = paths::live(n, m, t, p, slot);
    let call = format_args!("is_live {settings:x?} slot {slot:x}");
    in_place(call, before, |place| ffi::is_live(settings, slot, place), second.map(i32::from));
    second
}

/// Makes the library's call on a place, and compares the number and the place.
fn in_place<T: Copy + PartialEq + Debug + From<u8>>(
    call: Arguments,
    before: T,
    library: impl FnOnce(&mut T) -> u8,
    second: Result<T, Refusal>,
) {
    let mut place = Lent::new(vec![before]);
    let number = library(&mut place.library_mut()[0]);
    place.second_mut()[0] = second.unwrap_or(before);
    let call = format_args!("{call} place {before:x?}");
    compare(call, number, number_of(&second));
    place.compare("place", call);
}
