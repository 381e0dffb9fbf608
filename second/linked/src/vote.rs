//! Document 01, "The vote": one call of both programs.

use crate::compare::{compare, number_of};
use crate::ffi;
use crate::lent::Lent;
use second::paths::Settings;
use second::{vote, Refusal};

/// The vote at a slot; `before` is what the lent place holds before the call.
pub fn vote_at(
    settings: Settings,
    words: &Lent<i32>,
    slot: usize,
    before: i32,
) -> Result<i32, Refusal> {
    let mut place = Lent::new(vec![before]);
    let number = ffi::vote_at(settings, words.library(), slot, &mut place.library_mut()[0]);
    let second = vote::vote_at(settings, words.second(), slot);
    place.second_mut()[0] = second.unwrap_or(before);
    let list = words.second();
    let call = format_args!("vote_at {settings:x?} slot {slot:x} place {before:x} words {list:x?}");
    compare(call, number, number_of(&second));
    place.compare("vote", call);
    words.compare("words", call);
    second
}
