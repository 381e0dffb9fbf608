//! Document 01, "Settings and paths". A path is the list of its relays; the sender that
//! stands before them is in the settings, and the level is the length of the list.

use crate::Refusal;

/// The greatest number of cards.
pub const CARDS: usize = 10;

/// The greatest number of rounds of relay, and so the greatest level.
pub const ROUNDS: usize = 3;

/// The number of slots, the length of each of a book's two lists.
pub const SLOTS: usize = 1_111;

/// Four numbers as they were given. Every call that takes them checks them first.
#[derive(Clone, Copy, Debug, PartialEq, Eq)]
pub struct Settings {
    /// Number of cards.
    pub n: usize,
    /// Rounds of relay.
    pub m: usize,
    /// The sender.
    pub t: usize,
    /// The own card.
    pub p: usize,
}

impl Settings {
    pub fn check(self) -> Result<(), Refusal> {
        check_settings(self.n, self.m, self.t, self.p)
    }
}

/// Refusals 1 and 2.
pub fn check_rounds(n: usize, m: usize) -> Result<(), Refusal> {
    if !(1..=CARDS).contains(&n) {
        return Err(1);
    }
    if m > ROUNDS || m >= n {
        return Err(2);
    }
    Ok(())
}

/// Refusals 1, 2 and 3.
pub fn check_sender(n: usize, m: usize, t: usize) -> Result<(), Refusal> {
    check_rounds(n, m)?;
    if t >= n {
        return Err(3);
    }
    Ok(())
}

/// Refusals 1, 2, 3 and 4.
pub fn check_settings(n: usize, m: usize, t: usize, p: usize) -> Result<(), Refusal> {
    check_sender(n, m, t)?;
    if p >= n {
        return Err(4);
    }
    Ok(())
}

/// The slot of the path with the first `level` of these relays; the others are not looked at.
pub fn slot_of(level: usize, relays: [usize; ROUNDS]) -> Result<usize, Refusal> {
    slot_of_path(relays.get(..level).ok_or(8)?)
}

pub fn slot_of_path(path: &[usize]) -> Result<usize, Refusal> {
    if path.iter().any(|&relay| relay >= CARDS) {
        return Err(8);
    }
    match *path {
        [] => Ok(0),
        [q1] => Ok(1 + q1),
        [q1, q2] => Ok(11 + 10 * q1 + q2),
        [q1, q2, q3] => Ok(111 + 100 * q1 + 10 * q2 + q3),
        _ => Err(8),
    }
}

/// The path whose slot this is, or none for a number over 1,110.
pub fn path_at(slot: usize) -> Option<Vec<usize>> {
    match slot {
        0 => Some(vec![]),
        1..=10 => Some(vec![slot - 1]),
        11..=110 => {
            let digits = slot - 11;
            Some(vec![digits / 10, digits % 10])
        }
        111..=1110 => {
            let digits = slot - 111;
            Some(vec![digits / 100, digits / 10 % 10, digits % 10])
        }
        _ => None,
    }
}

pub fn slot_above(slot: usize) -> Result<usize, Refusal> {
    match slot {
        1..=1110 => Ok((slot - 1) / 10),
        _ => Err(8),
    }
}

/// Whether a slot is live. A number that is no slot is not live, which is no refusal here.
pub fn live(n: usize, m: usize, t: usize, p: usize, slot: usize) -> Result<bool, Refusal> {
    let settings = Settings { n, m, t, p };
    settings.check()?;
    Ok(live_path_at(settings, slot).is_ok())
}

/// The path at a live slot; refusal 8 for every other number.
pub(crate) fn live_path_at(settings: Settings, slot: usize) -> Result<Vec<usize>, Refusal> {
    path_at(slot).filter(|path| is_live(settings, path)).ok_or(8)
}

pub(crate) fn is_live(settings: Settings, path: &[usize]) -> bool {
    let Settings { n, m, t, p } = settings;
    if p == t {
        return path.is_empty();
    }
    let others = path.iter().all(|&relay| relay < n && relay != t && relay != p);
    let different = (1..path.len()).all(|place| !path[..place].contains(&path[place]));
    path.len() <= m && others && different
}

/// Every live path with its slot, in rising order of slots.
pub(crate) fn live_paths(settings: Settings) -> Vec<(usize, Vec<usize>)> {
    (0..SLOTS).filter_map(|slot| Some((slot, live_path_at(settings, slot).ok()?))).collect()
}

/// The live paths one relay longer.
pub(crate) fn longer_paths(settings: Settings, path: &[usize]) -> Vec<Vec<usize>> {
    (0..CARDS)
        .map(|relay| [path, &[relay]].concat())
        .filter(|longer| is_live(settings, longer))
        .collect()
}
