//! Document 01, "Settings and paths": settings that are good, and settings that may not be.

use crate::random::Random;
use second::paths::{live, Settings, CARDS, ROUNDS, SLOTS};

/// Every pair of n and m that is not refused.
pub fn all_rounds() -> Vec<(usize, usize)> {
    (1..=CARDS).flat_map(|n| (0..n.min(ROUNDS + 1)).map(move |m| (n, m))).collect()
}

/// Every setting that is not refused.
pub fn all() -> Vec<Settings> {
    let mut all = Vec::new();
    for (n, m) in all_rounds() {
        for t in 0..n {
            all.extend((0..n).map(|p| Settings { n, m, t, p }));
        }
    }
    all
}

/// Good settings with this n and m; the own card is seldom the sender, who has one live slot.
pub fn of_rounds(random: &mut Random, n: usize, m: usize) -> Settings {
    let (t, mut p) = (random.below(n), random.below(n));
    if p == t && !random.one_in(4) {
        p = (p + 1) % n;
    }
    Settings { n, m, t, p }
}

/// Settings of which each may be refused.
pub fn any(random: &mut Random) -> Settings {
    let n = random.number(CARDS).wrapping_add(1);
    let cards = n.clamp(1, CARDS);
    Settings { n, m: rounds(random, cards), t: random.number(cards), p: random.number(cards) }
}

/// Settings that are refused.
pub fn refused(random: &mut Random) -> Settings {
    loop {
        let settings = any(random);
        if settings.check().is_err() {
            return settings;
        }
    }
}

fn rounds(random: &mut Random, cards: usize) -> usize {
    random.number(cards.min(ROUNDS + 1))
}

/// Any slot, often one of level 0 or 1, of which most are live; at times a number that is none.
pub fn any_slot(random: &mut Random) -> usize {
    let end = random.pick(&[1 + CARDS, SLOTS]);
    random.number(end)
}

pub fn live_slots(settings: Settings) -> Vec<usize> {
    let Settings { n, m, t, p } = settings;
    (0..SLOTS).filter(|&slot| live(n, m, t, p, slot) == Ok(true)).collect()
}
