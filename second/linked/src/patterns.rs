//! Fault patterns: the cards' statuses and the sender, with what document 01 promises of
//! them and the places of the table that matter to a good card.

use second::exchange::{ARBITRARY, GOOD, MANIFEST, SYMMETRIC};
use second::paths::{slot_of_path, CARDS};

#[derive(Clone, Copy, Debug, PartialEq, Eq)]
pub struct Pattern {
    pub n: usize,
    pub m: usize,
    pub t: usize,
    pub statuses: [u8; CARDS],
}

/// How many cards are arbitrary, symmetric and manifest.
#[derive(Clone, Copy, Debug, PartialEq, Eq, PartialOrd, Ord)]
pub struct Faults {
    pub a: usize,
    pub s: usize,
    pub c: usize,
}

/// What the bound promises of every exchange of a pattern.
#[derive(Clone, Copy, Debug, PartialEq, Eq)]
pub enum Promise {
    /// Good cards are right about a good, a symmetric and a manifest sender, and agree.
    Agreed,
    /// They are right; about an arbitrary sender they may differ, since a is over m.
    Right,
    Nothing,
}

/// A place of the table whose word a good card receives.
#[derive(Clone, Copy, Debug)]
pub struct Place {
    pub at: usize,
    pub level: usize,
    /// The receiver; of a symmetric card, which tells everyone the same, that card.
    pub card: usize,
}

/// Every pattern of n and m.
pub fn all(n: usize, m: usize) -> impl Iterator<Item = Pattern> {
    (0..4usize.pow(n as u32)).flat_map(move |number| {
        let mut statuses = [GOOD; CARDS];
        for (card, status) in statuses.iter_mut().enumerate().take(n) {
            *status = (number >> (2 * card) & 3) as u8;
        }
        (0..n).map(move |t| Pattern { n, m, t, statuses })
    })
}

impl Faults {
    pub fn promise(self, n: usize, m: usize) -> Promise {
        let Faults { a, s, c } = self;
        match (n > 2 * a + 2 * s + c + m, a <= m) {
            (true, true) => Promise::Agreed,
            (true, false) => Promise::Right,
            (false, _) => Promise::Nothing,
        }
    }
}

impl Pattern {
    pub fn faults(&self) -> Faults {
        let count = |status| self.cards().filter(|&p| self.statuses[p] == status).count();
        Faults { a: count(ARBITRARY), s: count(SYMMETRIC), c: count(MANIFEST) }
    }

    pub fn promise(&self) -> Promise {
        self.faults().promise(self.n, self.m)
    }

    pub fn good(&self) -> impl Iterator<Item = usize> + '_ {
        self.cards().filter(|&p| self.statuses[p] == GOOD)
    }

    /// A word at any other place changes no good card's answer: what a faulty card
    /// receives it does not pass on.
    pub fn places(&self) -> Vec<Place> {
        let mut places = Vec::new();
        for path in self.paths() {
            let sending = path.last().copied().unwrap_or(self.t);
            let row = CARDS * slot_of_path(&path).expect("a path of at most three cards");
            let level = path.len();
            let mut hearing = self.good().filter(|p| *p != self.t && !path.contains(p));
            match self.statuses[sending] {
                ARBITRARY => places.extend(hearing.map(|p| Place { at: row + p, level, card: p })),
                SYMMETRIC if hearing.next().is_some() => {
                    places.push(Place { at: row, level, card: sending });
                }
                _ => {}
            }
        }
        places
    }

    fn cards(&self) -> std::ops::Range<usize> {
        0..self.n
    }

    /// The paths of different cards, none of them the sender, up to level m.
    fn paths(&self) -> Vec<Vec<usize>> {
        let mut paths = vec![vec![]];
        let mut longest = paths.clone();
        for _ in 0..self.m {
            let longer = |path: &Vec<usize>| {
                let relays = self.cards().filter(|q| *q != self.t && !path.contains(q));
                relays.map(|q| [&path[..], &[q]].concat()).collect::<Vec<_>>()
            };
            longest = longest.iter().flat_map(longer).collect();
            paths.extend(longest.clone());
        }
        paths
    }
}
