//! Document 01, "The vote": votes over few words, at slots that are live and at others.

use second::paths::{Settings, SLOTS};
use second::words::E;
use second::Refusal;

use Words::{Few, Fours};

const E1: i32 = E + 1;
const E2: i32 = E + 2;

enum Words {
    /// E but for these, each with its slot.
    Few(&'static [(usize, i32)]),
    /// So many, each of them 4, but those by card 9 1,000 and their slot.
    Fours(usize),
}

impl Words {
    fn list(&self) -> Vec<i32> {
        match *self {
            Few(words) => {
                let mut list = vec![E; SLOTS];
                words.iter().for_each(|&(slot, word)| list[slot] = word);
                list
            }
            Fours(length) => (0..length as i32)
                .map(|slot| if slot > 0 && slot % 10 == 0 { 1_000 + slot } else { 4 })
                .collect(),
        }
    }
}

/// n, m, t and p; the words; and votes, each with its slot. The vote at slot 0 is the answer.
type Case = ([usize; 4], Words, &'static [(usize, Result<i32, Refusal>)]);

const VOTES: &[Case] = &[
    // Document 01: the sender 0 is arbitrary and sends 10, 20, 30, then 10, 10, 30.
    ([4, 1, 0, 1], Few(&[(0, 10), (3, 20), (4, 30)]), &[(0, Ok(E))]),
    ([4, 1, 0, 2], Few(&[(0, 20), (2, 10), (4, 30)]), &[(0, Ok(E))]),
    ([4, 1, 0, 3], Few(&[(0, 30), (2, 10), (3, 20)]), &[(0, Ok(E))]),
    ([4, 1, 0, 1], Few(&[(0, 10), (3, 10), (4, 30)]), &[(0, Ok(10))]),
    ([4, 1, 0, 2], Few(&[(0, 10), (2, 10), (4, 30)]), &[(0, Ok(10))]),
    ([4, 1, 0, 3], Few(&[(0, 30), (2, 10), (3, 10)]), &[(0, Ok(10))]),
    // Document 01: the sender 0 is manifest, and card 4 tells 11, 12, 13.
    ([5, 1, 0, 1], Few(&[(3, E1), (4, E1), (5, 11)]), &[(0, Ok(E))]),
    ([5, 1, 0, 2], Few(&[(2, E1), (4, E1), (5, 12)]), &[(0, Ok(E))]),
    ([5, 1, 0, 3], Few(&[(2, E1), (3, E1), (5, 13)]), &[(0, Ok(E))]),
    // Document 01: too few cards for the bound; no relays, so that cards may differ; one card.
    ([3, 1, 0, 1], Few(&[(0, 10), (3, 99)]), &[(0, Ok(E))]),
    ([3, 1, 0, 1], Few(&[(3, 99)]), &[(0, Ok(E))]),
    ([5, 0, 0, 1], Few(&[(0, 10), (2, 20), (3, 20), (4, 20), (5, 20)]), &[(0, Ok(10))]),
    ([5, 0, 0, 2], Few(&[(0, 20), (2, 10), (3, 10), (4, 10), (5, 10)]), &[(0, Ok(20))]),
    ([1, 0, 0, 0], Few(&[(0, -120), (2, 7), (3, 7), (4, 7), (5, 7)]), &[(0, Ok(-120))]),
    ([1, 0, 0, 0], Few(&[(0, E1), (2, 7), (3, 7), (4, 7), (5, 7)]), &[(0, Ok(E))]),
    // Words by the own card and by one that is not fitted, and words that read as E.
    ([4, 1, 0, 1], Few(&[(0, 10), (2, 10), (3, 20), (4, 30), (5, 10)]), &[(0, Ok(E))]),
    ([4, 1, 0, 1], Few(&[(0, 10), (3, -E), (4, -E)]), &[(0, Ok(10))]),
    ([4, 1, 0, 1], Few(&[(0, 10), (3, E2), (4, E2)]), &[(0, Ok(10))]),
    // The own report counts once, and as wrapped missing where it is missing.
    ([4, 1, 0, 1], Few(&[(0, 10), (3, 99), (4, 99)]), &[(0, Ok(99))]),
    ([4, 1, 0, 1], Few(&[(0, 10), (3, 99), (4, 10)]), &[(0, Ok(10)), (3, Ok(99))]),
    ([4, 1, 0, 1], Few(&[(0, E1), (3, E1), (4, E2)]), &[(0, Ok(E)), (3, Ok(E1)), (4, Ok(E))]),
    ([4, 1, 0, 1], Few(&[(0, E1), (3, E2), (4, 99)]), &[(0, Ok(E))]),
    ([4, 1, 0, 1], Few(&[(0, 99), (3, E2), (4, 99)]), &[(0, Ok(99))]),
    // Two rounds: a manifest sender; card 3 arbitrary; a path by 2 and 2, which is not live.
    (
        [4, 2, 0, 1],
        Few(&[(3, E1), (4, E1), (34, E2), (43, E2)]),
        &[(3, Ok(E1)), (4, Ok(E1)), (0, Ok(E))],
    ),
    (
        [4, 2, 0, 1],
        Few(&[(0, 10), (3, 10), (4, 30), (34, 31), (43, 32)]),
        &[(3, Ok(E)), (4, Ok(E)), (0, Ok(10))],
    ),
    (
        [4, 2, 0, 1],
        Few(&[(0, 10), (3, 10), (4, 20), (34, 20), (43, 20), (33, 10)]),
        &[(3, Ok(E)), (4, Ok(20)), (0, Ok(E)), (33, Err(8))],
    ),
    // Three rounds: the longer paths outvote card 9's word, and at level m it stands.
    (
        [10, 3, 0, 1],
        Fours(SLOTS),
        &[(0, Ok(4)), (10, Ok(4)), (83, Ok(4)), (90, Ok(4)), (839, Ok(4)), (840, Ok(1_840))],
    ),
    ([10, 2, 0, 1], Fours(SLOTS), &[(0, Ok(4)), (90, Ok(1_090))]),
    // Not live: a card twice, no slot; a path over m; a card that is not fitted; the sender,
    // the own card, and where that is the sender any relay.
    ([10, 3, 0, 1], Fours(SLOTS), &[(110, Err(8)), (1_111, Err(8)), (usize::MAX, Err(8))]),
    ([10, 2, 0, 1], Fours(SLOTS), &[(840, Err(8))]),
    ([9, 3, 0, 1], Fours(SLOTS), &[(0, Ok(4)), (840, Err(8))]),
    ([10, 3, 9, 1], Fours(SLOTS), &[(0, Ok(4)), (10, Err(8))]),
    ([10, 3, 0, 9], Fours(SLOTS), &[(0, Ok(4)), (10, Err(8))]),
    ([10, 3, 1, 1], Fours(SLOTS), &[(0, Ok(4)), (10, Err(8))]),
    // Each card as the relay of card 1 among four, and paths of two relays.
    ([4, 1, 0, 1], Fours(SLOTS), &[(0, Ok(4)), (3, Ok(4)), (4, Ok(4)), (1_111, Err(8))]),
    ([4, 1, 0, 1], Fours(SLOTS), &[(1, Err(8)), (2, Err(8)), (5, Err(8)), (34, Err(8))]),
    ([4, 2, 0, 1], Fours(SLOTS), &[(34, Ok(4)), (33, Err(8))]),
    ([4, 1, 0, 0], Fours(SLOTS), &[(0, Ok(4)), (3, Err(8))]),
    // The least and the greatest settings; each refusal, first with all the later ones.
    ([1, 0, 0, 0], Fours(SLOTS), &[(0, Ok(4))]),
    ([10, 3, 9, 8], Fours(SLOTS), &[(0, Ok(4))]),
    ([0, 4, 9, 9], Fours(0), &[(0, Err(1)), (1_111, Err(1))]),
    ([11, 0, 0, 0], Fours(SLOTS), &[(0, Err(1))]),
    ([4, 4, 4, 4], Fours(0), &[(0, Err(2)), (1_111, Err(2))]),
    ([10, 4, 0, 0], Fours(SLOTS), &[(0, Err(2))]),
    ([3, 3, 0, 0], Fours(SLOTS), &[(0, Err(2))]),
    ([4, 1, 4, 4], Fours(0), &[(0, Err(3)), (1_111, Err(3))]),
    ([4, 1, 4, 1], Fours(SLOTS), &[(0, Err(3))]),
    ([10, 3, 0, 10], Fours(0), &[(0, Err(4)), (1_111, Err(4))]),
    ([4, 1, 0, 4], Fours(SLOTS), &[(0, Err(4))]),
    ([10, 3, 0, 1], Fours(1_110), &[(0, Err(5))]),
    ([10, 3, 0, 1], Fours(1_112), &[(0, Err(5)), (1_111, Err(5))]),
];

/// Holds a program's vote to the table.
pub fn hold_votes(vote_at: impl Fn(Settings, &[i32], usize) -> Result<i32, Refusal>) {
    for &([n, m, t, p], ref words, votes) in VOTES {
        let (settings, list) = (Settings { n, m, t, p }, words.list());
        for &(slot, vote) in votes {
            assert_eq!(vote_at(settings, &list, slot), vote, "{settings:?} slot {slot}");
        }
    }
}
