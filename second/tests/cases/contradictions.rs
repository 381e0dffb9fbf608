//! Document 02, Q-2: two different words on one path. A book after each call, worked by hand.

use super::given::Given;
use second::paths::{Settings, SLOTS};
use second::words::E;
use second::Refusal;
use Call::{Enter, EnterFrame, Fill, Open, Refill, Write};

const E1: i32 = E + 1;
const E2: i32 = E + 2;
const E3: i32 = E + 3;

/// Contradicted.
const C: i32 = 1_000_000_009;

#[derive(Clone, Copy, Debug)]
pub enum Call {
    Open,
    /// A slot and a word.
    Enter(usize, i32),
    /// The current exchange number and a frame.
    EnterFrame(u16, [u8; 17]),
    Refill,
    /// The bench fills the book of the settings' own card.
    Fill(Given),
    /// Somebody else writes a vote at a slot.
    Write(usize, i32),
}

/// A book's words and votes.
pub type Lists = [Vec<i32>; 2];

/// What a call yields, and the lists after it.
pub type Made = (Result<(), Refusal>, Lists);

/// The bytes of a frame with its sender, level, relays and receiver.
const fn frame(exchange: u8, path: [u8; 6], word: i32) -> [u8; 17] {
    let ([t, level, q1, q2, q3, p], [w1, w2, w3, w4]) = (path, word.to_be_bytes());
    [b'O', b'M', b'H', 0, 1, 0, exchange, t, level, q1, q2, q3, p, w1, w2, w3, w4]
}

/// Words that come on one path, and what its slot holds after each.
const RUNS: &[&[(i32, i32)]] = &[
    // A slot that holds E takes any word, and the same word again leaves it.
    &[(E, E), (5, 5), (5, 5), (5, 5)],
    &[(E, E), (E, E), (E, E), (-5, -5), (-5, -5)],
    &[(0, 0), (0, 0), (E, C)],
    // A different word contradicts, E among them, and nothing that follows heals it.
    &[(5, 5), (E, C), (E, C), (5, C)],
    &[(5, 5), (7, C), (5, C), (7, C), (E, C)],
    &[(5, 5), (5, 5), (-5, C), (C, C), (5, C)],
    &[(E, E), (999_999_999, 999_999_999), (-999_999_999, C)],
    // The number itself as a first word and as a second.
    &[(C, C), (C, C), (5, C), (C, C)],
    &[(C, C), (E, C), (7, C)],
    &[(5, 5), (C, C), (5, C)],
    // Words are compared as stored: these all read as E.
    &[(2_000_000_000, 2_000_000_000), (2_000_000_000, 2_000_000_000), (-2_000_000_000, C)],
    &[(i32::MIN, i32::MIN), (i32::MAX, C)],
    &[(1_000_000_008, 1_000_000_008), (1_000_000_010, C)],
    &[(1_000_000_010, 1_000_000_010), (E, C)],
    // Wrapped words read as E or as themselves, by their level, and are no E at any.
    &[(E1, E1), (E1, E1), (E, C)],
    &[(E, E), (E2, E2), (E1, C), (E2, C)],
    &[(E3, E3), (E, C)],
    &[(E, E), (E3, E3), (E3, E3), (1_000_000_004, C)],
];

/// Card 1 of five with three rounds and the sender 0: a slot of each level and its frame's path.
const RUNS_ON: [(usize, [u8; 6]); 4] = [
    (0, [0, 0, 255, 255, 255, 1]),
    (3, [0, 1, 2, 255, 255, 1]),
    (35, [0, 2, 2, 4, 255, 1]),
    (345, [0, 3, 2, 3, 4, 1]),
];

/// Places of a list, each with the word or vote that it then holds.
type Places = &'static [(usize, i32)];

/// n, m, t and p; a call; what comes of it; and what it changes in the words and in the votes.
type Step = ([usize; 4], Call, Result<(), Refusal>, Places, Places);

const DONE: Result<(), Refusal> = Ok(());

/// Of five with two rounds and the sender 0. By relays 2, 3 and 4 the slots 3, 4 and 5 are
/// live for card 1, and 34, 35, 43, 45, 53 and 54 below them; slot 2 is live for card 2.
const CARD_1: [usize; 4] = [5, 2, 0, 1];
const CARD_2: [usize; 4] = [5, 2, 0, 2];

const BY_2: [u8; 6] = [0, 1, 2, 255, 255, 1];
const BY_3: [u8; 6] = [0, 1, 3, 255, 255, 1];
const BY_2_AND_4: [u8; 6] = [0, 2, 2, 4, 255, 1];

const ALL_GOOD: Given = ([5, 2, 0], 40, &[], &[]);
const CARD_3_MANIFEST: Given = ([5, 2, 0], 40, &[0, 0, 0, 3], &[]);

/// What `ALL_GOOD` deals to card 1, and the votes over it.
const FORTY: Places = &[
    (0, 40),
    (3, 40),
    (4, 40),
    (5, 40),
    (34, 40),
    (35, 40),
    (43, 40),
    (45, 40),
    (53, 40),
    (54, 40),
];

/// Calls on a book that is all E.
const STEPS: &[Step] = &[
    (CARD_1, Enter(0, 10), DONE, &[(0, 10)], &[(0, 10)]),
    (CARD_1, Enter(3, 10), DONE, &[(3, 10)], &[(3, 10)]),
    (CARD_1, Enter(34, 20), DONE, &[(34, 20)], &[(34, 20), (3, E)]),
    (CARD_1, Enter(35, 20), DONE, &[(35, 20)], &[(35, 20), (3, 20), (0, E)]),
    (CARD_1, Enter(34, 20), DONE, &[], &[]),
    // At slot 3 the votes 10, 20 and 20 become 10, E and 20; at slot 0, 10 and 20 become 10.
    (CARD_1, Enter(34, 30), DONE, &[(34, C)], &[(34, E), (3, E), (0, 10)]),
    (CARD_1, Enter(34, 20), DONE, &[], &[]),
    (CARD_1, Enter(34, E), DONE, &[], &[]),
    // What is refused contradicts nothing: the path is not live, whatever its slot holds.
    (CARD_2, Enter(3, 11), Err(8), &[], &[]),
    (CARD_2, Enter(35, 21), Err(8), &[], &[]),
    ([5, 1, 0, 1], Enter(35, 21), Err(8), &[], &[]),
    ([3, 2, 0, 1], Enter(35, 21), Err(8), &[], &[]),
    ([5, 2, 2, 1], Enter(3, 11), Err(8), &[], &[]),
    ([5, 2, 0, 0], Enter(3, 11), Err(8), &[], &[]),
    (CARD_1, Enter(1_111, 11), Err(8), &[], &[]),
    ([11, 2, 0, 1], Enter(0, 11), Err(1), &[], &[]),
    ([5, 5, 0, 1], Enter(0, 11), Err(2), &[], &[]),
    ([5, 2, 5, 1], Enter(0, 11), Err(3), &[], &[]),
    ([5, 2, 0, 5], Enter(0, 11), Err(4), &[], &[]),
    // Frames that are old, ahead, another sender's, another receiver's or not well formed.
    (CARD_1, EnterFrame(7, frame(6, BY_2, 11)), Err(12), &[], &[]),
    (CARD_1, EnterFrame(7, frame(8, BY_2, 11)), Err(13), &[], &[]),
    (CARD_1, EnterFrame(7, frame(7, [1, 1, 2, 255, 255, 1], 11)), Err(15), &[], &[]),
    (CARD_1, EnterFrame(7, frame(7, [0, 1, 2, 255, 255, 2], 11)), Err(15), &[], &[]),
    (CARD_1, EnterFrame(7, frame(7, [0, 1, 2, 4, 255, 1], 11)), Err(14), &[], &[]),
    (CARD_1, EnterFrame(7, frame(7, [0, 2, 2, 2, 255, 1], 11)), Err(8), &[], &[]),
    // Frames and words come on the same paths.
    (CARD_1, EnterFrame(7, frame(7, BY_2, 10)), DONE, &[], &[]),
    (CARD_1, EnterFrame(7, frame(7, BY_3, 10)), DONE, &[(4, 10)], &[(4, 10)]),
    (CARD_1, EnterFrame(7, frame(7, BY_3, 10)), DONE, &[], &[]),
    (CARD_1, EnterFrame(8, frame(8, BY_3, 11)), DONE, &[(4, C)], &[(4, E)]),
    (CARD_1, Enter(4, 10), DONE, &[], &[]),
    (CARD_1, EnterFrame(8, frame(8, BY_2_AND_4, E)), DONE, &[(35, C)], &[(35, E), (3, 10)]),
    (CARD_1, EnterFrame(8, frame(8, BY_2_AND_4, 20)), DONE, &[], &[]),
    // The votes are re-made also where the slot stays as it was.
    (CARD_1, Write(34, 99), DONE, &[], &[(34, 99)]),
    (CARD_1, Write(3, 98), DONE, &[], &[(3, 98)]),
    (CARD_1, Write(0, 97), DONE, &[], &[(0, 97)]),
    (CARD_1, Enter(34, 30), DONE, &[], &[(34, E), (3, 10), (0, 10)]),
    (CARD_1, Write(3, 98), DONE, &[], &[(3, 98)]),
    (CARD_1, Write(0, 97), DONE, &[], &[(0, 97)]),
    (CARD_1, EnterFrame(8, frame(8, BY_2, 10)), DONE, &[], &[(3, 10), (0, 10)]),
    // Refilling touches no words.
    (CARD_1, Write(4, 96), DONE, &[], &[(4, 96)]),
    (CARD_1, Refill, DONE, &[], &[(4, E)]),
    (CARD_1, Enter(4, 10), DONE, &[], &[]),
    // Filling deals over live slots; slot 2, contradicted for card 2, is not live for card 1.
    (CARD_2, Enter(2, 5), DONE, &[(2, 5)], &[(2, 5), (0, E)]),
    (CARD_2, Enter(2, 6), DONE, &[(2, C)], &[(2, E), (0, 10)]),
    (CARD_1, Fill(ALL_GOOD), DONE, FORTY, FORTY),
    (CARD_2, Enter(2, 5), DONE, &[], &[]),
    (CARD_1, Enter(34, 40), DONE, &[], &[]),
    (CARD_1, Enter(34, 20), DONE, &[(34, C)], &[(34, E)]),
    // Card 3 sends E, which takes any word; others send on that it is missing.
    (
        CARD_1,
        Fill(CARD_3_MANIFEST),
        DONE,
        &[(4, E), (34, E), (43, E1), (45, E1), (54, E)],
        &[(4, E), (43, E1), (45, E1), (54, E)],
    ),
    (CARD_1, Enter(34, 5), DONE, &[(34, 5)], &[(34, 5)]),
    (CARD_1, Enter(43, E), DONE, &[(43, C)], &[(43, E)]),
    // Opening clears all.
    (
        CARD_1,
        Open,
        DONE,
        &[(0, E), (2, E), (3, E), (5, E), (34, E), (35, E), (43, E), (45, E), (53, E)],
        &[(0, E), (3, E), (5, E), (34, E), (35, E), (45, E), (53, E)],
    ),
    (CARD_1, Enter(34, 20), DONE, &[(34, 20)], &[(34, 20)]),
    (CARD_1, Enter(43, E1), DONE, &[(43, E1)], &[(43, E1)]),
    (CARD_2, Enter(2, 5), DONE, &[(2, 5)], &[(2, 5)]),
];

/// Holds an account of what the words accepted on one path leave to the runs.
pub fn hold_left(left_by: impl Fn(&[i32]) -> i32) {
    assert_eq!(left_by(&[]), E);
    for run in RUNS {
        let words: Vec<i32> = run.iter().map(|&(word, _)| word).collect();
        for (last, &(_, left)) in run.iter().enumerate() {
            assert_eq!(left_by(&words[..=last]), left, "the words to {last} of {run:?}");
        }
    }
}

fn set(list: &mut [i32], places: Places) {
    places.iter().for_each(|&(place, word)| list[place] = word);
}

/// Holds a program's book to the tables.
pub fn hold_contradictions(make: impl Fn(Settings, Call, Lists) -> Made) {
    hold_runs(&make);
    let mut lists = [vec![E; SLOTS], vec![E; SLOTS]];
    for step in STEPS {
        let &([n, m, t, p], call, outcome, words, votes) = step;
        let mut expected = lists.clone();
        set(&mut expected[0], words);
        set(&mut expected[1], votes);
        let came;
        (came, lists) = make(Settings { n, m, t, p }, call, lists);
        assert_eq!(came, outcome, "{step:?}");
        for (name, list) in ["words", "votes"].into_iter().zip(0..) {
            let differs = (0..SLOTS).find(|&slot| lists[list][slot] != expected[list][slot]);
            assert_eq!(differs, None, "a slot of the {name}: {step:?}");
        }
    }
}

/// Each run on each path, by slot and by frame in turn, and the other way about.
fn hold_runs(make: impl Fn(Settings, Call, Lists) -> Made) {
    let settings = Settings { n: 5, m: 3, t: 0, p: 1 };
    for (slot, path) in RUNS_ON {
        for (run, first) in RUNS.iter().flat_map(|run| [(run, 0), (run, 1)]) {
            let mut lists = [vec![E; SLOTS], vec![E; SLOTS]];
            for (turn, &(word, left)) in (first..).zip(run.iter()) {
                let call = match turn % 2 {
                    0 => Enter(slot, word),
                    _ => EnterFrame(3, frame(3, path, word)),
                };
                let mut expected = vec![E; SLOTS];
                expected[slot] = left;
                let came;
                (came, lists) = make(settings, call, lists);
                assert_eq!(came, DONE, "{call:?} of {run:?}");
                assert!(lists[0] == expected, "slot {slot}: {call:?} of {run:?}");
            }
        }
    }
}
