//! Document 01, "The exchange on the bench": answers, the bound, and books filled.

use super::given::{with, Given};
use second::exchange::Exchange;
use second::paths::{CARDS, SLOTS};
use second::words::E;
use second::Refusal;

const E1: i32 = E + 1;

/// Document 01: sender 0 manifest, card 4 arbitrary telling 1, 2, 3 the words 11, 12, 13.
const AGAINST_ALGORITHM_Z: Given =
    ([5, 1, 0], 10, &[3, 0, 0, 0, 1], &[(5, 1, 11), (5, 2, 12), (5, 3, 13)]);

type Answers = Result<&'static [i32], Refusal>;

/// An exchange, all its answers, and whether the bound holds.
const EXCHANGES: &[(Given, Answers, Result<bool, Refusal>)] = &[
    (AGAINST_ALGORITHM_Z, Ok(&[E, E, E, E, E]), Ok(true)),
    // Document 01: sender 0 arbitrary, sending 10, 20, 30; then 10, 10, 30.
    (([4, 1, 0], 10, &[1], &[(0, 1, 10), (0, 2, 20), (0, 3, 30)]), Ok(&[E, E, E, E]), Ok(true)),
    (([4, 1, 0], 10, &[1], &[(0, 1, 10), (0, 2, 10), (0, 3, 30)]), Ok(&[E, 10, 10, 10]), Ok(true)),
    // Document 01: good sender 0 with 10, card 2 arbitrary telling card 1 the word 99.
    (([3, 1, 0], 10, &[0, 0, 1], &[(3, 1, 99)]), Ok(&[10, E, 10]), Ok(false)),
    // Document 01: without relays cards may differ.
    (
        ([5, 0, 0], 10, &[1], &[(0, 1, 10), (0, 2, 10), (0, 3, 30), (0, 4, 40)]),
        Ok(&[E, 10, 10, 30, 40]),
        Ok(false),
    ),
    (
        ([5, 0, 2], 10, &[0, 0, 1], &[(0, 0, 1), (0, 1, 2), (0, 2, 3), (0, 3, E1), (0, 4, -E)]),
        Ok(&[1, 2, 3, E, E]),
        Ok(false),
    ),
    // Document 01: the only card answers its own word.
    (([1, 0, 0], -120, &[], &[]), Ok(&[-120]), Ok(true)),
    (([1, 0, 0], -999_999_999, &[], &[]), Ok(&[-999_999_999]), Ok(true)),
    (([1, 0, 0], 0, &[], &[]), Ok(&[0]), Ok(true)),
    (([1, 0, 0], 999_999_999, &[], &[]), Ok(&[999_999_999]), Ok(true)),
    // Document 01's listing; the table's word for card 2, who is good, counts for nothing.
    (
        ([4, 1, 0], -120, &[0, 0, 0, 1], &[(3, 1, 99), (4, 1, 500), (4, 2, 700)]),
        Ok(&[-120, -120, -120, -120]),
        Ok(true),
    ),
    // Symmetric sender 0, sending 33; then missing, wrapped, which level 0 reads as E.
    (([4, 1, 0], 10, &[2], &[(0, 0, 33), (0, 1, 34)]), Ok(&[33, 33, 33, 33]), Ok(true)),
    (([4, 1, 0], 10, &[2], &[(0, 0, E1), (0, 1, 34)]), Ok(&[E, E, E, E]), Ok(true)),
    // Ten cards: three arbitrary, the sender among them; four arbitrary and a good sender.
    (
        ([10, 3, 0], 10, &[1, 1, 1], &[(0, 3, 5), (0, 4, 6), (1, 5, 999)]),
        Ok(&[E, E, E, E, E, E, E, E, E, E]),
        Ok(true),
    ),
    (
        ([10, 3, 9], 250, &[1, 1, 1, 1], &[(0, 3, 5), (0, 4, 6), (1, 5, 999)]),
        Ok(&[250, 250, 250, 250, 250, 250, 250, 250, 250, 250]),
        Ok(false),
    ),
    // What is refused; the bound takes no t and no x.
    (([0, 0, 0], 10, &[], &[]), Err(1), Err(1)),
    (([3, 3, 0], 10, &[], &[]), Err(2), Err(2)),
    (([3, 1, 3], 10, &[], &[]), Err(3), Ok(true)),
    (([2, 1, 0], 10, &[0, 4], &[]), Err(7), Err(7)),
    (([2, 1, 0], 10, &[0, 0, 1], &[]), Err(7), Err(7)),
    (([2, 1, 0], E, &[], &[]), Err(6), Ok(true)),
];

/// What a list or a book holds where a call leaves it as it was.
const UNTOUCHED: i32 = 7;

/// Holds a program to the exchanges: all answers in a list of ten, which is handed back, each
/// card's own, and the bound.
pub fn hold_exchanges(
    all_answers: impl Fn(&Exchange, [i32; CARDS]) -> Result<Vec<i32>, Refusal>,
    answer_for: impl Fn(&Exchange, usize) -> Result<i32, Refusal>,
    bound: impl Fn(usize, usize, &[u8]) -> Result<bool, Refusal>,
) {
    for &(given, answers, held) in EXCHANGES {
        with(given, |e| {
            let rest = vec![UNTOUCHED; CARDS - e.n];
            let list = answers.map(|answers| [answers, &rest].concat());
            assert_eq!(all_answers(e, [UNTOUCHED; CARDS]), list, "{given:?}");
            for p in 0..e.n {
                assert_eq!(answer_for(e, p), answers.map(|list| list[p]), "card {p} of {given:?}");
            }
            assert_eq!(bound(e.n, e.m, e.statuses), held, "the bound of {given:?}");
        });
    }
}

/// An exchange, a card, words that it receives, each with its slot, and its answer.
type Filled = (Given, usize, &'static [(usize, Result<i32, Refusal>)], i32);

/// Cards of every status, of whom 0, 1 and 5 are good; the table also has words that no card
/// sends.
const SIX: Given = (
    [6, 2, 0],
    -7,
    &[0, 0, 1, 2, 3],
    &[
        (0, 5, 5),
        (2, 5, 25),
        (3, 1, 31),
        (3, 5, 35),
        (4, 0, 40),
        (4, 5, 45),
        (5, 5, 55),
        (63, 1, 631),
        (64, 0, 640),
        (64, 1, 641),
    ],
);

const BOOKS: &[Filled] = &[
    (AGAINST_ALGORITHM_Z, 2, &[(0, Ok(E)), (2, Ok(E1)), (4, Ok(E1)), (5, Ok(12))], E),
    // Card 3 is arbitrary and tells card 1 the word 500; cards 1 and 4 are no relays of it.
    (
        ([4, 1, 0], -120, &[0, 0, 0, 1], &[(4, 1, 500)]),
        1,
        &[(0, Ok(-120)), (3, Ok(-120)), (4, Ok(500)), (2, Err(8)), (5, Err(8))],
        -120,
    ),
    (SIX, 0, &[(0, Ok(-7)), (2, Err(8))], -7),
    // From the sender; by the relays 1 to 4; what card 1 passes on of 2, 3 and 4.
    (
        SIX,
        5,
        &[
            (0, Ok(-7)),
            (2, Ok(-7)),
            (3, Ok(35)),
            (4, Ok(40)),
            (5, Ok(E)),
            (32, Ok(31)),
            (42, Ok(40)),
            (52, Ok(E1)),
            (6, Err(8)),
        ],
        -7,
    ),
    // By 5 and 2, 5 and 3, 2 and 4.
    (SIX, 1, &[(63, Ok(631)), (64, Ok(640)), (35, Ok(E)), (2, Err(8))], E),
];

/// Holds a program to the books: single words, and a book filled, whose two lists are handed
/// back.
pub fn hold_books(
    word_for: impl Fn(&Exchange, usize, usize) -> Result<i32, Refusal>,
    fill: impl Fn(&Exchange, usize, [Vec<i32>; 2]) -> Result<[Vec<i32>; 2], Refusal>,
) {
    for &(given, p, received, answer) in BOOKS {
        with(given, |e| {
            let before = [vec![UNTOUCHED; SLOTS], vec![UNTOUCHED; SLOTS]];
            let [words, votes] = fill(e, p, before).expect("a book filled");
            for &(slot, word) in received {
                assert_eq!(word_for(e, p, slot), word, "card {p} slot {slot} of {given:?}");
                assert_eq!(words[slot], word.unwrap_or(UNTOUCHED), "card {p} slot {slot}");
            }
            assert_eq!(votes[0], answer, "card {p} of {given:?}");
        });
    }
}
