//! Document 02, Q-1: the long list, and Q-2 in it. Its places are worked by hand: a sender's
//! words stand from 2,222 t on, its votes from 2,222 t + 1,111 on.

use second::paths::Settings;
use second::words::E;
use second::Refusal;
use Call::{Enter, EnterFrame, Open, Refill};

const E1: i32 = E + 1;

/// Contradicted.
const C: i32 = 1_000_000_009;

/// The length of the list.
const LENGTH: usize = 22_220;

#[derive(Clone, Copy, Debug)]
pub enum Call {
    Open,
    /// A slot and a word.
    Enter(usize, i32),
    /// The current exchange number and a frame.
    EnterFrame(u16, &'static [u8]),
    Refill,
}

/// A sender, the first place of its book and the first after it.
const PARTS: [(usize, usize, usize); 10] = [
    (0, 0, 2_222),
    (1, 2_222, 4_444),
    (2, 4_444, 6_666),
    (3, 6_666, 8_888),
    (4, 8_888, 11_110),
    (5, 11_110, 13_332),
    (6, 13_332, 15_554),
    (7, 15_554, 17_776),
    (8, 17_776, 19_998),
    (9, 19_998, 22_220),
];

/// Places of the list, each with the word that it then holds.
type Places = &'static [(usize, i32)];

/// n, m, t and p; a call; what comes of it; and what it changes.
type Step = ([usize; 4], Call, Result<(), Refusal>, Places);

const DONE: Result<(), Refusal> = Ok(());

/// Card 1 of four with one round; slots 0, 1 and 4 are live for sender 2, slot 0 alone for
/// sender 1.
const SENDER_0: [usize; 4] = [4, 1, 0, 1];
const SENDER_1: [usize; 4] = [4, 1, 1, 1];
const SENDER_2: [usize; 4] = [4, 1, 2, 1];

/// Card 6 of ten with three rounds; slot 839 is the path by 7, 2 and 8.
const SENDER_9: [usize; 4] = [10, 3, 9, 6];

/// To card 1 in exchange 3, by relay 3: the sender 2 told it 30. Then the sender 0.
const FRAME_OF_2: &[u8] = b"OMH\x00\x01\x00\x03\x02\x01\x03\xFF\xFF\x01\x00\x00\x00\x1E";
const FRAME_OF_0: &[u8] = b"OMH\x00\x01\x00\x03\x00\x01\x03\xFF\xFF\x01\x00\x00\x00\x1E";

/// The same relay again: the sender 2 told it 31.
const OTHER_OF_2: &[u8] = b"OMH\x00\x01\x00\x03\x02\x01\x03\xFF\xFF\x01\x00\x00\x00\x1F";

/// Calls on a list that is all E.
const STEPS: &[Step] = &[
    (SENDER_2, Enter(1, 10), DONE, &[(4_445, 10), (5_556, 10)]),
    (SENDER_2, Enter(0, 10), DONE, &[(4_444, 10), (5_555, 10)]),
    // The other senders' books have the same slots at other places.
    (SENDER_1, Enter(0, -5), DONE, &[(2_222, -5), (3_333, -5)]),
    (SENDER_0, Enter(3, 7), DONE, &[(3, 7), (1_114, 7)]),
    (SENDER_9, Enter(839, 900), DONE, &[(20_837, 900), (21_948, 900)]),
    (SENDER_9, Enter(83, 900), DONE, &[(20_081, 900), (21_192, 900)]),
    (SENDER_9, Enter(8, 900), DONE, &[(20_006, 900), (21_117, 900)]),
    (SENDER_9, Enter(0, 900), DONE, &[(19_998, 900), (21_109, 900)]),
    // Frames go to the book of their sender and no other.
    (SENDER_2, EnterFrame(3, FRAME_OF_2), DONE, &[(4_448, 30), (5_559, 30)]),
    (SENDER_0, EnterFrame(3, FRAME_OF_0), DONE, &[(4, 30), (1_115, 30)]),
    (SENDER_0, EnterFrame(3, FRAME_OF_2), Err(15), &[]),
    (SENDER_2, EnterFrame(3, FRAME_OF_0), Err(15), &[]),
    (SENDER_1, EnterFrame(3, FRAME_OF_2), Err(15), &[]),
    (SENDER_9, EnterFrame(3, FRAME_OF_2), Err(15), &[]),
    (SENDER_2, EnterFrame(4, FRAME_OF_2), Err(12), &[]),
    (SENDER_2, EnterFrame(2, FRAME_OF_2), Err(13), &[]),
    // Slot 1 is relay 0's, who is no relay where it is the sender.
    (SENDER_0, Enter(1, 10), Err(8), &[]),
    (SENDER_1, Enter(4, 10), Err(8), &[]),
    (SENDER_2, Enter(3, 10), Err(8), &[]),
    ([11, 1, 2, 1], Enter(1, 20), Err(1), &[]),
    ([4, 4, 2, 1], Enter(1, 20), Err(2), &[]),
    ([4, 1, 4, 1], Enter(1, 20), Err(3), &[]),
    ([4, 1, 2, 4], Enter(1, 20), Err(4), &[]),
    // A second word on a path: 10, 10 and 30 becomes 10, E and 30; then 10, E and E.
    (SENDER_2, Enter(1, 10), DONE, &[]),
    (SENDER_2, Enter(1, 30), DONE, &[(4_445, C), (5_556, E), (5_555, E)]),
    (SENDER_2, Enter(1, 10), DONE, &[]),
    (SENDER_2, EnterFrame(3, FRAME_OF_2), DONE, &[]),
    (SENDER_2, EnterFrame(4, OTHER_OF_2), Err(12), &[]),
    (SENDER_0, EnterFrame(3, OTHER_OF_2), Err(15), &[]),
    (SENDER_2, EnterFrame(3, OTHER_OF_2), DONE, &[(4_448, C), (5_559, E), (5_555, 10)]),
    (SENDER_2, EnterFrame(3, FRAME_OF_2), DONE, &[]),
    // The same slots of other senders are not contradicted by that.
    (SENDER_0, Enter(4, 30), DONE, &[]),
    (SENDER_1, Enter(0, -5), DONE, &[]),
    (SENDER_1, Enter(0, E), DONE, &[(2_222, C), (3_333, E)]),
    (SENDER_9, Enter(839, 900), DONE, &[]),
    (SENDER_9, Enter(839, 901), DONE, &[(20_837, C), (21_948, E)]),
    // Every vote is as refilling makes it. Opening clears one sender's book.
    (SENDER_2, Refill, DONE, &[]),
    (SENDER_9, Refill, DONE, &[]),
    (SENDER_0, Open, DONE, &[(3, E), (4, E), (1_114, E), (1_115, E)]),
    (SENDER_2, Enter(1, 10), DONE, &[]),
    (SENDER_2, Open, DONE, &[(4_444, E), (4_445, E), (4_448, E), (5_555, E)]),
    (SENDER_2, Enter(1, 10), DONE, &[(4_445, 10), (5_556, 10)]),
    (SENDER_1, Enter(0, -5), DONE, &[]),
];

/// What somebody else has written into a list that is all E: words of sender 2 and of sender
/// 1, and a word and a vote of sender 2 at slot 3, which is not live.
const WRITTEN: Places =
    &[(4_444, 10), (4_445, 30), (4_448, E1), (4_447, 8), (5_558, 9), (2_222, 11), (2_225, 12)];

/// Calls on that list.
const AFTER_WRITING: &[Step] = &[
    ([4, 1, 2, 4], Refill, Err(4), &[]),
    ([4, 1, 4, 1], Refill, Err(3), &[]),
    (SENDER_2, Refill, DONE, &[(5_556, 30), (5_559, E1)]),
    (SENDER_1, Refill, DONE, &[(3_333, 11)]),
    (SENDER_0, Refill, DONE, &[]),
    ([4, 1, 4, 1], Open, Err(3), &[]),
];

fn changed(list: &[i32], places: Places) -> Vec<i32> {
    let mut list = list.to_vec();
    places.iter().for_each(|&(place, word)| list[place] = word);
    list
}

/// What a call yields, and the list after it.
pub type Made = (Result<(), Refusal>, Vec<i32>);

/// Holds a program's long list to the tables.
pub fn hold_long_lists(make: impl Fn(Settings, Call, Vec<i32>) -> Made) {
    for (t, first, after) in PARTS {
        let (opened, list) = make(Settings { n: 10, m: 3, t, p: 4 }, Open, vec![7; LENGTH]);
        let expected = [vec![7; first], vec![E; after - first], vec![7; LENGTH - after]].concat();
        assert!(opened == DONE && list == expected, "sender {t}");
    }
    for (written, steps) in [(&[][..], STEPS), (WRITTEN, AFTER_WRITING)] {
        let mut list = changed(&[E; LENGTH], written);
        for step in steps {
            let &([n, m, t, p], call, outcome, places) = step;
            let expected = changed(&list, places);
            let came;
            (came, list) = make(Settings { n, m, t, p }, call, list);
            assert_eq!(came, outcome, "{step:?}");
            let differs = (0..LENGTH).find(|&place| list[place] != expected[place]);
            assert_eq!(differs, None, "a place of the list: {step:?}");
        }
    }
}
