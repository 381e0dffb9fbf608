//! Frames worked by hand, damaged, cut and made up, and the exchange numbers.

#[path = "../../tests/cases/frames.rs"]
mod cases;
#[path = "../../tests/cases/paths.rs"]
mod paths;

use cases::{hold_ages, hold_reading, hold_writing, SAMPLE_FRAME};
use linked::book::Book;
use linked::contradictions::Met;
use linked::ffi::FIELDS;
use linked::frames::{
    age, any_record, class_number, damage, frame_of, next_exchange, read, record_for, well_formed,
    write,
};
use linked::random::Random;
use linked::settings::{all_rounds, live_slots, of_rounds};
use linked::tally::Tally;
use linked::words::{word, words};
use paths::PATHS;
use second::frames::{Record, FRAME_LENGTH};
use second::paths::{Settings, SLOTS};
use second::words::E;
use second::Refusal;

fn places(random: &mut Random) -> [i32; FIELDS] {
    [(); FIELDS].map(|()| random.bits() as i32)
}

#[test]
fn worked_frames() {
    hold_ages(age, next_exchange);
    hold_reading(|frame| read(frame, [9; FIELDS]));
    hold_writing(|record, buffer| write(record, &buffer));
}

/// What comes of entering a frame, and the answer then held.
type Entered = (Result<(), Refusal>, i32);

/// A frame by the bytes in which it is other than the sample, which relay 2 sends: what
/// comes of it while the exchange number is 3, and then while it is 4.
type Arrival = (&'static str, &'static [(usize, u8)], Entered, Entered);

/// Frames for card 1 of four with one round and the sender 0: all come in this order while
/// the number is 3, and all again while it is 4.
const ARRIVALS: &[Arrival] = &[
    ("the sender's word", &[(8, 0), (9, 255)], (Ok(()), -120), (Err(12), -120)),
    (
        "relay 3, word 500",
        &[(9, 3), (13, 0), (14, 0), (15, 1), (16, 244)],
        (Ok(()), E),
        (Err(12), -120),
    ),
    ("exchange 2", &[(6, 2)], (Err(12), E), (Err(12), -120)),
    ("exchange 4", &[(6, 4)], (Err(13), E), (Ok(()), -120)),
    ("receiver 2", &[(12, 2)], (Err(15), E), (Err(12), -120)),
    ("sender 1", &[(7, 1)], (Err(15), E), (Err(12), -120)),
    ("mark OMX", &[(2, b'X')], (Err(10), E), (Err(10), -120)),
    ("version 2", &[(4, 2)], (Err(11), E), (Err(11), -120)),
    ("exchange 2, level 4", &[(6, 2), (8, 4), (10, 2), (11, 2)], (Err(14), E), (Err(14), -120)),
    ("exchange 2, receiver 2", &[(6, 2), (12, 2)], (Err(12), E), (Err(12), -120)),
    ("relay 1, receiver 2", &[(9, 1), (12, 2)], (Err(15), E), (Err(12), -120)),
    ("relay 1, the receiver", &[(9, 1)], (Err(8), E), (Err(12), -120)),
    ("level 2, over m", &[(8, 2), (10, 3)], (Err(8), E), (Err(12), -120)),
    ("relay 2, word -120", &[], (Ok(()), -120), (Err(12), -120)),
    // Relay 2 has told -120 in exchange 3 and in exchange 4.
    ("exchange 4, word -119", &[(6, 4), (16, 137)], (Err(13), -120), (Ok(()), E)),
];

#[test]
fn worked_arrivals() {
    let settings = Settings { n: 4, m: 1, t: 0, p: 1 };
    let mut book = Book::new(vec![0; SLOTS], vec![0; SLOTS]);
    assert_eq!(book.open(settings), Ok(()));
    assert_eq!(book.held_answer(9), Ok(E));
    let at_3 = ARRIVALS.iter().map(|&(about, bytes, entered, _)| (3, about, bytes, entered));
    let at_4 = ARRIVALS.iter().map(|&(about, bytes, _, entered)| (4, about, bytes, entered));
    for (current, about, bytes, (outcome, held)) in at_3.chain(at_4) {
        let mut frame = SAMPLE_FRAME;
        bytes.iter().for_each(|&(place, byte)| frame[place] = byte);
        let came = book.enter_frame(settings, current, &frame).map(drop);
        assert_eq!(came, outcome, "{about}, at {current}");
        assert_eq!(book.held_answer(9), Ok(held), "{about}, at {current}");
    }
}

/// A frame's word is stored at its path's slot, and the votes there and above are re-made.
#[test]
fn worked_paths() {
    let settings = Settings { n: 10, m: 3, t: 4, p: 6 };
    for (level, relays, slot, above) in PATHS {
        // No vote that is made is a bad word.
        let mut book = Book::new(vec![E; SLOTS], vec![i32::MIN; SLOTS]);
        let record = Record { exchange: 3, sender: 4, level, relays, receiver: 6, word: -120 };
        assert_eq!(book.enter_frame(settings, 3, &frame_of(&record)), Ok(Met::E), "{record:?}");
        let places = |list: &[i32], before| {
            (0..SLOTS).rev().filter(|&place| list[place] != before).collect::<Vec<_>>()
        };
        assert_eq!(places(book.words(), E), [slot], "{record:?}");
        assert_eq!(places(book.votes(), i32::MIN), [&[slot], above].concat(), "{record:?}");
    }
}

#[test]
fn every_byte_of_a_frame_damaged_by_every_value() {
    let mut random = Random::new("damaged frames");
    let mut outcomes = Tally::default();
    for _ in 0..300 {
        let mut frame = frame_of(&well_formed(&mut random));
        let before = places(&mut random);
        for place in 0..FRAME_LENGTH {
            let kept = frame[place];
            for byte in 0..=255 {
                frame[place] = byte;
                outcomes.count(read(&frame, before));
            }
            frame[place] = kept;
        }
    }
    outcomes.expect(&[0, 10, 11, 14], 100_000);
}

/// A book for each n and m, opened or of any words, and a frame for it of which every byte
/// takes every value.
#[test]
fn every_byte_of_an_entered_frame_damaged_by_every_value() {
    let mut random = Random::new("damaged frames entered");
    let mut outcomes = Tally::default();
    for (n, m) in all_rounds() {
        let settings = of_rounds(&mut random, n, m);
        let any = words(&mut random, SLOTS);
        let received = if random.one_in(4) { any } else { vec![E; SLOTS] };
        let votes = words(&mut random, SLOTS);
        let (current, slot) = (random.bits() as u16, random.pick(&live_slots(settings)));
        let record = record_for(settings, current, slot, word(&mut random));
        let mut frame = frame_of(&record);
        for place in 0..FRAME_LENGTH {
            let kept = frame[place];
            for byte in 0..=255 {
                frame[place] = byte;
                let mut book = Book::new(received.clone(), votes.clone());
                outcomes.count(book.enter_frame(settings, current, &frame));
            }
            frame[place] = kept;
        }
    }
    outcomes.expect(&[0, 8, 10, 11, 12, 13, 14, 15], 50);
}

#[test]
fn frames_and_buffers_of_every_length() {
    let mut random = Random::new("lengths");
    let (mut reads, mut writes) = (Tally::default(), Tally::default());
    for length in 0..=40 {
        for _ in 0..1_000 {
            let mut frame = frame_of(&any_record(&mut random)).to_vec();
            frame.resize(length, 0);
            reads.count(read(&frame, places(&mut random)));
            reads.count(read(&random.bytes(length), places(&mut random)));
            writes.count(write(&any_record(&mut random), &random.bytes(length)));
        }
    }
    reads.expect(&[0, 9, 10, 14], 100);
    writes.expect(&[0, 5, 14], 100);
}

#[test]
fn frames_made_up() {
    let mut random = Random::new("frames made up");
    let (mut reads, mut writes) = (Tally::default(), Tally::default());
    for _ in 0..500_000 {
        let record = any_record(&mut random);
        let mut frame = frame_of(&record).to_vec();
        if random.one_in(3) {
            damage(&mut random, &mut frame);
        }
        reads.count(read(&frame, places(&mut random)));
        writes.count(write(&record, &random.bytes(FRAME_LENGTH)));
    }
    reads.expect(&[0, 9, 10, 11, 14], 10_000);
    writes.expect(&[0, 14], 10_000);
}

#[test]
fn every_next_number() {
    for number in 0..=u16::MAX {
        next_exchange(number);
    }
}

/// 0, or the number with which a frame of this age is refused.
fn class(current: u16, frame: u16) -> u8 {
    class_number(age(current, frame).1)
}

/// Exchange numbers around each power of two, and a grid between them.
#[test]
fn ages_on_a_grid() {
    let powers = (0..=16).map(|power| 1usize << power);
    let near = powers.flat_map(|power| power - 1..=power + 1);
    let numbers: Vec<u16> = near.chain((0..65_536).step_by(257)).map(|near| near as u16).collect();
    let mut outcomes = Tally::default();
    for &current in &numbers {
        for &frame in &numbers {
            outcomes.add(class(current, frame));
        }
    }
    outcomes.expect(&[0, 12, 13], 200);
}

#[test]
fn a_million_ages() {
    let mut random = Random::new("ages");
    let mut outcomes = Tally::default();
    for _ in 0..1_000_000 {
        let current = random.bits() as u16;
        outcomes.add(class(current, random.bits() as u16));
        // Ages near 0 and near half the way round.
        let near = current.wrapping_add(random.pick(&[0, 1 << 15]));
        outcomes.add(class(current, near.wrapping_add(random.below(5) as u16).wrapping_sub(2)));
    }
    outcomes.expect(&[0, 12, 13], 50_000);
}
