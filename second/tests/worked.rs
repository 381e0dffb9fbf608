//! Document 01's section "Worked by hand" and the rules around it, and document 02's requests
//! run case by case. The tables in `cases` are run by the package `linked` too,
//! with both programs.

mod cases {
    pub mod books;
    pub mod contradictions;
    pub mod exchanges;
    pub mod frames;
    pub mod given;
    pub mod listings;
    pub mod outcomes;
    pub mod paths;
    pub mod slots;
    pub mod votes;
    pub mod words;
}

use cases::books::{hold_long_lists, Call};
use cases::contradictions::{self, hold_contradictions, hold_left};
use cases::exchanges::{hold_books, hold_exchanges};
use cases::frames::{hold_ages, hold_reading, hold_writing};
use cases::given::with;
use cases::listings::{bytes_of, hold_listings, EXAMPLE, EXAMPLE_LISTING};
use cases::outcomes::hold_outcomes;
use cases::slots::{hold_live, hold_slots};
use cases::votes::hold_votes;
use cases::words::{hold_majorities, hold_words, WORDS};
use second::book::{self, CONTRADICTED};
use second::books::{self, BOOKS};
use second::exchange::{self, bound_holds, Exchange, PLACES};
use second::frames::{self, age, age_class, next_exchange, AgeClass, Record};
use second::listing::listing;
use second::outcome;
use second::paths::{live, path_at, slot_above, slot_of, slot_of_path, Settings, SLOTS};
use second::vote;
use second::words::{kind, majority, read_at, unwrap, wrap, Kind, E};
use std::io::Write;
use std::process::{Command, Stdio};

const E1: i32 = E + 1;
const E2: i32 = E + 2;
const E3: i32 = E + 3;

/// A xorshift generator.
struct Random(u64);

impl Random {
    fn below(&mut self, end: usize) -> usize {
        self.0 ^= self.0 << 13;
        self.0 ^= self.0 >> 7;
        self.0 ^= self.0 << 17;
        (self.0 >> 33) as usize % end
    }

    /// Few different words, so that majorities are found, and some of every kind.
    fn word(&mut self) -> i32 {
        const WORDS: [i32; 17] = [
            5,
            5,
            5,
            -5,
            -5,
            999_999_999,
            -999_999_999,
            E,
            E1,
            E1,
            E2,
            E3,
            1_000_000_004,
            CONTRADICTED,
            -1_000_000_000,
            i32::MIN,
            i32::MAX,
        ];
        WORDS[self.below(WORDS.len())]
    }

    fn words(&mut self, length: usize) -> Vec<i32> {
        (0..length).map(|_| self.word()).collect()
    }

    fn shuffle(&mut self, list: &mut [usize]) {
        for place in (1..list.len()).rev() {
            list.swap(place, self.below(place + 1));
        }
    }
}

/// Every setting that is not refused.
fn all_settings(most_cards: usize) -> Vec<Settings> {
    let mut all = Vec::new();
    for n in 1..=most_cards {
        for m in 0..n.min(4) {
            for t in 0..n {
                all.extend((0..n).map(|p| Settings { n, m, t, p }));
            }
        }
    }
    all
}

fn is_live(s: Settings, slot: usize) -> bool {
    live(s.n, s.m, s.t, s.p, slot).unwrap()
}

fn live_slots(s: Settings) -> Vec<usize> {
    (0..SLOTS).filter(|&slot| is_live(s, slot)).collect()
}

/// A table of E but for some words, each given with its slot and receiver.
fn table_with(entries: &[(usize, usize, i32)]) -> Vec<i32> {
    let mut table = vec![E; PLACES];
    for &(slot, receiver, word) in entries {
        table[10 * slot + receiver] = word;
    }
    table
}

/// The first n places of all answers.
fn all_answers(exchange: &Exchange) -> Vec<i32> {
    let mut list = [77; 10];
    exchange::answers(exchange, &mut list).unwrap();
    assert!(list[exchange.n..].iter().all(|&untouched| untouched == 77));
    list[..exchange.n].to_vec()
}

// Words

#[test]
fn worked_words() {
    for (word, kind_of, ..) in WORDS {
        assert_eq!(kind(word), kind_of, "{word}");
    }
    hold_words(read_at, wrap, unwrap);
}

#[test]
fn unwrapping_undoes_wrapping() {
    let mut random = Random(11);
    for word in random.words(200) {
        for level in 0..=2 {
            let read = read_at(level, word);
            assert_ne!(wrap(read), E);
            assert_eq!(unwrap(wrap(read)), read);
        }
    }
}

#[test]
fn worked_majorities() {
    hold_majorities(majority);
}

#[test]
fn majority_needs_more_than_half() {
    let mut random = Random(12);
    for _ in 0..20_000 {
        let length = random.below(10);
        let list = random.words(length);
        let left = list.iter().filter(|&&word| word != E).count();
        let won = list.iter().find(|&word| {
            *word != E && 2 * list.iter().filter(|&other| other == word).count() > left
        });
        assert_eq!(majority(&list), won.copied().unwrap_or(E), "{list:?}");
    }
}

// Settings and paths

#[test]
fn worked_slots() {
    hold_slots(slot_of, slot_above);
}

#[test]
fn worked_live_slots() {
    hold_live(Settings::check, |s, slot| live(s.n, s.m, s.t, s.p, slot));
}

#[test]
fn every_slot_has_its_path() {
    for slot in 0..SLOTS {
        let path = path_at(slot).unwrap();
        assert_eq!(slot_of_path(&path), Ok(slot));
        let above = path.split_last().map(|(_, above)| slot_of_path(above).unwrap());
        assert_eq!(slot_above(slot).ok(), above);
        let mut relays = [usize::MAX; 3];
        relays[..path.len()].copy_from_slice(&path);
        assert_eq!(slot_of(path.len(), relays), Ok(slot));
    }
    assert_eq!(slot_of_path(&[0, 1, 2, 3]), Err(8));
    assert_eq!((path_at(1_111), path_at(usize::MAX)), (None, None));
}

#[test]
fn live_slots_are_as_many_as_paths_of_other_cards() {
    for s in all_settings(10) {
        let mut expected = 1;
        let mut paths = 1;
        for level in 0..s.m {
            paths *= (s.n - 1).saturating_sub(1 + level);
            expected += paths;
        }
        if s.p == s.t {
            expected = 1;
        }
        assert_eq!(live_slots(s).len(), expected, "{s:?}");
        assert!(is_live(s, 0));
        assert!(!is_live(s, 1_111) && !is_live(s, usize::MAX));
    }
}

// The vote

/// Settings that are refused with 1, 2, 3 and 4, each with every later fault as well.
fn refused_settings() -> [(u8, Settings); 4] {
    let far = usize::MAX;
    [
        (1, Settings { n: 11, m: far, t: far, p: far }),
        (2, Settings { n: 4, m: 4, t: far, p: far }),
        (3, Settings { n: 4, m: 1, t: 4, p: far }),
        (4, Settings { n: 4, m: 1, t: 0, p: 4 }),
    ]
}

const FOUR: Settings = Settings { n: 4, m: 1, t: 0, p: 1 };

#[test]
fn votes_are_refused_in_order() {
    for (number, settings) in refused_settings() {
        assert_eq!(vote::vote_at(settings, &[], usize::MAX), Err(number));
        assert_eq!(vote::answer(settings, &[]), Err(number));
    }
    for length in [0, 1, 1_110, 1_112] {
        assert_eq!(vote::vote_at(FOUR, &vec![E; length], usize::MAX), Err(5));
        assert_eq!(vote::answer(FOUR, &vec![E; length]), Err(5));
    }
    for slot in [1, 2, 5, 11, 1_110, 1_111, usize::MAX] {
        assert_eq!(vote::vote_at(FOUR, &[E; SLOTS], slot), Err(8));
    }
    assert_eq!(vote::vote_at(FOUR, &[E; SLOTS], 3), Ok(E));
}

#[test]
fn worked_votes() {
    hold_votes(vote::vote_at);
}

#[test]
fn answers_are_ordinary_or_missing() {
    let mut random = Random(13);
    for s in all_settings(6) {
        let words = random.words(SLOTS);
        let answer = vote::answer(s, &words).unwrap();
        assert!(answer == E || kind(answer) == Kind::Ordinary);
        let mut others = random.words(SLOTS);
        for slot in live_slots(s) {
            others[slot] = words[slot];
        }
        for slot in (0..SLOTS).step_by(7) {
            assert_eq!(vote::vote_at(s, &words, slot), vote::vote_at(s, &others, slot));
        }
        assert_eq!(vote::answer(s, &others), Ok(answer));
    }
}

// The book

/// What the words accepted on one path leave, by Q-2 in closed form.
fn left_by(accepted: &[i32]) -> i32 {
    let told: Vec<i32> = accepted.iter().copied().skip_while(|&word| word == E).collect();
    match told.iter().min() {
        None => E,
        least if least == told.iter().max() => told[0],
        _ => 1_000_000_009,
    }
}

/// Enters random words in random order and compares every vote after each entering.
fn enter_and_compare(s: Settings, enterings: usize, random: &mut Random) {
    let (mut words, mut votes) = (random.words(SLOTS), random.words(SLOTS));
    book::open(s, &mut words, &mut votes).unwrap();
    assert!(words.iter().chain(&votes).all(|&word| word == E));
    let (mut expected_words, mut accepted) = (words.clone(), vec![vec![]; SLOTS]);
    let mut order = live_slots(s);
    random.shuffle(&mut order);
    for entering in 0..enterings {
        let (slot, word) = (order[entering % order.len()], random.word());
        book::enter(s, &mut words, &mut votes, slot, word).unwrap();
        accepted[slot].push(word);
        expected_words[slot] = left_by(&accepted[slot]);
        assert_eq!(words, expected_words);
        let mut expected_votes = vec![E; SLOTS];
        book::refill(s, &words, &mut expected_votes).unwrap();
        assert_eq!(votes, expected_votes, "{s:?} slot {slot}");
        assert_eq!(book::held_answer(&words, &votes), vote::answer(s, &words));
    }
}

#[test]
fn entering_keeps_the_votes_of_small_books() {
    let mut random = Random(14);
    for s in all_settings(5) {
        let enterings = 2 * live_slots(s).len();
        enter_and_compare(s, enterings, &mut random);
    }
}

#[test]
fn entering_keeps_the_votes_of_the_greatest_book() {
    let mut random = Random(15);
    enter_and_compare(Settings { n: 10, m: 3, t: 4, p: 9 }, 401, &mut random);
    enter_and_compare(Settings { n: 10, m: 2, t: 9, p: 0 }, 65, &mut random);
}

#[test]
fn held_votes_are_read_before_they_are_counted() {
    let (mut words, mut votes) = (vec![E; SLOTS], vec![E2; SLOTS]);
    book::enter(FOUR, &mut words, &mut votes, 0, 10).unwrap();
    assert_eq!(votes[0], 10, "E2 reads as E at level 1");
    (votes[3], votes[4]) = (E1, E1);
    book::enter(FOUR, &mut words, &mut votes, 0, 10).unwrap();
    assert_eq!(votes[0], E, "E1 at level 1 has the majority");
    (votes[3], votes[4]) = (i32::MIN, 12);
    book::enter(FOUR, &mut words, &mut votes, 3, 10).unwrap();
    assert_eq!((votes[3], votes[4], votes[0]), (10, 12, 10));
    assert!(votes[5..].iter().all(|&vote| vote == E2));
}

#[test]
fn entering_stores_the_word_unread() {
    let (mut words, mut votes) = (vec![7; SLOTS], vec![7; SLOTS]);
    for word in [i32::MIN, i32::MAX, E3, E2] {
        book::open(FOUR, &mut words, &mut votes).unwrap();
        book::enter(FOUR, &mut words, &mut votes, 4, word).unwrap();
        assert_eq!((words[4], votes[4]), (word, E));
    }
    let only_zero = Settings { p: 0, ..FOUR };
    book::enter(only_zero, &mut words, &mut votes, 0, E1).unwrap();
    assert_eq!((words[0], votes[0]), (E1, E));
    assert_eq!(book::enter(only_zero, &mut words, &mut votes, 3, 5), Err(8));
}

#[test]
fn refilling_and_the_held_answer() {
    let mut random = Random(16);
    for s in all_settings(5) {
        let (words, before) = (random.words(SLOTS), random.words(SLOTS));
        let mut votes = before.clone();
        book::refill(s, &words, &mut votes).unwrap();
        for slot in 0..SLOTS {
            let made = vote::vote_at(s, &words, slot);
            assert_eq!(votes[slot], made.unwrap_or(before[slot]));
        }
    }
    let mut votes = [E; SLOTS];
    votes[0] = i32::MIN;
    assert_eq!(book::held_answer(&[E; SLOTS], &votes), Ok(i32::MIN), "as it stands");
}

#[test]
fn book_calls_are_refused_in_order_and_change_nothing() {
    let lengths = [(0, 0), (1_110, SLOTS), (SLOTS, 1_112), (SLOTS, SLOTS)];
    for (words_length, votes_length) in lengths {
        let (mut words, mut votes) = (vec![6; words_length], vec![8; votes_length]);
        let fits = words_length == SLOTS && votes_length == SLOTS;
        let mut cases = refused_settings().to_vec();
        cases.push((if fits { 8 } else { 5 }, FOUR));
        for (number, s) in cases {
            for slot in [1, 5, 1_111, usize::MAX] {
                assert_eq!(book::enter(s, &mut words, &mut votes, slot, 3), Err(number));
            }
            if number != 8 {
                assert_eq!(book::open(s, &mut words, &mut votes), Err(number));
                assert_eq!(book::refill(s, &words, &mut votes), Err(number));
            }
        }
        assert_eq!(book::held_answer(&words, &votes), if fits { Ok(8) } else { Err(5) });
        assert!(words.iter().all(|&word| word == 6) && votes.iter().all(|&vote| vote == 8));
    }
}

// Frames

#[test]
fn worked_ages() {
    hold_ages(
        |current, frame| (age(current, frame), age_class(age(current, frame))),
        next_exchange,
    );
    assert_eq!([0, 1, 32_767].map(age_class), [AgeClass::Current, AgeClass::Old, AgeClass::Old]);
    assert_eq!([32_768, 65_535].map(age_class), [AgeClass::Ahead; 2]);
}

#[test]
fn exchange_numbers_run_free() {
    for number in 0..=u16::MAX {
        assert_eq!(age(next_exchange(number), number), 1);
        assert_eq!(age(number, next_exchange(number)), 65_535);
        assert_eq!(age(number, number), 0);
    }
}

const RECORD: Record = Record {
    exchange: 0x0203,
    sender: 0,
    level: 1,
    relays: [2, 255, 255],
    receiver: 1,
    word: -120,
};

const FRAME: [u8; 17] = [79, 77, 72, 0, 1, 2, 3, 0, 1, 2, 255, 255, 1, 0xFF, 0xFF, 0xFF, 0x88];

#[test]
fn worked_frames() {
    hold_reading(frames::read);
    hold_writing(|record, mut buffer| frames::write(record, &mut buffer).map(|()| buffer));
}

#[test]
fn frames_are_laid_out_as_written_down() {
    let mut buffer = [0; 17];
    assert_eq!(frames::write(&RECORD, &mut buffer), Ok(()));
    assert_eq!(buffer, FRAME);
    assert_eq!(frames::read(&FRAME), Ok(RECORD));
}

#[test]
fn what_is_written_is_read_again() {
    const BYTES: [u8; 8] = [0, 1, 2, 3, 4, 9, 10, 255];
    let mut random = Random(17);
    let (mut good, mut refused) = (0, 0);
    for _ in 0..50_000 {
        let mut byte = || BYTES[random.below(8)];
        let mut record = Record {
            exchange: u16::from_be_bytes([byte(), byte()]),
            sender: byte() % 12,
            level: byte() % 5,
            relays: [byte(), byte(), byte()],
            receiver: byte() % 12,
            word: random.word(),
        };
        if random.below(2) == 0 {
            record.relays.iter_mut().skip(record.level.into()).for_each(|relay| *relay = 255);
        }
        let mut buffer = [33; 17];
        match frames::write(&record, &mut buffer) {
            Ok(()) => {
                good += 1;
                assert_eq!(frames::read(&buffer), Ok(record));
            }
            Err(number) => {
                refused += 1;
                assert_eq!((number, buffer), (14, [33; 17]));
            }
        }
    }
    assert!(good > 1_000 && refused > 1_000);
}

#[test]
fn frames_are_refused_in_order() {
    for length in (0..100).filter(|&length| length != 17) {
        assert_eq!(frames::read(&vec![0; length]), Err(9));
        let mut buffer = vec![33; length];
        assert_eq!(frames::write(&Record { level: 4, ..RECORD }, &mut buffer), Err(5));
        assert_eq!(buffer, vec![33; length]);
    }
    let mut frame = [10; 17];
    assert_eq!(frames::read(&frame), Err(10));
    frame[0..3].copy_from_slice(b"OMX");
    assert_eq!(frames::read(&frame), Err(10));
    frame[0..3].copy_from_slice(b"OMH");
    assert_eq!(frames::read(&frame), Err(11));
    frame[3..5].copy_from_slice(&[0, 1]);
    assert_eq!(frames::read(&frame), Err(14));
    assert_eq!(frames::write(&Record { level: 4, ..RECORD }, &mut frame), Err(14));
}

#[test]
fn each_part_of_a_record_must_be_well_formed() {
    let deep = Record { level: 3, relays: [7, 2, 9], ..RECORD };
    let written = |record: Record| frames::write(&record, &mut [0; 17]);
    assert_eq!(written(deep), Ok(()));
    assert_eq!(written(Record { relays: [2, 2, 2], ..deep }), Ok(()), "repeated cards");
    assert_eq!(written(Record { level: 0, relays: [255; 3], ..deep }), Ok(()));
    for level in [0, 1, 2, 4, 5, 255] {
        assert_eq!(written(Record { level, ..deep }), Err(14));
    }
    for card in [10, 254, 255] {
        assert_eq!(written(Record { sender: card, ..deep }), Err(14));
        assert_eq!(written(Record { receiver: card, ..deep }), Err(14));
        assert_eq!(written(Record { relays: [card, 2, 9], ..deep }), Err(14));
        assert_eq!(written(Record { relays: [7, card, 9], ..deep }), Err(14));
        assert_eq!(written(Record { relays: [7, 2, card], ..deep }), Err(14));
    }
    let ten = Settings { n: 10, m: 3, t: 0, p: 1 };
    let (mut words, mut votes, mut frame) = ([E; SLOTS], [E; SLOTS], [0; 17]);
    frames::write(&deep, &mut frame).unwrap();
    frames::enter_frame(ten, &mut words, &mut votes, deep.exchange, &frame).unwrap();
    assert_eq!((words[840], votes[840]), (-120, -120));
}

/// What entering yields for FRAME with one byte changed, in the book of card 1.
fn outcome_of_damage(place: usize, byte: u8) -> Result<usize, u8> {
    match place {
        0..=2 => Err(10),
        3..=4 => Err(11),
        // The current number 0x0203 less the frame's tells the age.
        5 if byte <= 1 || byte >= 0x83 => Err(12),
        5 => Err(13),
        6 => Err(if byte < 3 { 12 } else { 13 }),
        7 | 12 if byte <= 9 => Err(15),
        // Level 0 uses no relay, levels 2 and 3 use more than there are.
        7 | 8 | 10 | 11 | 12 => Err(14),
        9 if byte > 9 => Err(14),
        9 if byte == 3 => Ok(4),
        9 => Err(8),
        _ => Ok(3),
    }
}

#[test]
fn every_byte_damaged_in_turn() {
    for place in 0..17 {
        for byte in (0..=255).filter(|&byte| byte != FRAME[place]) {
            let mut frame = FRAME;
            frame[place] = byte;
            let expected = outcome_of_damage(place, byte);
            let (mut words, mut votes) = ([E; SLOTS], [8; SLOTS]);
            let entered = frames::enter_frame(FOUR, &mut words, &mut votes, 0x0203, &frame);
            let (mut same_words, mut same_votes) = ([E; SLOTS], [8; SLOTS]);
            if let Ok(slot) = expected {
                let word = i32::from_be_bytes([frame[13], frame[14], frame[15], frame[16]]);
                book::enter(FOUR, &mut same_words, &mut same_votes, slot, word).unwrap();
            }
            assert_eq!(entered, expected.map(|_| ()), "byte {place} as {byte}");
            assert!(words == same_words && votes == same_votes);
            match expected {
                Err(number @ (10 | 11 | 14)) => assert_eq!(frames::read(&frame), Err(number)),
                _ => assert!(frames::read(&frame).is_ok()),
            }
        }
    }
}

#[test]
fn entering_frames_is_refused_in_order() {
    let (mut words, mut votes) = ([6; SLOTS], [8; SLOTS]);
    let mut enter = |s, length: usize, frame: &[u8], current| {
        let before = (words, votes);
        let outcome = frames::enter_frame(s, &mut words[..length], &mut votes, current, frame);
        assert!(outcome.is_ok() || before == (words, votes));
        outcome
    };
    for (number, s) in refused_settings() {
        assert_eq!(enter(s, 0, &[], 0), Err(number));
    }
    assert_eq!(enter(FOUR, 1_110, &[], 0), Err(5));
    assert_eq!(enter(FOUR, SLOTS, &[0; 16], 0), Err(9));
    let mut frame = [10; 17];
    assert_eq!(enter(FOUR, SLOTS, &frame, 0), Err(10));
    frame[0..3].copy_from_slice(b"OMH");
    assert_eq!(enter(FOUR, SLOTS, &frame, 0), Err(11));
    frame[3..7].copy_from_slice(&[0, 1, 0, 0]);
    assert_eq!(enter(FOUR, SLOTS, &frame, 1), Err(14));
    frame[7..13].copy_from_slice(&[3, 2, 2, 2, 255, 2]);
    assert_eq!(enter(FOUR, SLOTS, &frame, 1), Err(12));
    assert_eq!(enter(FOUR, SLOTS, &frame, 32_767), Err(12));
    assert_eq!(enter(FOUR, SLOTS, &frame, 32_768), Err(13));
    assert_eq!(enter(FOUR, SLOTS, &frame, 65_535), Err(13));
    assert_eq!(enter(FOUR, SLOTS, &frame, 0), Err(15));
    frame[7] = 0;
    assert_eq!(enter(FOUR, SLOTS, &frame, 0), Err(15));
    frame[12] = 1;
    assert_eq!(enter(FOUR, SLOTS, &frame, 0), Err(8));
    frame[8..12].copy_from_slice(&[1, 2, 255, 255]);
    assert_eq!(enter(FOUR, SLOTS, &frame, 0), Ok(()));
}

// The exchange on the bench

#[test]
fn worked_exchanges() {
    hold_exchanges(
        |e, mut list| exchange::answers(e, &mut list).map(|()| list.to_vec()),
        exchange::answer,
        bound_holds,
    );
}

#[test]
fn each_status_sends_its_word() {
    hold_books(exchange::word, |e, p, [mut words, mut votes]| {
        exchange::fill_book(e, p, &mut words, &mut votes).map(|()| [words, votes])
    });
}

/// A random exchange among 1 to 10 cards; faulty cards send any words.
fn random_exchange<'a>(
    random: &mut Random,
    statuses: &'a mut [u8; 10],
    table: &'a mut [i32],
) -> Exchange<'a> {
    let n = 1 + random.below(10);
    let m = random.below(n.min(4));
    statuses.fill(0);
    for _ in 0..random.below(4) {
        statuses[random.below(n)] = random.below(4) as u8;
    }
    for _ in 0..3_000 {
        table[random.below(PLACES)] = random.word();
    }
    Exchange { n, m, t: random.below(n), x: -5, statuses, table }
}

#[test]
fn good_cards_agree_where_the_bound_holds() {
    let mut random = Random(18);
    let (mut statuses, mut table) = ([0; 10], vec![5; PLACES]);
    let mut held = 0;
    for _ in 0..400 {
        let e = random_exchange(&mut random, &mut statuses, &mut table);
        if !bound_holds(e.n, e.m, e.statuses).unwrap() {
            continue;
        }
        held += 1;
        let answers = all_answers(&e);
        let good: Vec<i32> = (0..e.n).filter(|&p| e.statuses[p] == 0).map(|p| answers[p]).collect();
        let expected = match e.statuses[e.t] {
            0 => e.x,
            2 => read_at(0, e.table[0]),
            3 => E,
            _ => good[0],
        };
        assert!(good.iter().all(|&answer| answer == expected), "{good:?} for {expected}");
    }
    assert!(held > 100);
}

#[test]
fn a_filled_book_holds_what_was_dealt() {
    let mut random = Random(19);
    let (mut statuses, mut table) = ([0; 10], vec![5; PLACES]);
    for _ in 0..40 {
        let e = random_exchange(&mut random, &mut statuses, &mut table);
        let p = random.below(e.n);
        let s = Settings { n: e.n, m: e.m, t: e.t, p };
        let (mut words, mut votes) = ([6; SLOTS], [8; SLOTS]);
        exchange::fill_book(&e, p, &mut words, &mut votes).unwrap();
        for slot in 0..SLOTS {
            assert_eq!(words[slot], exchange::word(&e, p, slot).unwrap_or(6));
            assert_eq!(votes[slot], vote::vote_at(s, &words, slot).unwrap_or(8));
        }
        assert_eq!(exchange::answer(&e, p), Ok(votes[0]));
        assert_eq!(all_answers(&e)[p], votes[0]);
    }
}

#[test]
fn the_bound_counts_cards_below_n() {
    let bound = |n, m, given: &[u8]| {
        let mut statuses = [0; 10];
        statuses[..given.len()].copy_from_slice(given);
        bound_holds(n, m, &statuses)
    };
    assert_eq!(bound(4, 1, &[1]), Ok(true));
    assert_eq!(bound(4, 1, &[1, 3]), Ok(false));
    assert_eq!(bound(5, 1, &[1, 3]), Ok(true));
    assert_eq!(bound(5, 1, &[1, 2]), Ok(false));
    assert_eq!(bound(6, 1, &[1, 2]), Ok(true));
    assert_eq!(bound(10, 1, &[1, 1]), Ok(false), "a is over m");
    assert_eq!(bound(10, 3, &[1, 1, 1]), Ok(true));
    assert_eq!(bound(3, 2, &[0]), Ok(true));
    assert_eq!(bound(3, 2, &[3]), Ok(false));
    assert_eq!(bound(0, 9, &[]), Err(1));
    assert_eq!(bound(2, 2, &[9]), Err(2));
    assert_eq!(bound(2, 1, &[4]), Err(7));
    assert_eq!(bound(2, 1, &[0, 0, 1]), Err(7));
    assert_eq!(bound_holds(11, 9, &[]), Err(1));
    assert_eq!(bound_holds(usize::MAX, usize::MAX, &[9; 9]), Err(1));
    assert_eq!(bound_holds(4, 4, &[9; 9]), Err(2));
    assert_eq!(bound_holds(4, 1, &[9; 9]), Err(5));
    assert_eq!(bound_holds(4, 1, &[9; 11]), Err(5));
}

/// Calls the bench in each way and expects one refusal of all calls that take its cause.
fn expect_bench(e: &Exchange, p: usize, lengths: [usize; 3], number: u8) {
    let (mut words, mut votes, mut list) =
        (vec![6; lengths[0]], vec![8; lengths[1]], vec![9; lengths[2]]);
    assert_eq!(exchange::word(e, p, usize::MAX), Err(number));
    if number != 8 {
        assert_eq!(exchange::answer(e, p), Err(number));
        assert_eq!(exchange::fill_book(e, p, &mut words, &mut votes), Err(number));
    }
    if number != 4 && number != 8 {
        assert_eq!(exchange::answers(e, &mut list), Err(number));
    }
    assert!(words.iter().all(|&word| word == 6) && votes.iter().all(|&vote| vote == 8));
    assert!(list.iter().all(|&answer| answer == 9));
}

#[test]
fn the_bench_is_refused_in_order() {
    let table = table_with(&[]);
    let unknown = [0, 4, 0, 0, 0, 0, 0, 0, 0, 0];
    let beyond = [0, 0, 0, 0, 1, 0, 0, 0, 0, 0];
    let fit = [SLOTS, SLOTS, 10];
    for (number, s) in refused_settings() {
        let e = Exchange { n: s.n, m: s.m, t: s.t, x: E, statuses: &[9], table: &[] };
        expect_bench(&e, s.p, [0, 0, 0], number);
    }
    let good = Exchange { n: 4, m: 1, t: 0, x: 5, statuses: &[0; 10], table: &table };
    let bad_x = Exchange { x: -1_000_000_000, ..good };
    expect_bench(&Exchange { statuses: &unknown[..9], ..bad_x }, 1, fit, 5);
    expect_bench(&Exchange { statuses: &[9; 11], ..bad_x }, 1, fit, 5);
    expect_bench(&Exchange { statuses: &unknown, table: &table[1..], ..bad_x }, 1, fit, 5);
    expect_bench(&Exchange { statuses: &unknown, ..bad_x }, 1, fit, 7);
    expect_bench(&Exchange { statuses: &beyond, ..bad_x }, 1, fit, 7);
    for x in [i32::MIN, -1_000_000_000, E, E3, i32::MAX] {
        expect_bench(&Exchange { x, ..good }, 1, fit, 6);
    }
    expect_bench(&good, 1, fit, 8);
}

#[test]
fn the_bench_refuses_lists_of_another_length() {
    let table = table_with(&[]);
    let e = Exchange { n: 4, m: 1, t: 0, x: E, statuses: &[9; 10], table: &table };
    for length in [0, 4, 9, 11] {
        assert_eq!(exchange::answers(&e, &mut vec![9; length]), Err(5));
    }
    for (w, v) in [(0, 0), (1_110, SLOTS), (SLOTS, 1_112)] {
        let (mut words, mut votes) = (vec![6; w], vec![8; v]);
        assert_eq!(exchange::fill_book(&e, 1, &mut words, &mut votes), Err(5));
    }
}

// Two different words on one path

#[test]
fn worked_contradictions() {
    use contradictions::Call;
    hold_contradictions(|s, call, [mut words, mut votes]| {
        let (w, v) = (&mut words, &mut votes);
        let outcome = match call {
            Call::Open => book::open(s, w, v),
            Call::Enter(slot, word) => book::enter(s, w, v, slot, word),
            Call::EnterFrame(current, frame) => frames::enter_frame(s, w, v, current, &frame),
            Call::Refill => book::refill(s, w, v),
            Call::Fill(given) => with(given, |e| exchange::fill_book(e, s.p, w, v)),
            Call::Write(slot, vote) => {
                v[slot] = vote;
                Ok(())
            }
        };
        (outcome, [words, votes])
    });
}

/// Random words on random paths, by slot and by frame, some of them refused. A path's last
/// word comes again every other time.
#[test]
fn a_slot_holds_what_its_accepted_words_leave() {
    hold_left(left_by);
    let mut random = Random(22);
    let mut left = [0; 4];
    for s in all_settings(5) {
        let (mut words, mut votes) = (random.words(SLOTS), random.words(SLOTS));
        book::open(s, &mut words, &mut votes).unwrap();
        let mut accepted = vec![vec![]; SLOTS];
        for _ in 0..200 {
            if random.below(30) == 0 {
                book::open(s, &mut words, &mut votes).unwrap();
                accepted.fill(vec![]);
            }
            let slot = [random.below(6), random.below(SLOTS)][random.below(2)];
            let again = accepted[slot].last().filter(|_| random.below(2) == 0).copied();
            let word = again.unwrap_or_else(|| random.word());
            let before = accepted[slot].clone();
            if enter_somehow(s, [&mut words, &mut votes], (slot, word), &mut random).is_ok() {
                accepted[slot].push(word);
                left[kind_of_word(&before, word)] += 1;
            }
            let expected: Vec<i32> = accepted.iter().map(|told| left_by(told)).collect();
            assert!(words == expected, "{s:?} slot {slot}: {word} after {before:?}");
        }
    }
    assert!(left.iter().all(|&times| times > 500), "{left:?}");
}

/// Enters a word by slot or by frame, at times by a frame of the exchange before.
fn enter_somehow(
    s: Settings,
    [words, votes]: [&mut [i32]; 2],
    (slot, word): (usize, i32),
    random: &mut Random,
) -> Result<(), u8> {
    if random.below(2) == 0 {
        return book::enter(s, words, votes, slot, word);
    }
    let path = path_at(slot).unwrap();
    let mut relays = [255; 3];
    relays.iter_mut().zip(&path).for_each(|(place, &relay)| *place = relay as u8);
    let (sender, receiver, level) = (s.t as u8, s.p as u8, path.len() as u8);
    let mut frame = [0; 17];
    frames::write(&Record { exchange: 3, sender, level, relays, receiver, word }, &mut frame)?;
    frames::enter_frame(s, words, votes, [3, 3, 3, 4][random.below(4)], &frame)
}

/// 0 where a path has told nothing but E, 1 where it tells the same word again, 2 where
/// another one, 3 where it has told different words already.
fn kind_of_word(before: &[i32], word: i32) -> usize {
    match left_by(before) {
        E => 0,
        CONTRADICTED => 3,
        told if told == word => 1,
        _ => 2,
    }
}

// Every card is sender in turn

/// Makes a call on a long list.
fn call_books(s: Settings, call: Call, books: &mut [i32]) -> Result<(), u8> {
    match call {
        Call::Open => books::open(s, books),
        Call::Enter(slot, word) => books::enter(s, books, slot, word),
        Call::EnterFrame(current, frame) => books::enter_frame(s, books, current, frame),
        Call::Refill => books::refill(s, books),
    }
}

#[test]
fn worked_long_lists() {
    assert_eq!(BOOKS, 22_220);
    hold_long_lists(|s, call, mut books| (call_books(s, call, &mut books), books));
}

/// Each length but one is refused, that of n books too; the settings are looked at before,
/// the slot and the frame after.
#[test]
fn long_lists_are_refused_in_order_and_left_as_they_were() {
    let (no_slot, no_frame) = (Call::Enter(usize::MAX, 3), Call::EnterFrame(0, &[]));
    let calls =
        [(Call::Open, Ok(())), (Call::Refill, Ok(())), (no_slot, Err(8)), (no_frame, Err(9))];
    for length in [0, 1, SLOTS, 2 * SLOTS, 8 * SLOTS, BOOKS - 1, BOOKS, BOOKS + 1, 2 * BOOKS] {
        let fits = length == BOOKS;
        let mut cases = refused_settings().to_vec();
        cases.push((5, FOUR));
        let before = vec![6; length];
        for (number, s) in cases {
            for (call, done) in calls {
                let mut books = before.clone();
                let outcome = call_books(s, call, &mut books);
                let expected = if number == 5 && fits { done } else { Err(number) };
                assert_eq!(outcome, expected, "{length} {s:?} {call:?}");
                assert!(outcome.is_ok() || books == before, "{length} {s:?} {call:?}");
            }
        }
    }
}

/// The long list of a mixed run is ten books that are kept one by one.
#[test]
fn a_long_list_is_ten_books() {
    let mut random = Random(21);
    let mut books = random.words(BOOKS);
    let mut apart: Vec<(Vec<i32>, Vec<i32>)> =
        books.chunks(2_222).map(|part| (part[..1_111].to_vec(), part[1_111..].to_vec())).collect();
    for turn in 0..600 {
        let s = Settings { n: 10, m: 2, t: random.below(10), p: 4 };
        let (words, votes) = &mut apart[s.t];
        let slot = random.below(12);
        let word = random.word();
        let outcomes = match turn % 20 {
            0 => (books::open(s, &mut books), book::open(s, words, votes)),
            1 => (books::refill(s, &mut books), book::refill(s, words, votes)),
            _ => {
                (books::enter(s, &mut books, slot, word), book::enter(s, words, votes, slot, word))
            }
        };
        assert_eq!(outcomes.0, outcomes.1, "{s:?} slot {slot}");
        let together: Vec<i32> = apart.iter().flat_map(|(w, v)| [&w[..], v].concat()).collect();
        assert!(books == together, "{s:?} slot {slot}");
    }
}

#[test]
fn worked_outcomes() {
    assert_eq!(outcome::start().concat(), [E; 100]);
    hold_outcomes(|e, before| {
        let mut list = before.to_vec();
        outcome::set_in_list(e, &mut list).map(|()| list)
    });
    hold_outcomes(|e, before| {
        let rows: Vec<[i32; 10]> = before.chunks(10).map(|row| row.try_into().unwrap()).collect();
        outcome::set_row(e, rows.try_into().unwrap()).map(|rows| rows.concat())
    });
}

#[test]
fn outcomes_are_refused_in_order_and_left_as_they_were() {
    let table = table_with(&[]);
    let good = Exchange { n: 4, m: 1, t: 3, x: 5, statuses: &[0; 10], table: &table };
    let refused = |e: &Exchange, length: usize, number: u8| {
        let mut list = vec![9; length];
        assert_eq!(outcome::set_in_list(e, &mut list), Err(number), "{length} places");
        assert_eq!(list, vec![9; length]);
        if length == 100 {
            assert_eq!(outcome::set_row(e, [[9; 10]; 10]), Err(number));
        }
    };
    for length in [0, 10, 40, 99, 100, 101] {
        for (number, s) in refused_settings().into_iter().filter(|case| case.0 != 4) {
            let e = Exchange { n: s.n, m: s.m, t: s.t, x: E, statuses: &[9], table: &[] };
            refused(&e, length, number);
        }
    }
    let worst = Exchange { x: E, statuses: &[9; 10], ..good };
    for length in [0, 10, 40, 99, 101] {
        refused(&worst, length, 5);
        refused(&good, length, 5);
        let mut list = vec![9; length];
        assert_eq!(outcome::start_list(&mut list), Err(5));
        assert_eq!(list, vec![9; length]);
    }
    refused(&Exchange { statuses: &[9; 9], ..worst }, 100, 5);
    refused(&Exchange { table: &table[1..], ..worst }, 100, 5);
    refused(&worst, 100, 7);
    refused(&Exchange { x: E, ..good }, 100, 6);
    let mut list = [9; 100];
    assert_eq!(outcome::start_list(&mut list), Ok(()));
    assert_eq!(list, [E; 100]);
    assert_eq!(outcome::set_in_list(&good, &mut list), Ok(()));
    assert_eq!(list[30..34], [5; 4]);
}

// The listing program

#[test]
fn worked_listings() {
    assert_eq!(bytes_of(EXAMPLE).len(), 38);
    hold_listings(listing);
}

/// What the program prints for a file and for arguments, and whether it ended well.
fn run_program(arguments: &[&str], file: &[u8]) -> (String, bool) {
    let mut program = Command::new(env!("CARGO_BIN_EXE_second"))
        .args(arguments)
        .stdin(Stdio::piped())
        .stdout(Stdio::piped())
        .stderr(Stdio::null())
        .spawn()
        .unwrap();
    // A program that reads no file may have ended already.
    let _ = program.stdin.take().unwrap().write_all(file);
    let output = program.wait_with_output().unwrap();
    (String::from_utf8(output.stdout).unwrap(), output.status.success())
}

#[test]
fn the_program_prints_the_listing() {
    let file = bytes_of(EXAMPLE);
    assert_eq!(run_program(&[], &file), (EXAMPLE_LISTING.to_string(), true));
    assert_eq!(run_program(&[], &file[..37]), ("refused 9\n".to_string(), true));
    assert_eq!(run_program(&[], &[]), ("refused 9\n".to_string(), true));
    let (help, ended_well) = run_program(&["--help"], &[]);
    assert!(help.starts_with("usage: second") && ended_well);
    assert_eq!(run_program(&["other"], &file), (String::new(), false));
}

#[test]
fn listing_files_are_refused_in_order() {
    for length in 0..24 {
        assert_eq!(listing(&vec![0; length]), "refused 9\n");
    }
    let mut file = vec![255; 24 + 7];
    assert_eq!(listing(&file), "refused 10\n");
    file[0..3].copy_from_slice(b"OMH");
    assert_eq!(listing(&file), "refused 10\n");
    file[0..3].copy_from_slice(b"OMX");
    assert_eq!(listing(&file), "refused 11\n");
    file[3..5].copy_from_slice(&[0, 1]);
    assert_eq!(listing(&file), "refused 16\n");
    file[22..24].copy_from_slice(&[0, 65]);
    assert_eq!(listing(&file), "refused 16\n");
    file[22..24].copy_from_slice(&[0, 64]);
    assert_eq!(listing(&file), "refused 9\n");
    file[22..24].copy_from_slice(&[0, 0]);
    assert_eq!(listing(&file), "refused 9\n");
    file[22..24].copy_from_slice(&[0, 1]);
    assert_eq!(listing(&file), "refused 1\n");
    file[5] = 4;
    assert_eq!(listing(&file), "refused 2\n");
    file[6] = 1;
    assert_eq!(listing(&file), "refused 3\n");
    file[7] = 0;
    file[18..22].copy_from_slice(&E.to_be_bytes());
    assert_eq!(listing(&file), "refused 7\n");
    file[8..18].copy_from_slice(&[0, 0, 0, 1, 0, 0, 0, 0, 0, 0]);
    assert_eq!(listing(&file), "refused 6\n");
    file[18..22].copy_from_slice(&(-120i32).to_be_bytes());
    assert_eq!(listing(&file), "refused 16\n");
    file[24..26].copy_from_slice(&1_110u16.to_be_bytes());
    assert_eq!(listing(&file), "refused 16\n");
    file[26] = 9;
    assert_eq!(listing(&file), EXAMPLE_LISTING);
    file[24..26].copy_from_slice(&1_111u16.to_be_bytes());
    assert_eq!(listing(&file), "refused 16\n");
}

/// A file of four cards with an arbitrary sender and words for them at slot 0.
fn file_of(exceptions: &[(u8, i32)]) -> Vec<u8> {
    let mut file = bytes_of("4F4D58 0001 04 01 00 01000000000000000000 00000001 0000");
    file[23] = exceptions.len() as u8;
    for &(receiver, word) in exceptions {
        file.extend([0, 0, receiver]);
        file.extend(word.to_be_bytes());
    }
    file
}

#[test]
fn a_later_exception_replaces_an_earlier_one() {
    let exceptions = [(1, 10), (2, 20), (3, 30), (2, 10), (1, 11), (1, 10)];
    assert_eq!(listing(&file_of(&exceptions)), "0 1 -\n1 0 10\n2 0 10\n3 0 10\nbound held\n");
    assert_eq!(listing(&file_of(&exceptions[..3])), "0 1 -\n1 0 -\n2 0 -\n3 0 -\nbound held\n");
    let most: Vec<(u8, i32)> = (0..64).map(|number| (0, number)).collect();
    assert_eq!(listing(&file_of(&most)), "0 1 63\n1 0 -\n2 0 -\n3 0 -\nbound held\n");
    assert_eq!(listing(&file_of(&[(10, 1)])), "refused 16\n");
    let over = [most, vec![(0, 1)]].concat();
    assert_eq!(listing(&file_of(&over)), "refused 16\n");
}

#[test]
fn the_listing_tells_when_the_bound_fails() {
    let mut file = file_of(&[]);
    file[6] = 0;
    assert_eq!(listing(&file), "0 1 -\n1 0 -\n2 0 -\n3 0 -\nbound not held\n");
    file[9] = 3;
    assert_eq!(listing(&file), "0 1 -\n1 3 -\n2 0 -\n3 0 -\nbound not held\n");
}

#[test]
fn listing_any_damaged_file_ends() {
    let example = bytes_of(EXAMPLE);
    for place in 0..example.len() {
        for byte in [0, 1, 3, 4, 9, 10, 11, 64, 65, 127, 128, 255] {
            let mut file = example.clone();
            file[place] = byte;
            let text = listing(&file);
            assert!(text.starts_with("refused ") || text.ends_with("held\n"));
        }
    }
}

// Any numbers

#[test]
fn any_numbers_are_answered() {
    let mut random = Random(20);
    let far = [0, 1, 2, 3, 4, 9, 10, 11, 255, 1_110, 1_111, usize::MAX - 1, usize::MAX];
    let lengths = [0, 1, 9, 10, 11, 100, SLOTS - 1, SLOTS, SLOTS, SLOTS, SLOTS + 1, PLACES];
    let mut books = random.words(BOOKS + 1);
    for _ in 0..20_000 {
        let mut number = || far[random.below(far.len())];
        let s = Settings { n: number(), m: number(), t: number(), p: number() };
        let (slot, level, relays) = (number(), number(), [number(), number(), number()]);
        let mut length = || lengths[random.below(lengths.len())];
        let (mut words, mut votes) = (vec![6; length()], vec![E3; length()]);
        let (statuses, table) = (vec![1; length()], vec![5; length()]);
        let x = random.word();
        let live = live(s.n, s.m, s.t, s.p, slot);
        let voted = vote::vote_at(s, &words, slot);
        let entered = book::enter(s, &mut words, &mut votes, slot, x);
        assert_eq!(voted.is_ok(), live == Ok(true) && words.len() == SLOTS);
        assert_eq!(entered.is_ok(), voted.is_ok() && votes.len() == SLOTS);
        let _ = (slot_of(level, relays), slot_above(slot), path_at(slot));
        let _ = book::held_answer(&words, &votes);
        let _ = book::open(s, &mut words, &mut votes);
        let length = BOOKS - 1 + random.below(3);
        let entered = books::enter(s, &mut books[..length], slot, x);
        assert_eq!(entered.is_ok(), live == Ok(true) && length == BOOKS);
        let e = Exchange { n: s.n, m: s.m, t: s.t, x, statuses: &statuses, table: &table };
        let _ = exchange::word(&e, s.p, slot);
        let _ = exchange::answers(&e, &mut votes);
        let _ = outcome::set_in_list(&e, &mut words);
        let _ = bound_holds(s.n, s.m, &statuses);
    }
}
