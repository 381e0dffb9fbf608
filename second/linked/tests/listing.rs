//! Listing files: worked by hand, good, damaged and made up.

#[path = "../../tests/cases/listings.rs"]
mod cases;

use cases::hold_listings;
use linked::compare::number_of;
use linked::ffi::TEXT;
use linked::listing::{damage, garbage, good, good_of, list, EXCEPTION, HEAD};
use linked::random::Random;
use linked::settings::all_rounds;
use linked::tally::Tally;
use second::Refusal;

/// A file is listed, or refused with one of these.
const OUTCOMES: [u8; 10] = [0, 1, 2, 3, 6, 7, 9, 10, 11, 16];

fn listed(random: &mut Random, file: &[u8]) -> Result<String, Refusal> {
    let before = [(); TEXT].map(|()| random.byte());
    list(file, &before)
}

fn number(random: &mut Random, file: &[u8]) -> u8 {
    number_of(&listed(random, file))
}

#[test]
fn worked_listings() {
    let refused = |number| format!("refused {number}\n");
    hold_listings(|file| list(file, &[9; TEXT]).unwrap_or_else(refused));
}

#[test]
fn good_files() {
    let mut random = Random::new("good files");
    let (mut held, mut not_held, mut answered, mut missing) = (0, 0, 0, 0);
    for _ in 0..25_000 {
        let file = good(&mut random);
        let text = listed(&mut random, &file);
        let text = text.unwrap_or_else(|number| panic!("refused {number}: {file:02x?}"));
        if text.contains("not held") {
            not_held += 1;
        } else {
            held += 1;
        }
        let lines = text.lines().filter(|line| !line.starts_with("bound"));
        let without = lines.clone().filter(|line| line.ends_with(" -")).count();
        missing += without;
        answered += lines.count() - without;
    }
    assert!(held > 2_000 && not_held > 2_000, "{held} held, {not_held} not");
    assert!(answered > 20_000 && missing > 20_000, "{answered} answers, {missing} missing");
}

#[test]
fn damaged_files() {
    let mut random = Random::new("damaged files");
    let mut outcomes = Tally::default();
    for _ in 0..60_000 {
        let mut file = good(&mut random);
        for _ in 0..1 + random.below(3) {
            damage(&mut random, &mut file);
        }
        outcomes.add(number(&mut random, &file));
    }
    outcomes.expect(&OUTCOMES, 100);
}

#[test]
fn files_made_up() {
    let mut random = Random::new("files made up");
    let mut outcomes = Tally::default();
    for _ in 0..60_000 {
        let file = garbage(&mut random);
        outcomes.add(number(&mut random, &file));
    }
    outcomes.expect(&OUTCOMES, 100);
}

/// One byte of small files, each with every value.
#[test]
fn every_byte_of_a_file_damaged_by_every_value() {
    let mut random = Random::new("bytes of files");
    let mut outcomes = Tally::default();
    for (n, m) in all_rounds().into_iter().filter(|&(n, _)| n < 4) {
        let mut file = good_of(&mut random, n, m, 2);
        for place in 0..file.len() {
            let kept = file[place];
            for byte in 0..=255 {
                file[place] = byte;
                outcomes.add(number(&mut random, &file));
            }
            file[place] = kept;
        }
    }
    outcomes.expect(&OUTCOMES, 100);
}

#[test]
fn files_of_a_wrong_length_are_refused_with_9() {
    let mut random = Random::new("wrong lengths");
    for exceptions in 0..=64 {
        let file = good_of(&mut random, 10, 3, exceptions);
        for length in 0..file.len() {
            assert_eq!(number(&mut random, &file[..length]), 9, "{:02x?}", &file[..length]);
        }
        let longer = [&file[..], &random.some_bytes(2 * EXCEPTION)].concat();
        assert_eq!(number(&mut random, &longer), 9, "{longer:02x?}");
    }
}

#[test]
fn over_64_exceptions_are_refused_with_16() {
    let mut random = Random::new("over 64");
    for exceptions in (65..400).chain([511, 512, 1_000, 4_096, 32_767, 32_768, 65_535]) {
        let file = good_of(&mut random, 4, 1, exceptions);
        assert_eq!(number(&mut random, &file), 16);
        assert_eq!(number(&mut random, &file[..HEAD]), 16);
    }
}

#[test]
fn slots_over_1110_and_receivers_over_9_are_refused_with_16() {
    let mut random = Random::new("no places");
    for slot in 1_111..=65_535u16 {
        let mut file = good_of(&mut random, 4, 1, 3);
        let at = HEAD + EXCEPTION * random.below(3);
        file[at..at + 2].copy_from_slice(&slot.to_be_bytes());
        assert_eq!(number(&mut random, &file), 16, "{file:02x?}");
    }
    for receiver in 10..=255 {
        let mut file = good_of(&mut random, 4, 1, 64);
        file[HEAD + EXCEPTION * random.below(64) + 2] = receiver;
        assert_eq!(number(&mut random, &file), 16, "{file:02x?}");
    }
}

/// Ten cards that all answer the longest word, among them faulty ones that relay nothing.
#[test]
fn the_longest_text() {
    let mut random = Random::new("the longest text");
    let mut file = good_of(&mut random, 10, 0, 0);
    file[7..18].copy_from_slice(&[0, 0, 2, 2, 2, 2, 2, 2, 2, 2, 2]);
    file[18..22].copy_from_slice(&(-999_999_999i32).to_be_bytes());
    let text = listed(&mut random, &file).expect("a good file");
    assert_eq!(text.len(), 10 * "0 0 -999999999\n".len() + "bound not held\n".len());
}
