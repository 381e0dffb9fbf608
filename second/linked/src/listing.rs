//! Document 01, "Listing program": listing files good and damaged, and the text that both
//! programs make of them.

use crate::bench::{ordinary, statuses};
use crate::compare::compare;
use crate::ffi;
use crate::lent::Lent;
use crate::random::Random;
use crate::settings::all_rounds;
use crate::words::words;
use second::listing::listing;
use second::paths::{slot_of_path, CARDS, SLOTS};
use second::Refusal;

pub const HEAD: usize = 24;
pub const EXCEPTION: usize = 7;
pub const MOST_EXCEPTIONS: usize = 64;

/// Bytes at which some part of a file begins to be refused, or ends.
const EDGES: [u8; 12] = [0, 1, 3, 4, 9, 10, 11, 63, 64, 65, 128, 255];

/// A file that is not refused, of this n and m and with so many exceptions.
pub fn good_of(random: &mut Random, n: usize, m: usize, exceptions: usize) -> Vec<u8> {
    let words = words(random, exceptions);
    let x = if words.is_empty() { -120 } else { ordinary(random, &words) };
    let mut file = b"OMX\x00\x01".to_vec();
    file.extend([n as u8, m as u8, random.below(n) as u8]);
    file.extend(statuses(random, n));
    file.extend(x.to_be_bytes());
    file.extend((exceptions as u16).to_be_bytes());
    for word in words {
        let path: Vec<usize> = (0..random.below(m + 1)).map(|_| random.below(n)).collect();
        let slot = slot_of_path(&path).expect("a path of cards below n");
        file.extend((slot as u16).to_be_bytes());
        // A symmetric card's word is the one for receiver 0.
        file.push(if random.one_in(3) { 0 } else { random.below(n) as u8 });
        file.extend(word.to_be_bytes());
    }
    file
}

/// A file that is not refused.
pub fn good(random: &mut Random) -> Vec<u8> {
    let (n, m) = random.pick(&all_rounds());
    let most = random.pick(&[0, 4, 16, MOST_EXCEPTIONS]);
    let exceptions = random.below(most + 1);
    good_of(random, n, m, exceptions)
}

/// Damages a file in one of many ways. It may come out as one that is not refused.
pub fn damage(random: &mut Random, file: &mut Vec<u8>) {
    if file.len() < HEAD {
        return;
    }
    let place = random.below(file.len());
    match random.below(9) {
        0 => file[place] ^= 1 << random.below(8),
        1 => file[place] = random.byte(),
        2 => file.truncate(place),
        3 => file.extend(random.some_bytes(3 * EXCEPTION)),
        4 => file[random.below(HEAD)] = random.pick(&EDGES),
        5 => file[22 + random.below(2)] = random.pick(&EDGES),
        6 => file[18 + random.below(4)] = random.byte(),
        7 => spoil_exception(random, file),
        _ => claim_other_number(random, file),
    }
}

/// Sets one exception's slot or receiver near the first that is none, or far from it.
fn spoil_exception(random: &mut Random, file: &mut [u8]) {
    let exceptions = (file.len() - HEAD) / EXCEPTION;
    if exceptions == 0 {
        return;
    }
    let at = HEAD + EXCEPTION * random.below(exceptions);
    let slot = random.pick(&[SLOTS - 2, SLOTS - 1, SLOTS, SLOTS + 1, 0xFFFF]) as u16;
    let receiver = random.pick(&[CARDS - 2, CARDS - 1, CARDS, CARDS + 1, 0xFF]) as u8;
    match random.below(2) {
        0 => file[at..at + 2].copy_from_slice(&slot.to_be_bytes()),
        _ => file[at + 2] = receiver,
    }
}

/// Cuts off or adds whole exceptions, and at times says so in the head.
fn claim_other_number(random: &mut Random, file: &mut Vec<u8>) {
    let exceptions = random.below(MOST_EXCEPTIONS + 4);
    file.resize(HEAD + EXCEPTION * exceptions, 0);
    if random.one_in(2) {
        file[22..HEAD].copy_from_slice(&(exceptions as u16).to_be_bytes());
    }
}

/// Random bytes. The first may be a good head's, so that every check is reached, and the
/// number of exceptions may be right.
pub fn garbage(random: &mut Random) -> Vec<u8> {
    let most = random.pick(&[1, MOST_EXCEPTIONS + 2]);
    let exceptions = random.below(most);
    let mut file = random.bytes(HEAD + EXCEPTION * exceptions);
    let (n, m) = random.pick(&all_rounds());
    let kept = random.pick(&[0, 3, 5, 6, 7, 8, 18, 22]);
    file[..kept].copy_from_slice(&good_of(random, n, m, 0)[..kept]);
    if !random.one_in(4) {
        file[22..HEAD].copy_from_slice(&(exceptions as u16).to_be_bytes());
    }
    if random.one_in(4) {
        file.truncate(random.below(HEAD + EXCEPTION));
    }
    file
}

/// The text of a file, which both programs give, or the number that it tells; `before` is
/// what the lent places hold before the call.
pub fn list(file: &[u8], before: &[u8; ffi::TEXT]) -> Result<String, Refusal> {
    let lent = Lent::new(file.to_vec());
    let mut text = Lent::new(before.to_vec());
    let places = text.library_mut().try_into().expect("as many places as a text needs");
    let length = ffi::list(lent.library(), places);
    let second = listing(lent.second());
    text.second_mut()[..second.len()].copy_from_slice(second.as_bytes());
    let call = format_args!("list {file:02x?}");
    compare(call, length, second.len());
    text.compare("text", call);
    lent.compare("file", call);
    refusal_in(&second).map_or(Ok(second), Err)
}

/// The number in the text of a refusal.
fn refusal_in(text: &str) -> Option<Refusal> {
    text.strip_prefix("refused ").and_then(|rest| rest.strip_suffix('\n')?.parse().ok())
}
