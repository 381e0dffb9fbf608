//! Document 01, "Frames".

use crate::book;
use crate::paths::{slot_of, Settings, CARDS, ROUNDS};
use crate::Refusal;

pub const FRAME_LENGTH: usize = 17;

const MARK: [u8; 3] = *b"OMH";
const VERSION: [u8; 2] = [0, 1];

/// Stands in a relay's place that the level does not use.
pub const NO_RELAY: u8 = 255;

/// What a frame carries, as its bytes 5 to 16 give it.
#[derive(Clone, Copy, Debug, PartialEq, Eq)]
pub struct Record {
    pub exchange: u16,
    pub sender: u8,
    pub level: u8,
    pub relays: [u8; ROUNDS],
    pub receiver: u8,
    pub word: i32,
}

#[derive(Clone, Copy, Debug, PartialEq, Eq)]
pub enum AgeClass {
    Current,
    Old,
    Ahead,
}

pub fn next_exchange(number: u16) -> u16 {
    number.checked_add(1).unwrap_or(0)
}

/// The current number less the frame's, modulo 65,536.
pub fn age(current: u16, frame: u16) -> u16 {
    current.wrapping_sub(frame)
}

pub fn age_class(age: u16) -> AgeClass {
    match age {
        0 => AgeClass::Current,
        1..=32_767 => AgeClass::Old,
        32_768..=65_535 => AgeClass::Ahead,
    }
}

/// Repeated cards are well formed; entering catches them as a path that is not live.
pub fn well_formed(record: &Record) -> bool {
    let is_card = |byte: u8| usize::from(byte) < CARDS;
    let level = usize::from(record.level);
    level <= ROUNDS
        && is_card(record.sender)
        && is_card(record.receiver)
        && record.relays.iter().take(level).all(|&relay| is_card(relay))
        && record.relays.iter().skip(level).all(|&relay| relay == NO_RELAY)
}

pub fn read(frame: &[u8]) -> Result<Record, Refusal> {
    let bytes: &[u8; FRAME_LENGTH] = frame.try_into().map_err(|_| 9)?;
    if bytes[0..3] != MARK {
        return Err(10);
    }
    if bytes[3..5] != VERSION {
        return Err(11);
    }
    let record = Record {
        exchange: u16::from_be_bytes([bytes[5], bytes[6]]),
        sender: bytes[7],
        level: bytes[8],
        relays: [bytes[9], bytes[10], bytes[11]],
        receiver: bytes[12],
        word: i32::from_be_bytes([bytes[13], bytes[14], bytes[15], bytes[16]]),
    };
    if !well_formed(&record) {
        return Err(14);
    }
    Ok(record)
}

pub fn write(record: &Record, buffer: &mut [u8]) -> Result<(), Refusal> {
    if buffer.len() != FRAME_LENGTH {
        return Err(5);
    }
    if !well_formed(record) {
        return Err(14);
    }
    buffer[0..3].copy_from_slice(&MARK);
    buffer[3..5].copy_from_slice(&VERSION);
    buffer[5..7].copy_from_slice(&record.exchange.to_be_bytes());
    buffer[7] = record.sender;
    buffer[8] = record.level;
    buffer[9..12].copy_from_slice(&record.relays);
    buffer[12] = record.receiver;
    buffer[13..17].copy_from_slice(&record.word.to_be_bytes());
    Ok(())
}

/// Enters a frame's word in a book, `current` being the current exchange number.
pub fn enter_frame(
    settings: Settings,
    words: &mut [i32],
    votes: &mut [i32],
    current: u16,
    frame: &[u8],
) -> Result<(), Refusal> {
    book::check(settings, words, votes)?;
    let record = read(frame)?;
    match age_class(age(current, record.exchange)) {
        AgeClass::Current => {}
        AgeClass::Old => return Err(12),
        AgeClass::Ahead => return Err(13),
    }
    if usize::from(record.sender) != settings.t || usize::from(record.receiver) != settings.p {
        return Err(15);
    }
    let slot = slot_of(usize::from(record.level), record.relays.map(usize::from))?;
    book::enter(settings, words, votes, slot, record.word)
}
