//! Document 01, "Frames": frames good and damaged, and what both programs make of them.

use crate::compare::{compare, number_of};
use crate::ffi;
use crate::lent::Lent;
use crate::random::Random;
use crate::words::word;
use second::frames::{self, AgeClass, Record, FRAME_LENGTH, NO_RELAY};
use second::paths::{path_at, slot_of, Settings, CARDS, ROUNDS};
use second::Refusal;

/// A frame's bytes, whether it is well formed or not.
pub fn frame_of(record: &Record) -> [u8; FRAME_LENGTH] {
    let mut frame = [0; FRAME_LENGTH];
    frame[..5].copy_from_slice(b"OMH\x00\x01");
    frame[5..7].copy_from_slice(&record.exchange.to_be_bytes());
    frame[7] = record.sender;
    frame[8] = record.level;
    frame[9..12].copy_from_slice(&record.relays);
    frame[12] = record.receiver;
    frame[13..].copy_from_slice(&record.word.to_be_bytes());
    frame
}

/// The record for a slot of a card's book.
pub fn record_for(settings: Settings, current: u16, slot: usize, word: i32) -> Record {
    let path = path_at(slot).expect("a slot");
    let mut relays = [NO_RELAY; ROUNDS];
    for (place, relay) in relays.iter_mut().zip(&path) {
        *place = *relay as u8;
    }
    Record {
        exchange: current,
        sender: settings.t as u8,
        level: path.len() as u8,
        relays,
        receiver: settings.p as u8,
        word,
    }
}

/// The slot and the word that a frame tells; any, if it cannot be read: no call enters it.
pub fn told(frame: &[u8]) -> (usize, i32) {
    let Ok(record) = frames::read(frame) else { return (0, 0) };
    let slot = slot_of(record.level.into(), record.relays.map(usize::from));
    (slot.expect("a path that is well formed"), record.word)
}

/// A well-formed record; its cards may repeat.
pub fn well_formed(random: &mut Random) -> Record {
    let mut card = || random.below(CARDS) as u8;
    let (sender, receiver, mut relays) = (card(), card(), [card(), card(), card()]);
    let level = random.below(ROUNDS + 1);
    relays[level..].fill(NO_RELAY);
    let level = level as u8;
    Record { exchange: random.bits() as u16, sender, level, relays, receiver, word: word(random) }
}

/// A record whose level or cards may be none.
pub fn any_record(random: &mut Random) -> Record {
    let mut record = well_formed(random);
    let any = random.byte();
    let byte = random.pick(&[0, 3, 4, 9, 10, 254, NO_RELAY, any]);
    match random.below(12) {
        0 => record.sender = byte,
        1 => record.level = byte,
        2 => record.receiver = byte,
        3..=5 => record.relays[random.below(ROUNDS)] = byte,
        _ => {}
    }
    record
}

/// Does to a frame one of the things for which it is refused, or may be.
pub fn damage(random: &mut Random, frame: &mut Vec<u8>) {
    if frame.len() < FRAME_LENGTH {
        return;
    }
    match random.below(6) {
        0 => frame.truncate(random.below(FRAME_LENGTH)),
        1 => frame.extend(random.some_bytes(23)),
        2 => frame[random.below(3)] = random.byte(),
        3 => frame[3 + random.below(2)] = random.byte(),
        4 => frame[5 + random.below(2)] = random.byte(),
        _ => frame[7 + random.below(6)] = random.pick(&[0, 3, 4, 9, 10, 254, NO_RELAY]),
    }
}

pub fn next_exchange(number: u16) -> u16 {
    let second = frames::next_exchange(number);
    compare(format_args!("next_exchange {number:x}"), ffi::next_exchange(number), second);
    second
}

/// The age and its class.
pub fn age(current: u16, frame: u16) -> (u16, AgeClass) {
    let age = frames::age(current, frame);
    let class = frames::age_class(age);
    let library = (ffi::age(current, frame), ffi::age_class(current, frame));
    let second = (age, class_number(class));
    compare(format_args!("age current {current:x} frame {frame:x}"), library, second);
    (age, class)
}

/// 0, or the number with which a frame of this class is refused.
pub fn class_number(class: AgeClass) -> u8 {
    match class {
        AgeClass::Current => 0,
        AgeClass::Old => 12,
        AgeClass::Ahead => 13,
    }
}

/// Reads a frame; `before` is what the lent places hold before the call.
pub fn read(frame: &[u8], before: [i32; ffi::FIELDS]) -> Result<Record, Refusal> {
    let mut fields = Lent::new(before.to_vec());
    let lent = Lent::new(frame.to_vec());
    let places = fields.library_mut().try_into().expect("as many places as fields");
    let number = ffi::read_frame(lent.library(), places);
    let second = frames::read(lent.second());
    if let Ok(record) = second {
        fields.second_mut().copy_from_slice(&fields_of(&record));
    }
    let call = format_args!("read_frame {frame:02x?} places {before:x?}");
    compare(call, number, number_of(&second));
    fields.compare("fields", call);
    lent.compare("frame", call);
    second
}

/// In the order of host/omh.h.
fn fields_of(record: &Record) -> [i32; ffi::FIELDS] {
    let Record { exchange, sender, level, relays: [q1, q2, q3], receiver, word } = *record;
    let [sender, level, q1, q2, q3, receiver] =
        [sender, level, q1, q2, q3, receiver].map(i32::from);
    [i32::from(exchange), sender, level, q1, q2, q3, receiver, word]
}

/// Writes a frame into a buffer that holds `before`; yields what it holds then.
pub fn write(record: &Record, before: &[u8]) -> Result<Vec<u8>, Refusal> {
    let mut buffer = Lent::new(before.to_vec());
    let outcome = buffer.call(
        ("buffer", format_args!("write_frame {record:x?}")),
        0..before.len(),
        |buffer| ffi::write_frame(record, buffer),
        |buffer| frames::write(record, buffer),
    );
    outcome.map(|()| buffer.second().to_vec())
}
