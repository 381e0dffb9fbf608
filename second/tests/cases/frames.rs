//! Document 01, "Frames": exchange numbers, and frames read and written.

use second::frames::AgeClass::{self, Ahead, Current, Old};
use second::frames::{Record, FRAME_LENGTH};
use second::Refusal;

/// The current number, a frame's, its age and class. The first four are document 01's.
const AGES: [(u16, u16, u16, AgeClass); 9] = [
    (3, 65_534, 5, Old),
    (65_535, 0, 65_535, Ahead),
    (32_767, 0, 32_767, Old),
    (32_768, 0, 32_768, Ahead),
    (0, 0, 0, Current),
    (0, 65_535, 1, Old),
    (0, 1, 65_535, Ahead),
    (16_383, 49_152, 32_767, Old),
    (16_384, 49_152, 32_768, Ahead),
];

/// A number and the next.
const NEXT: [(u16, u16); 4] = [(0, 1), (1, 2), (65_534, 65_535), (65_535, 0)];

/// Holds a program's exchange numbers to the tables.
pub fn hold_ages(age: impl Fn(u16, u16) -> (u16, AgeClass), next: impl Fn(u16) -> u16) {
    for (current, frame, old, class) in AGES {
        assert_eq!(age(current, frame), (old, class), "current {current}, frame {frame}");
    }
    for (number, following) in NEXT {
        assert_eq!(next(number), following, "{number}");
    }
}

/// By relay 2.
const SAMPLE: Record =
    Record { exchange: 3, sender: 0, level: 1, relays: [2, 255, 255], receiver: 1, word: -120 };

pub const SAMPLE_FRAME: [u8; FRAME_LENGTH] =
    *b"OMH\x00\x01\x00\x03\x00\x01\x02\xFF\xFF\x01\xFF\xFF\xFF\x88";

/// A byte of the sample's frame, what it is set to, and what the frame then reads as.
const DAMAGED: &[(usize, u8, Result<Record, Refusal>)] = &[
    (0, 80, Err(10)),
    (0, 255, Err(10)),
    (1, 78, Err(10)),
    (1, 255, Err(10)),
    (2, 73, Err(10)),
    (2, 255, Err(10)),
    (3, 1, Err(11)),
    (3, 255, Err(11)),
    (4, 2, Err(11)),
    (4, 255, Err(11)),
    (5, 1, Ok(Record { exchange: 259, ..SAMPLE })),
    (5, 255, Ok(Record { exchange: 65_283, ..SAMPLE })),
    (6, 4, Ok(Record { exchange: 4, ..SAMPLE })),
    (6, 255, Ok(Record { exchange: 255, ..SAMPLE })),
    (7, 1, Ok(Record { sender: 1, ..SAMPLE })),
    (7, 255, Err(14)),
    (8, 2, Err(14)),
    (8, 255, Err(14)),
    (9, 3, Ok(Record { relays: [3, 255, 255], ..SAMPLE })),
    (9, 255, Err(14)),
    (10, 0, Err(14)),
    (10, 255, Ok(SAMPLE)),
    (11, 0, Err(14)),
    (11, 255, Ok(SAMPLE)),
    (12, 2, Ok(Record { receiver: 2, ..SAMPLE })),
    (12, 255, Err(14)),
    (13, 0, Ok(Record { word: 16_777_096, ..SAMPLE })),
    (13, 255, Ok(SAMPLE)),
    (14, 0, Ok(Record { word: -16_711_800, ..SAMPLE })),
    (14, 255, Ok(SAMPLE)),
    (15, 0, Ok(Record { word: -65_400, ..SAMPLE })),
    (15, 255, Ok(SAMPLE)),
    (16, 137, Ok(Record { word: -119, ..SAMPLE })),
    (16, 255, Ok(Record { word: -1, ..SAMPLE })),
];

/// How much of the sample's frame with a byte after it is read, and what comes of it.
const LENGTHS: [(usize, Result<Record, Refusal>); 4] =
    [(0, Err(9)), (16, Err(9)), (17, Ok(SAMPLE)), (18, Err(9))];

/// Holds a program's reading to the tables.
pub fn hold_reading(read: impl Fn(&[u8]) -> Result<Record, Refusal>) {
    for &(place, byte, outcome) in DAMAGED {
        let mut frame = SAMPLE_FRAME;
        frame[place] = byte;
        assert_eq!(read(&frame), outcome, "byte {place} as {byte}");
    }
    let longer = [&SAMPLE_FRAME[..], &[0]].concat();
    for (length, outcome) in LENGTHS {
        assert_eq!(read(&longer[..length]), outcome, "{length} bytes");
    }
}

const LEVEL_FOUR: Record = Record { level: 4, relays: [2, 2, 2], ..SAMPLE };

type Written = Result<[u8; FRAME_LENGTH], Refusal>;

/// A record, the length of the buffer, and what is written to it.
const WRITTEN: &[(Record, usize, Written)] = &[
    (SAMPLE, 17, Ok(SAMPLE_FRAME)),
    (LEVEL_FOUR, 17, Err(14)),
    (Record { relays: [10, 255, 255], ..SAMPLE }, 17, Err(14)),
    (Record { relays: [2, 0, 255], ..SAMPLE }, 17, Err(14)),
    (Record { level: 2, ..SAMPLE }, 17, Err(14)),
    (Record { sender: 10, ..SAMPLE }, 17, Err(14)),
    (Record { receiver: 10, ..SAMPLE }, 17, Err(14)),
    (
        Record { sender: 9, level: 3, relays: [9, 9, 9], receiver: 9, ..SAMPLE },
        17,
        Ok(*b"OMH\x00\x01\x00\x03\x09\x03\x09\x09\x09\x09\xFF\xFF\xFF\x88"),
    ),
    (SAMPLE, 16, Err(5)),
    (SAMPLE, 18, Err(5)),
    (LEVEL_FOUR, 18, Err(5)),
];

/// Holds a program's writing to the table; a buffer, of zeros before, is handed back.
pub fn hold_writing(write: impl Fn(&Record, Vec<u8>) -> Result<Vec<u8>, Refusal>) {
    for (record, length, outcome) in WRITTEN {
        let written = write(record, vec![0; *length]);
        assert_eq!(written, outcome.map(Vec::from), "{record:?} to {length} bytes");
    }
}
