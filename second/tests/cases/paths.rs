//! Document 01, "Settings and paths": paths with their slots, and the slots above these.

/// A level, its relays (255 where it has none), the slot, and each slot above it. The first
/// four are document 01's; all are live for card 6 of ten with sender 4.
pub const PATHS: [(u8, [u8; 3], usize, &[usize]); 10] = [
    (3, [7, 2, 9], 840, &[83, 8, 0]),
    (2, [7, 2, 255], 83, &[8, 0]),
    (1, [7, 255, 255], 8, &[0]),
    (0, [255, 255, 255], 0, &[]),
    (1, [0, 255, 255], 1, &[0]),
    (1, [9, 255, 255], 10, &[0]),
    (2, [0, 1, 255], 12, &[1, 0]),
    (2, [9, 8, 255], 109, &[10, 0]),
    (3, [0, 1, 2], 123, &[12, 1, 0]),
    (3, [9, 8, 7], 1_098, &[109, 10, 0]),
];
