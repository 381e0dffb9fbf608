//! Document 01, "Settings and paths": the slots of paths, the slots above, and which are
//! live in what settings; and what is refused.

use super::paths::PATHS;
use second::paths::Settings;
use second::Refusal;

const FAR: usize = usize::MAX;

/// A level, three relays, and the slot. A relay that the level does not use may be any
/// number; the ends of levels 2 and 3 repeat a card.
const SLOTS_OF: [(usize, [usize; 3], Result<usize, Refusal>); 13] = [
    (0, [10, 10, 10], Ok(0)),
    (1, [9, 10, FAR], Ok(10)),
    (2, [0, 0, 10], Ok(11)),
    (2, [9, 9, FAR], Ok(110)),
    (3, [0, 0, 0], Ok(111)),
    (3, [9, 9, 9], Ok(1_110)),
    (1, [10, 0, 0], Err(8)),
    (2, [256, 0, 0], Err(8)),
    (2, [0, FAR, 0], Err(8)),
    (3, [0, 0, 10], Err(8)),
    (3, [0, 0, 1 << 32], Err(8)),
    (4, [0, 1, 2], Err(8)),
    (FAR, [0, 1, 2], Err(8)),
];

/// A number, and the slot above it.
const ABOVE: [(usize, Result<usize, Refusal>); 9] = [
    (0, Err(8)),
    (1, Ok(0)),
    (10, Ok(0)),
    (11, Ok(1)),
    (110, Ok(10)),
    (111, Ok(11)),
    (1_110, Ok(110)),
    (1_111, Err(8)),
    (FAR, Err(8)),
];

/// Settings n, m, t and p; numbers, and whether all of them are live slots.
type Live = ([usize; 4], &'static [usize], Result<bool, Refusal>);

const LIVE: &[Live] = &[
    ([6, 2, 1, 4], &[0, 1, 3, 6, 13, 64], Ok(true)),
    // Relay 1 is the sender and 4 the own card; there is no card 6.
    ([6, 2, 1, 4], &[2, 5, 7, 35, 52, 67], Ok(false)),
    // Card 0 relays twice; level 3 is over m; no slots.
    ([6, 2, 1, 4], &[11, 134, 1_111, FAR], Ok(false)),
    ([10, 3, 4, 6], &[0, 8, 83, 840, 1_098], Ok(true)),
    ([10, 3, 4, 4], &[0], Ok(true)),
    ([10, 3, 4, 4], &[8, 83, 840, FAR], Ok(false)),
    ([1, 0, 0, 0], &[0], Ok(true)),
    ([1, 0, 0, 0], &[1, 11, 111], Ok(false)),
    // Each refusal, with all the later ones and alone.
    ([0, FAR, FAR, FAR], &[0, FAR], Err(1)),
    ([11, 3, 4, 6], &[0, FAR], Err(1)),
    ([FAR, 3, 4, 6], &[0, FAR], Err(1)),
    ([1, 1, FAR, FAR], &[0, FAR], Err(2)),
    ([3, 3, 0, 1], &[0, FAR], Err(2)),
    ([10, 4, 4, 6], &[0, FAR], Err(2)),
    ([4, 3, 4, FAR], &[0, FAR], Err(3)),
    ([4, 3, FAR, 3], &[0, FAR], Err(3)),
    ([4, 3, 3, 4], &[0, FAR], Err(4)),
    ([4, 3, 3, FAR], &[0, FAR], Err(4)),
];

/// Holds a program's slots, and those above them, to the tables.
pub fn hold_slots(
    slot_of: impl Fn(usize, [usize; 3]) -> Result<usize, Refusal>,
    slot_above: impl Fn(usize) -> Result<usize, Refusal>,
) {
    for (level, relays, slot, above) in PATHS {
        assert_eq!(slot_of(level.into(), relays.map(usize::from)), Ok(slot));
        let mut left = slot;
        for &next in above {
            assert_eq!(slot_above(left), Ok(next), "above {left}");
            left = next;
        }
        assert_eq!(left, 0, "the last above {slot}");
    }
    for (level, relays, slot) in SLOTS_OF {
        assert_eq!(slot_of(level, relays), slot, "level {level}, relays {relays:?}");
    }
    for (slot, above) in ABOVE {
        assert_eq!(slot_above(slot), above, "above {slot}");
    }
}

/// Holds a program to the settings: their refusal, and which numbers are live.
pub fn hold_live(
    check: impl Fn(Settings) -> Result<(), Refusal>,
    live: impl Fn(Settings, usize) -> Result<bool, Refusal>,
) {
    for &([n, m, t, p], numbers, outcome) in LIVE {
        let settings = Settings { n, m, t, p };
        assert_eq!(check(settings), outcome.map(|_| ()), "{settings:?}");
        for &number in numbers {
            assert_eq!(live(settings, number), outcome, "{settings:?} slot {number}");
        }
    }
}
