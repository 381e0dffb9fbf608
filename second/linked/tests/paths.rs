//! Settings, the slots of paths, the slots above, and live slots.

#[path = "../../tests/cases/paths.rs"]
mod paths;
#[path = "../../tests/cases/slots.rs"]
mod slots;

use linked::paths::{any_path, is_live, settings_refused, slot_above, slot_of};
use linked::random::Random;
use linked::settings::{all, any, any_slot};
use linked::tally::Tally;
use linked::words::word;
use second::paths::Settings;
use slots::{hold_live, hold_slots};

#[test]
fn worked_slots() {
    hold_slots(|level, relays| slot_of(level, relays, 9), |slot| slot_above(slot, 9));
}

#[test]
fn worked_live_slots() {
    hold_live(settings_refused, |settings, slot| is_live(settings, slot, 9));
}

#[test]
fn settings_around_every_end() {
    let mut outcomes = Tally::default();
    for (n, m) in (0..=12).flat_map(|n| (0..=5).map(move |m| (n, m))) {
        for (t, p) in (0..=12).flat_map(|t| (0..=12).map(move |p| (t, p))) {
            outcomes.count(settings_refused(Settings { n, m, t, p }));
        }
    }
    outcomes.expect(&[0, 1, 2, 3, 4], 1_000);
}

#[test]
fn every_path_of_levels_to_5_and_cards_to_11() {
    let mut random = Random::new("every path");
    let mut outcomes = Tally::default();
    for level in 0..=5 {
        for [q1, q2] in (0..12).flat_map(|q1| (0..12).map(move |q2| [q1, q2])) {
            for q3 in 0..12 {
                outcomes.count(slot_of(level, [q1, q2, q3], random.bits() as usize));
            }
        }
    }
    outcomes.expect(&[0, 8], 5_000);
}

#[test]
fn every_number_to_1200_in_every_setting() {
    let mut random = Random::new("every slot");
    let mut above = Tally::default();
    for slot in 0..=1_200 {
        above.count(slot_above(slot, random.bits() as usize));
    }
    above.expect(&[0, 8], 91);
    let mut live = [0, 0];
    for settings in all() {
        for slot in 0..=1_200 {
            let is = is_live(settings, slot, word(&mut random)).expect("good settings");
            live[usize::from(is)] += 1;
        }
    }
    assert!(live[0] > 1_000_000 && live[1] > 40_000, "{live:?}");
}

#[test]
fn any_numbers() {
    let mut random = Random::new("any paths");
    let [mut live, mut slot, mut above] = [(); 3].map(|()| Tally::default());
    for _ in 0..300_000 {
        let (settings, number) = (any(&mut random), any_slot(&mut random));
        live.count(is_live(settings, number, word(&mut random)));
        above.count(slot_above(number, random.bits() as usize));
        let (level, relays) = any_path(&mut random);
        slot.count(slot_of(level, relays, random.bits() as usize));
    }
    live.expect(&[0, 1, 2, 3, 4], 10_000);
    slot.expect(&[0, 8], 10_000);
    above.expect(&[0, 8], 10_000);
}
