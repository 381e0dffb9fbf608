//! Orders of refusals: calls with every set of faults at once, of which the first in
//! document 01's order is given.

use linked::bench::{bound, Bench};
use linked::book::Book;
use linked::books::Books;
use linked::compare::number_of;
use linked::ffi::{FIELDS, TEXT};
use linked::frames::{frame_of, read, record_for, write};
use linked::lent::Lent;
use linked::listing::{list, EXCEPTION, HEAD};
use linked::outcome::start;
use linked::paths::{is_live, settings_refused, slot_above, slot_of};
use linked::vote::vote_at;
use second::books::BOOKS;
use second::exchange::PLACES;
use second::frames::Record;
use second::outcome::OUTCOME;
use second::paths::{Settings, CARDS, SLOTS};
use second::words::E;
use second::Refusal;

/// What is wrong in a call, and the number with which that is refused.
type Fault = (&'static str, u8);

const N: Fault = ("n", 1);
const M: Fault = ("m", 2);
const T: Fault = ("t", 3);
const P: Fault = ("p", 4);
const LENGTH: Fault = ("length", 5);
const X: Fault = ("x", 6);
const STATUS: Fault = ("status", 7);
const SLOT: Fault = ("slot", 8);
const LEVEL: Fault = ("level", 8);
const RELAY: Fault = ("relay", 8);
const FRAME_SIZE: Fault = ("frame size", 9);
const MARK: Fault = ("mark", 10);
const VERSION: Fault = ("version", 11);
const OLD: Fault = ("old", 12);
const AHEAD: Fault = ("ahead", 13);
const FORM: Fault = ("form", 14);
const FOREIGN: Fault = ("foreign", 15);

const GOOD: Settings = Settings { n: 4, m: 1, t: 0, p: 1 };

/// The slots of relay 2, and of relay 0, who is the sender.
const LIVE: usize = 3;
const NOT_LIVE: usize = 1;

/// The faults of one call.
struct Faults(Vec<Fault>);

impl Faults {
    /// The wrong value where this fault is among them, else the right one.
    fn choose<V>(&self, fault: Fault, wrong: V, right: V) -> V {
        if self.0.contains(&fault) {
            wrong
        } else {
            right
        }
    }

    fn settings(&self) -> Settings {
        Settings {
            n: self.choose(N, 11, GOOD.n),
            m: self.choose(M, 4, GOOD.m),
            t: self.choose(T, 4, GOOD.t),
            p: self.choose(P, 4, GOOD.p),
        }
    }

    fn slot(&self) -> usize {
        self.choose(SLOT, NOT_LIVE, LIVE)
    }

    fn book(&self) -> Book {
        Book::new(vec![6; SLOTS], vec![8; self.choose(LENGTH, SLOTS + 1, SLOTS)])
    }

    fn books(&self) -> Books {
        Books::new(vec![6; self.choose(LENGTH, BOOKS - 1, BOOKS)])
    }

    /// An exchange with lists of these lengths.
    fn bench(&self, statuses: usize, table: usize) -> Bench {
        let Settings { n, m, t, .. } = self.settings();
        let x = self.choose(X, E, -120);
        Bench::new((n, m, t), x, self.statuses(statuses), vec![5; table])
    }

    fn statuses(&self, length: usize) -> Vec<u8> {
        let mut statuses = vec![0; length];
        statuses[GOOD.n] = self.choose(STATUS, 1, 0);
        statuses
    }

    fn frame(&self, current: u16) -> Vec<u8> {
        let mut frame = frame_of(&record_for(GOOD, current, self.slot(), 7));
        frame[0] = self.choose(MARK, b'X', frame[0]);
        frame[4] = self.choose(VERSION, 2, frame[4]);
        frame[7] = self.choose(FOREIGN, 3, frame[7]);
        frame[11] = self.choose(FORM, 0, frame[11]);
        let other = self.choose(OLD, current.wrapping_sub(1), current);
        let other = self.choose(AHEAD, current.wrapping_add(1), other);
        frame[5..7].copy_from_slice(&other.to_be_bytes());
        frame[..self.choose(FRAME_SIZE, 16, 17)].to_vec()
    }
}

/// Makes a call with every set of these faults, which stand in the document's order.
fn every_set<T>(order: &[Fault], call: impl Fn(&Faults) -> Result<T, Refusal>) {
    for set in 0..1usize << order.len() {
        let faults = (0..order.len()).filter(|place| set >> place & 1 == 1);
        let faults = Faults(faults.map(|place| order[place]).collect());
        let first = faults.0.first().map_or(0, |fault| fault.1);
        assert_eq!(number_of(&call(&faults)), first, "{:?}", faults.0);
    }
}

#[test]
fn settings_and_paths() {
    let order = [N, M, T, P];
    every_set(&order, |faults| settings_refused(faults.settings()));
    every_set(&order, |faults| is_live(faults.settings(), LIVE, 9));
    every_set(&[LEVEL, RELAY], |faults| {
        slot_of(faults.choose(LEVEL, 4, 2), [9, faults.choose(RELAY, 10, 9), 10], 9)
    });
    every_set(&[SLOT], |faults| slot_above(faults.choose(SLOT, SLOTS, SLOTS - 1), 9));
}

#[test]
fn votes_and_books() {
    let order = [N, M, T, P, LENGTH, SLOT];
    every_set(&order, |faults| {
        let words = Lent::new(vec![6; faults.choose(LENGTH, SLOTS - 1, SLOTS)]);
        vote_at(faults.settings(), &words, faults.slot(), 9)
    });
    every_set(&order, |faults| faults.book().enter(faults.settings(), faults.slot(), 7));
    every_set(&order[..5], |faults| faults.book().open(faults.settings()));
    every_set(&order[..5], |faults| faults.book().refill(faults.settings()));
    every_set(&[LENGTH], |faults| faults.book().held_answer(9));
    every_set(&order, |faults| faults.books().enter(faults.settings(), faults.slot(), 7));
    every_set(&order[..5], |faults| faults.books().open(faults.settings()));
    every_set(&order[..5], |faults| faults.books().refill(faults.settings()));
}

#[test]
fn frames() {
    every_set(&[FRAME_SIZE, MARK, VERSION, FORM], |faults| read(&faults.frame(3), [9; FIELDS]));
    every_set(&[LENGTH, FORM], |faults| {
        let level = faults.choose(FORM, 4, 1);
        let record = Record { level, ..record_for(GOOD, 3, LIVE, 7) };
        write(&record, &vec![9; faults.choose(LENGTH, 18, 17)])
    });
    // A frame is old or ahead.
    for age in [OLD, AHEAD] {
        let order = [N, M, T, P, LENGTH, FRAME_SIZE, MARK, VERSION, FORM, age, FOREIGN, SLOT];
        every_set(&order, |faults| {
            faults.book().enter_frame(faults.settings(), 0, &faults.frame(0))
        });
        every_set(&order, |faults| {
            faults.books().enter_frame(faults.settings(), 0, &faults.frame(0))
        });
    }
}

#[test]
fn the_bench() {
    let order = [N, M, T, P, LENGTH, STATUS, X, SLOT];
    every_set(&order, |faults| {
        let length = faults.choose(LENGTH, PLACES + 1, PLACES);
        faults.bench(CARDS, length).word_for(faults.settings().p, faults.slot(), 9)
    });
    every_set(&order[..7], |faults| {
        let length = faults.choose(LENGTH, CARDS - 1, CARDS);
        faults.bench(length, PLACES).answer_for(faults.settings().p, 9)
    });
    every_set(&order[..7], |faults| {
        let votes = vec![8; faults.choose(LENGTH, SLOTS - 1, SLOTS)];
        faults.bench(CARDS, PLACES).fill(faults.settings().p, &[6; SLOTS], &votes)
    });
    every_set(&[N, M, T, LENGTH, STATUS, X], |faults| {
        faults.bench(CARDS, PLACES).all_answers(&vec![9; faults.choose(LENGTH, CARDS + 1, CARDS)])
    });
    every_set(&[N, M, LENGTH, STATUS], |faults| {
        let statuses = faults.statuses(faults.choose(LENGTH, CARDS + 1, CARDS));
        bound(faults.settings().n, faults.settings().m, &statuses, 9)
    });
}

#[test]
fn the_outcome() {
    // Any of the three lists may have another length.
    for wrong in [(CARDS + 1, PLACES, OUTCOME), (CARDS, 0, OUTCOME), (CARDS, PLACES, CARDS)] {
        every_set(&[N, M, T, LENGTH, STATUS, X], |faults| {
            let (statuses, table, outcome) = faults.choose(LENGTH, wrong, (CARDS, PLACES, OUTCOME));
            faults.bench(statuses, table).set_row(&vec![9; outcome])
        });
    }
    every_set(&[LENGTH], |faults| start(&vec![9; faults.choose(LENGTH, OUTCOME + 1, OUTCOME)]));
}

const SHORT: Fault = ("under 24 bytes", 9);
const OVER: Fault = ("over 64 exceptions", 16);
const SIZE: Fault = ("another length than the number of exceptions asks for", 9);
const PLACE: Fault = ("a slot over 1,110", 16);

#[test]
fn listing_files() {
    let order = [SHORT, MARK, VERSION, OVER, SIZE, N, M, T, STATUS, X, PLACE];
    every_set(&order, |faults| {
        let Settings { n, m, t, .. } = faults.settings();
        let exceptions = faults.choose(OVER, 65, 64);
        let mut file = vec![b'O', b'M', faults.choose(MARK, b'H', b'X'), 0];
        file.push(faults.choose(VERSION, 2, 1));
        file.extend([n as u8, m as u8, t as u8]);
        file.extend(faults.statuses(CARDS));
        file.extend(faults.choose(X, E, -120).to_be_bytes());
        file.extend([0, exceptions]);
        let slot: u16 = faults.choose(PLACE, 1_111, 1_110);
        file.extend(slot.to_be_bytes());
        file.resize(HEAD + EXCEPTION * usize::from(exceptions), 0);
        file.extend(vec![0; faults.choose(SIZE, 1, 0)]);
        file.truncate(faults.choose(SHORT, HEAD - 1, file.len()));
        list(&file, &[9; TEXT])
    });
}
