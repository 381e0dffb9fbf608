//! Tables of what faulty cards say, for one fault pattern: all of few words where they are
//! not too many, else all splits at the deepest level, and attacks drawn at random.

use crate::patterns::Place;
use crate::random::Random;
use second::exchange::PLACES;
use second::paths::{CARDS, ROUNDS};
use second::words::E;

/// The sender's value.
pub const X: i32 = 10;

/// What faulty cards say: x, another word, wrapped missing, E and a third word. The first
/// two or more of them are what all tables are made of.
const WORDS: [i32; 5] = [X, 20, E + 1, E, -30];

/// How many tables are tried.
#[derive(Clone, Copy, Debug)]
pub struct Limits {
    /// All of a kind, where they are at most so many.
    pub all: usize,
    /// Attacks drawn at random.
    pub drawn: usize,
}

/// Tables that differ at a pattern's places; every other place is E.
pub struct Tables<'a> {
    places: &'a [Place],
    random: &'a mut Random,
    table: Vec<i32>,
}

impl<'a> Tables<'a> {
    pub fn new(places: &'a [Place], random: &'a mut Random) -> Self {
        Tables { places, random, table: vec![E; PLACES] }
    }

    /// Hands each table on. The first has x everywhere, so that each pattern is seen with
    /// faulty cards that do no harm.
    pub fn each<F>(
        &mut self,
        limits: Limits,
        mut hand: impl FnMut(&[i32]) -> Result<(), F>,
    ) -> Result<(), F> {
        self.fill(|_, _| X);
        hand(&self.table)?;
        if self.places.is_empty() {
            return Ok(());
        }
        let words = self.words_for_all(limits.all);
        if words >= 2 {
            self.each_of(words, &mut hand)?;
        } else {
            self.each_split(limits.all, &mut hand)?;
        }
        let drawn = if words == WORDS.len() { 0 } else { limits.drawn };
        for _ in 0..drawn {
            let attack = Attack::draw(self.random);
            self.fill(|random, place| attack.word(random, place));
            hand(&self.table)?;
        }
        Ok(())
    }

    /// How many of the words may stand at every place in every combination.
    fn words_for_all(&self, most: usize) -> usize {
        let places = self.places.len() as u32;
        let few = |words: &usize| words.checked_pow(places).is_some_and(|tables| tables <= most);
        (1..=WORDS.len()).rev().find(few).unwrap_or(1)
    }

    fn each_of<F>(
        &mut self,
        words: usize,
        hand: &mut impl FnMut(&[i32]) -> Result<(), F>,
    ) -> Result<(), F> {
        for number in 0..words.pow(self.places.len() as u32) {
            let mut left = number;
            self.fill(|_, _| {
                let word = WORDS[left % words];
                left /= words;
                word
            });
            hand(&self.table)?;
        }
        Ok(())
    }

    /// Every split of x and another word at the deepest level, under attacks above it.
    fn each_split<F>(
        &mut self,
        most: usize,
        hand: &mut impl FnMut(&[i32]) -> Result<(), F>,
    ) -> Result<(), F> {
        let deepest = self.places.iter().map(|place| place.level).max().unwrap_or(0);
        let deep = self.places.iter().filter(|place| place.level == deepest).count();
        let Some(splits) = 1usize.checked_shl(deep as u32).filter(|&splits| splits <= most) else {
            return Ok(());
        };
        for split in 0..splits {
            let attack = Attack::draw(self.random);
            let mut left = split;
            self.fill(|random, place| {
                if place.level < deepest {
                    return attack.word(random, place);
                }
                let word = WORDS[left & 1];
                left >>= 1;
                word
            });
            hand(&self.table)?;
        }
        Ok(())
    }

    fn fill(&mut self, mut word: impl FnMut(&mut Random, &Place) -> i32) {
        for place in self.places {
            self.table[place.at] = word(self.random, place);
        }
    }
}

/// Faulty cards that act together: they tell each camp of cards its own word.
struct Attack {
    /// x and one or two others.
    words: Vec<i32>,
    /// Which of the words each card is told; of a symmetric card, which it tells.
    camps: [usize; CARDS],
    /// Levels at which they lie; at the others they say x.
    lying: [bool; ROUNDS + 1],
    /// One place in so many has any of the words.
    stray: usize,
}

impl Attack {
    fn draw(random: &mut Random) -> Self {
        let mut others = WORDS[1..].to_vec();
        random.shuffle(&mut others);
        let words = [&[X], &others[..1 + random.below(2)]].concat();
        let camps = [(); CARDS].map(|()| random.below(words.len()));
        let lying = [(); ROUNDS + 1].map(|()| !random.one_in(4));
        Attack { words, camps, lying, stray: random.pick(&[1, 2, 8, usize::MAX]) }
    }

    fn word(&self, random: &mut Random, place: &Place) -> i32 {
        if !self.lying[place.level] {
            X
        } else if random.one_in(self.stray) {
            random.pick(&self.words)
        } else {
            self.words[self.camps[place.card]]
        }
    }
}
