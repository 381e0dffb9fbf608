//! Card 3 among 4 cards, with one round of relay and the sender 0, hears words and answers.

#[rustfmt::skip] // the layout of omh.h
#[link(name = "omh", kind = "static")]
extern "C" {
    fn omh_open(n: usize, m: usize, t: usize, p: usize,
                words: *mut i32, words_len: usize, votes: *mut i32, votes_len: usize) -> u8;
    fn omh_enter(n: usize, m: usize, t: usize, p: usize,
                 words: *mut i32, words_len: usize, votes: *mut i32, votes_len: usize,
                 slot: usize, word: i32) -> u8;
    fn omh_held_answer(words: *const i32, words_len: usize, votes: *const i32, votes_len: usize,
                       answer: *mut i32) -> u8;
}

const SLOTS: usize = 1111;
const MISSING: i32 = 1_000_000_000;

/// A card's book. Each call lends its two lists with their lengths, and nobody else has them
/// meanwhile: that is all that a caller owes, so its functions are safe.
struct Book {
    settings: (usize, usize, usize, usize),
    words: [i32; SLOTS],
    votes: [i32; SLOTS],
}

fn done(refused: u8) -> Result<(), u8> {
    match refused {
        0 => Ok(()),
        number => Err(number),
    }
}

impl Book {
    fn open(n: usize, m: usize, t: usize, p: usize) -> Result<Book, u8> {
        let mut book = Book { settings: (n, m, t, p), words: [0; SLOTS], votes: [0; SLOTS] };
        let (words, votes) = (book.words.as_mut_ptr(), book.votes.as_mut_ptr());
        done(unsafe { omh_open(n, m, t, p, words, SLOTS, votes, SLOTS) })?;
        Ok(book)
    }

    fn enter(&mut self, slot: usize, word: i32) -> Result<(), u8> {
        let (n, m, t, p) = self.settings;
        let (words, votes) = (self.words.as_mut_ptr(), self.votes.as_mut_ptr());
        done(unsafe { omh_enter(n, m, t, p, words, SLOTS, votes, SLOTS, slot, word) })
    }

    fn answer(&self) -> Option<i32> {
        let (words, votes, mut answer) = (self.words.as_ptr(), self.votes.as_ptr(), MISSING);
        unsafe { omh_held_answer(words, SLOTS, votes, SLOTS, &mut answer) };
        Some(answer).filter(|&word| word != MISSING)
    }
}

fn main() -> Result<(), u8> {
    let mut book = Book::open(4, 1, 0, 3)?;
    // from the sender, by card 1, by card 2, and by card 3 itself, which is not live for it
    for (slot, word) in [(0, 30), (2, 10), (3, 10), (4, 99)] {
        if let Err(refused) = book.enter(slot, word) {
            println!("slot {slot}: refused {refused}");
        }
    }
    match book.answer() {
        Some(answer) => println!("answer {answer}"),
        None => println!("no answer"),
    }
    Ok(())
}
