//! Document 01, "Listing program".

use crate::exchange::{answers, bound_holds, check, Exchange, PLACES};
use crate::paths::{CARDS, SLOTS};
use crate::words::E;
use crate::Refusal;

const MARK: [u8; 3] = *b"OMX";
const VERSION: [u8; 2] = [0, 1];
const HEAD_LENGTH: usize = 24;
const EXCEPTION_LENGTH: usize = 7;
const MOST_EXCEPTIONS: usize = 64;

/// What the listing program prints for a file.
pub fn listing(file: &[u8]) -> String {
    list(file).unwrap_or_else(|refusal| format!("refused {refusal}\n"))
}

/// The lines of a file's exchange. The order of the checks is the document's.
fn list(file: &[u8]) -> Result<String, Refusal> {
    let (head, exceptions) = split(file)?;
    let blank = vec![E; PLACES];
    let mut exchange = Exchange {
        n: usize::from(head[5]),
        m: usize::from(head[6]),
        t: usize::from(head[7]),
        statuses: &head[8..18],
        x: i32::from_be_bytes([head[18], head[19], head[20], head[21]]),
        table: &blank,
    };
    check(&exchange, None, true)?;
    let table = table_of(exceptions)?;
    exchange.table = &table;
    lines(&exchange)
}

/// The head and the exceptions of a file of the right mark, version and length.
fn split(file: &[u8]) -> Result<(&[u8; HEAD_LENGTH], &[u8]), Refusal> {
    let (head, exceptions) = file.split_first_chunk::<HEAD_LENGTH>().ok_or(9)?;
    if head[0..3] != MARK {
        return Err(10);
    }
    if head[3..5] != VERSION {
        return Err(11);
    }
    let number = usize::from(u16::from_be_bytes([head[22], head[23]]));
    if number > MOST_EXCEPTIONS {
        return Err(16);
    }
    if exceptions.len() != EXCEPTION_LENGTH * number {
        return Err(9);
    }
    Ok((head, exceptions))
}

fn table_of(exceptions: &[u8]) -> Result<Vec<i32>, Refusal> {
    let mut table = vec![E; PLACES];
    for bytes in exceptions.chunks_exact(EXCEPTION_LENGTH) {
        let slot = usize::from(u16::from_be_bytes([bytes[0], bytes[1]]));
        let receiver = usize::from(bytes[2]);
        if slot >= SLOTS || receiver >= CARDS {
            return Err(16);
        }
        let word = i32::from_be_bytes([bytes[3], bytes[4], bytes[5], bytes[6]]);
        table[CARDS * slot + receiver] = word;
    }
    Ok(table)
}

fn lines(exchange: &Exchange) -> Result<String, Refusal> {
    let mut list = [E; CARDS];
    answers(exchange, &mut list)?;
    let mut text = String::new();
    let cards = exchange.statuses.iter().zip(list).enumerate().take(exchange.n);
    for (card, (status, answer)) in cards {
        let answer = if answer == E { "-".to_string() } else { answer.to_string() };
        text.push_str(&format!("{card} {status} {answer}\n"));
    }
    let held = bound_holds(exchange.n, exchange.m, exchange.statuses)?;
    text.push_str(if held { "bound held\n" } else { "bound not held\n" });
    Ok(text)
}
