//! The soak: hostile inputs through the library's C surface, compared with the second
//! program.

use linked::calls::Calls;
use linked::options::Options;
use linked::progress::Progress;
use linked::random;
use linked::soak::soak;
use std::io::{self, Write};
use std::panic;
use std::process::ExitCode;

const USAGE: &str = "\
usage: soak [--count N] [--seed S] [--progress]
       soak --help

Gives the proved library and the second program the same hostile inputs, at
least N of them, and compares all that they yield: answers, refusals, and every
lent list, which a refusal leaves as it was. Then tells how often each refusal
came in each call, and what entered words met at their slots: E, the same word,
another word, or that the slot was contradicted.

  --count N     number of inputs; 1000000 where it is not given
  --seed S      another run; a seed repeats its run exactly; 1 where it is not given
  --progress    a line each second on standard error, as on a terminal

Ends with 0; with 1 where the two differ, a call gave a refusal that it cannot
give, or, from 100000 inputs on, did not give one that it can, or its words did
not meet each of the four; with 2 where the command line is wrong.
";

const USUAL_COUNT: u64 = 1_000_000;

/// From so many inputs on every refusal must have come, and words have met all that they can.
const ENOUGH: u64 = 100_000;

fn main() -> ExitCode {
    let arguments = std::env::args().skip(1);
    match Options::parse(arguments, &["--help", "--progress"], &["--count", "--seed"]) {
        Ok(options) if options.has("--help") => ended(print(USAGE)),
        Ok(options) => ended(run(&options)),
        Err(wrong) => {
            eprintln!("soak: {wrong}");
            ExitCode::from(2)
        }
    }
}

fn ended(outcome: Result<(), String>) -> ExitCode {
    match outcome {
        Ok(()) => ExitCode::SUCCESS,
        Err(failure) => {
            eprintln!("soak: {failure}");
            ExitCode::FAILURE
        }
    }
}

fn print(text: &str) -> Result<(), String> {
    io::stdout().write_all(text.as_bytes()).map_err(|error| error.to_string())
}

fn run(options: &Options) -> Result<(), String> {
    if let Some(seed) = options.number("--seed") {
        random::start_from(seed);
    }
    let count = options.number("--count").unwrap_or(USUAL_COUNT);
    let mut progress = Progress::new(options.has("--progress"));
    // A difference is told below, with the input's number.
    panic::set_hook(Box::new(|_| {}));
    let outcome = soak(count, |done| progress.tell(done, count, "inputs"));
    progress.end();
    tell(&outcome?)
}

/// Prints the summary, and fails where not all came that can come, or something else did.
fn tell(calls: &Calls) -> Result<(), String> {
    let (seed, total) = (random::seed(), calls.total());
    print(&format!("{}\nseed {seed}, {total} inputs, no difference\n", calls.summary()))?;
    let unexpected = calls.unexpected();
    if !unexpected.is_empty() {
        return Err(format!("refusals that cannot come came: {}", unexpected.join(", ")));
    }
    let missing = calls.missing();
    if total >= ENOUGH && !missing.is_empty() {
        return Err(format!("refusals that can come did not: {}", missing.join(", ")));
    }
    let unmet = calls.unmet();
    if total >= ENOUGH && !unmet.is_empty() {
        return Err(format!("no entered word met: {}", unmet.join(", ")));
    }
    Ok(())
}
