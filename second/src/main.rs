//! The listing program: a listing file comes in on standard input, its listing goes out.

use second::listing::listing;
use std::io::{self, Read, Write};
use std::process::ExitCode;

const USAGE: &str = "\
usage: second < FILE
       second --help

Reads one listing file from standard input to its end and prints each card's
answer and whether the bound held, or the number of the refusal.
";

fn main() -> ExitCode {
    let arguments: Vec<_> = std::env::args_os().skip(1).collect();
    let done = match arguments.as_slice() {
        [] => run(),
        [only] if only == "--help" => io::stdout().write_all(USAGE.as_bytes()),
        _ => Err(io::Error::other("the only argument taken is --help")),
    };
    match done {
        Ok(()) => ExitCode::SUCCESS,
        Err(error) => {
            let _ = writeln!(io::stderr(), "second: {error}");
            ExitCode::FAILURE
        }
    }
}

fn run() -> io::Result<()> {
    let mut file = Vec::new();
    io::stdin().read_to_end(&mut file)?;
    io::stdout().write_all(listing(&file).as_bytes())
}
