//! The coverage of fault patterns: every pattern of few cards under many tables.

use linked::cells::cells;
use linked::coverage::Coverage;
use linked::drawing::draw;
use linked::options::Options;
use linked::progress::Progress;
use linked::random::{self, Random};
use linked::settings::all_rounds;
use linked::tables::Limits;
use std::io::{self, Write};
use std::process::ExitCode;

const USAGE: &str = "\
usage: coverage [--quick] [--seed S] [--progress]
       coverage --picture [--quick] [--seed S]
       coverage --help

For every number of cards up to 6, every number of rounds, every sender and
every list of statuses: asks the proved library for all answers under many
tables of what the faulty cards say. Within the bound every good card must be
right and any two must agree. Then tells, by the numbers of arbitrary (a),
symmetric (s) and manifest (c) cards, for how many patterns the good cards
agreed always, sometimes and never.

  --picture     seven cards with one and with two rounds, as an SVG picture
  --quick       some seconds: up to 4 cards, or fewer tables for the picture
  --seed S      other tables; a seed repeats its run exactly; 1 where it is not given
  --progress    a line each second on standard error, as on a terminal

Ends with 0; with 1 where a promise of the bound is not kept; with 2 where the
command line is wrong.
";

fn main() -> ExitCode {
    let flags = ["--help", "--picture", "--quick", "--progress"];
    let outcome = match Options::parse(std::env::args().skip(1), &flags, &["--seed"]) {
        Err(wrong) => {
            eprintln!("coverage: {wrong}");
            return ExitCode::from(2);
        }
        Ok(options) if options.has("--help") => Ok(USAGE.to_string()),
        Ok(options) => run(&options),
    };
    let print = |text: String| io::stdout().write_all(text.as_bytes()).map_err(|e| e.to_string());
    match outcome.and_then(print) {
        Ok(()) => ExitCode::SUCCESS,
        Err(failure) => {
            eprintln!("coverage: {failure}");
            ExitCode::FAILURE
        }
    }
}

fn run(options: &Options) -> Result<String, String> {
    if let Some(seed) = options.number("--seed") {
        random::start_from(seed);
    }
    if options.has("--picture") {
        return picture(options.has("--quick"));
    }
    let mut progress = Progress::new(options.has("--progress"));
    let coverage = cover(options.has("--quick"), &mut progress);
    progress.end();
    let coverage = coverage?;
    let seed = random::seed();
    Ok(format!("{}\n{}\nseed {seed}, every promise kept\n", coverage.table(), coverage.summary()))
}

/// The picture as SVG, of many tables or of few.
fn picture(quick: bool) -> Result<String, String> {
    let limits = match quick {
        true => Limits { all: 64, drawn: 32 },
        false => Limits { all: 4_096, drawn: 4_096 },
    };
    Ok(draw(&cells(limits)?))
}

fn cover(quick: bool, progress: &mut Progress) -> Result<Coverage, String> {
    let most = if quick { 4 } else { 6 };
    let settings = all_rounds().into_iter().filter(|&(n, _)| n <= most);
    let all: u64 = settings.clone().map(|(n, _)| (n * 4usize.pow(n as u32)) as u64).sum();
    let (mut coverage, mut done) = (Coverage::default(), 0);
    let mut random = Random::new("coverage");
    for (n, m) in settings {
        coverage.cover((n, m), limits(m, quick), &mut random, || {
            done += 1;
            progress.tell(done, all, "patterns");
        })?;
    }
    Ok(coverage)
}

/// All answers with three rounds take ten times as long as with two.
fn limits(m: usize, quick: bool) -> Limits {
    match (quick, m) {
        (true, _) => Limits { all: 128, drawn: 32 },
        (false, 3) => Limits { all: 512, drawn: 256 },
        (false, _) => Limits { all: 4_096, drawn: 1_024 },
    }
}
