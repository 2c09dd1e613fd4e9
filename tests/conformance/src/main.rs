//! Compares every public call of the rota library with answers found independently of it.
//!
//! `conformance [SCALE] [SEED]` makes SCALE rounds of cases; `--counts` shows how many for each call; `--trace` writes every
//! input to standard error before the call. `conformance --self-test` shows that wrong answers are found. Rounds, and the wrong
//! answers of the self-test, are spread over the machine's processors; a trace is of one round after the other.

mod checks;
mod checks_numbers;
mod checks_untallied;
mod inputs;
mod interface;
mod lent;
mod parallel;
mod random;
mod reference;
mod rota;
mod self_test;
mod session;
mod subjects;
mod wrappers;

use interface::library;
use parallel::{processors, spread};
use random::Random;
use reference::answers::CALLS;
use session::Session;
use std::process::ExitCode;

const USAGE: &str = "conformance [SCALE] [SEED] [--counts] [--trace], or conformance --self-test";

fn main() -> ExitCode {
    let arguments: Vec<String> = std::env::args().skip(1).collect();
    let asked = |option: &str| arguments.iter().any(|argument| argument == option);
    let numbers: Vec<&String> = arguments.iter().filter(|argument| !argument.starts_with("--")).collect();
    let number = |place: usize| numbers.get(place).map_or(Ok(1), |text| text.parse::<u64>());
    let options = ["--counts", "--trace", "--self-test"];
    let known = arguments.iter().all(|argument| !argument.starts_with("--") || options.contains(&argument.as_str()));
    match (number(0), number(1)) {
        _ if !known || numbers.len() > 2 => usage(),
        _ if asked("--self-test") => self_test::run(),
        (Ok(scale @ 1..), Ok(seed)) => compare(scale, seed, asked("--counts"), asked("--trace")),
        _ => usage(),
    }
}

fn usage() -> ExitCode {
    eprintln!("usage: {USAGE}");
    ExitCode::from(2)
}

/// The first round has the seed itself, so that any round can be made again alone.
fn round_seed(seed: u64, round: u64) -> u64 {
    if round == 0 {
        seed
    } else {
        Random::stream(seed, &format!("round {round}")).word()
    }
}

fn compare(scale: u64, seed: u64, counts: bool, trace: bool) -> ExitCode {
    println!("conformance: scale {scale}, seed {seed}");
    let workers = if trace { 1 } else { processors() };
    let rounds = spread(scale, workers, |round| {
        let mut session = Session::new(library(), trace);
        let seed = round_seed(seed, round);
        match subjects::run(&mut session, seed) {
            Ok(()) => Ok(session),
            Err(difference) => Err((round, seed, difference)),
        }
    });
    let session = match rounds {
        Ok(sessions) => sessions.into_iter().reduce(Session::with).expect("a round"),
        Err((round, seed, difference)) => {
            println!("conformance: a difference in round {round}; again with: conformance 1 {seed}");
            println!("{}", difference.0);
            return ExitCode::FAILURE;
        }
    };
    if counts {
        for call in CALLS {
            println!("{:28} {:9} cases {:9} calls", call.name(), session.cases_of(call), session.made_of(call));
        }
    }
    println!("conformance: {} cases agree", session.all_cases());
    ExitCode::SUCCESS
}
