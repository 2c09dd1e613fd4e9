//! Shows that the program can fail: its methods are compared with each other, and wrong answers of a stand-in must be found.

mod brittle;
mod faults;
mod methods;
mod mock;
pub mod mock_calls;
mod numbers;
mod systematic;
mod wrong;
mod wrong_cells;
mod wrong_files;
mod wrong_grades;
mod wrong_numbers;
mod wrong_sheets;
mod wrong_untallied;

use crate::parallel::{processors, spread};
use crate::session::Session;
use crate::subjects;
use faults::Fault;
use std::process::ExitCode;

const SEED: u64 = 1;

/// The subjects that find wrong sheets, grades, prices, counts without a tally and plan numbers; without a fault they find nothing.
const FAULTLESS: [&str; 12] = [
    "refusals",
    "sheets",
    "apart",
    "prices",
    "brittle",
    "overlap",
    "overlap of many items",
    "untallied",
    "untallied at bounds",
    "numbers",
    "numbers at bounds",
    "numbers beside the lister",
];

pub fn run() -> ExitCode {
    let compared = methods::run() + brittle::run() + numbers::run();
    println!("self-test: {compared} comparisons between methods agree");
    let faultless = |turn: u64| {
        let subject = FAULTLESS[turn as usize];
        find(&Fault::none().found_by(subject)).map_or(Ok(()), |()| Err(subject))
    };
    if let Err(subject) = spread(FAULTLESS.len() as u64, processors(), faultless) {
        println!("self-test: found without a fault: {subject}");
        return ExitCode::FAILURE;
    }
    let faults = faults::all();
    match spread(faults.len() as u64, processors(), |turn| find(&faults[turn as usize])) {
        Ok(found) => {
            println!("self-test: {} kinds of wrong answers found", found.len());
            ExitCode::SUCCESS
        }
        Err(name) => {
            println!("self-test: not found: {name}");
            ExitCode::FAILURE
        }
    }
}

/// A fault must be found; else its name is given.
fn find(fault: &Fault) -> Result<(), &str> {
    mock::set_fault(fault);
    let mut session = Session::new(mock_calls::calls(), false);
    let outcome = match fault.subject {
        Some(subject) => subjects::run_one(&mut session, SEED, subject),
        None => subjects::run(&mut session, SEED),
    };
    match outcome {
        Ok(()) => Err(&fault.name),
        Err(_) => Ok(()),
    }
}
