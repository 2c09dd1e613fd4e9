//! What is tried, subject by subject. Each has a random stream of its own.

mod apart;
mod battery;
mod brittle;
mod cells;
mod counts;
mod damage;
mod files;
mod listings;
mod numbers;
mod overlap;
mod prices;
mod refusals;
mod sheets;
mod sizes;
mod small;
mod untallied;
mod worked;

use crate::random::Random;
use crate::session::{Outcome, Session};

type Subject = fn(&mut Session, &mut Random) -> Outcome;

const SUBJECTS: [(&str, Subject); 20] = [
    ("worked", worked::run),
    ("refusals", refusals::run),
    ("small", small::run),
    ("cells", cells::run),
    ("sheets", sheets::run),
    ("apart", apart::run),
    ("listings", listings::run),
    ("prices", prices::run),
    ("brittle", brittle::run),
    ("overlap", overlap::run),
    ("overlap of many items", overlap::many_items),
    ("files", files::run),
    ("damage", damage::run),
    ("sizes", sizes::run),
    ("counts", counts::run),
    ("untallied", untallied::run),
    ("untallied at bounds", untallied::bounds),
    ("numbers", numbers::run),
    ("numbers at bounds", numbers::bounds),
    ("numbers beside the lister", numbers::beside),
];

/// All subjects once.
pub fn run(session: &mut Session, seed: u64) -> Outcome {
    SUBJECTS.iter().try_for_each(|(name, _)| run_one(session, seed, name))
}

/// One subject by its name.
pub fn run_one(session: &mut Session, seed: u64, name: &str) -> Outcome {
    let (_, subject) = SUBJECTS.iter().find(|(other, _)| *other == name).expect("a subject");
    session.random = Random::stream(seed, &format!("{name}, lent buffers"));
    subject(session, &mut Random::stream(seed, name))
}
