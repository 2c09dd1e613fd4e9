//! Count and tally up to 20 items, and 21; the same rotas without a tally.

use super::battery;
use crate::inputs::families::{self, Callouts, Family};
use crate::random::Random;
use crate::reference::{permanent, Known};
use crate::rota::Tables;
use crate::session::{Outcome, Session};

/// How many rotas of each number of items.
const ROTAS: [(usize, usize); 10] =
    [(11, 50), (12, 50), (13, 25), (14, 25), (15, 20), (16, 20), (17, 12), (18, 12), (19, 8), (20, 8)];

const COUNTED: [Family; 12] = [
    Family::Full,
    Family::Half,
    Family::Half,
    Family::SevenEighths,
    Family::SevenEighths,
    Family::NearlyFull,
    Family::ScrambledTriangular,
    Family::PermutationAndNoise,
    Family::Blocks,
    Family::ScrambledBlockTriangular,
    Family::HallViolation,
    Family::Hessenberg,
];

pub fn run(session: &mut Session, random: &mut Random) -> Outcome {
    for (n, rotas) in ROTAS {
        for _ in 0..rotas {
            let (family, callouts) = (random.pick(&COUNTED), random.pick(&families::CALLOUTS));
            let known = Known::new(families::rota(family, callouts, n, random));
            with_tallies(session, &known, random)?;
            words_by_ryser(&known, random);
        }
    }
    with_tallies(session, &Known::new(families::rota(Family::Full, Callouts::No, 20, random)), random)?;
    beyond_twenty(session, random)
}

fn with_tallies(session: &mut Session, known: &Known, random: &mut Random) -> Outcome {
    let exact = 1 << known.n();
    for words in [exact - 1, exact, exact + 1 + random.below(50)] {
        session.count_plans(known, words)?;
    }
    session.grade(known, exact - 1)?;
    session.grade(known, exact)?;
    let vehicles = battery::fleet(random);
    session.monthly_price(known, vehicles, exact - 1)?;
    session.monthly_price(known, vehicles, exact + 3)?;
    without_tally(session, known, vehicles)
}

fn without_tally(session: &mut Session, known: &Known, vehicles: u64) -> Outcome {
    session.count_untallied(known)?;
    session.grade_untallied(known)?;
    session.price_untallied(known, vehicles)
}

/// Some words of the expected tally, counted by Ryser's formula.
fn words_by_ryser(known: &Known, random: &mut Random) {
    for _ in 0..4 {
        let set = random.word() & ((1 << known.n()) - 1);
        let items = set.count_ones() as usize;
        let ways = permanent::permanent(&known.tables.opens[..items], set);
        assert_eq!(known.tally()[set as usize], ways, "two ways to count for {set:#x} of\n{}", known.tables);
    }
}

/// More than 20 items: 5 whatever the tally, or what comes before 5.
fn beyond_twenty(session: &mut Session, random: &mut Random) -> Outcome {
    for n in 21..=64 {
        let known = Known::new(families::any(n, random));
        for words in [0, 1, 1 << 10] {
            session.count_plans(&known, words)?;
            session.grade(&known, words)?;
            session.monthly_price(&known, 0, words)?;
        }
        without_tally(session, &known, 0)?;
    }
    let known = Known::new(Tables::open(&[1; 21]));
    session.count_plans(&known, 1 << 21)?;
    session.grade(&known, 1 << 21)?;
    session.monthly_price(&known, 1, 1 << 21)?;
    without_tally(session, &known, 1)
}
