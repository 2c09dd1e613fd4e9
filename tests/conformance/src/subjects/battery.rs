//! Every call over one rota.

use crate::checks::KnownFile;
use crate::inputs::given;
use crate::random::Random;
use crate::reference::answers::{Call, Input, GREATEST_COUNTED};
use crate::reference::rota_file::{blocks_for, BLOCK};
use crate::reference::sheet::{self, LINE};
use crate::reference::Known;
use crate::rota::Cell;
use crate::session::{Outcome, Session};

/// Fleet sizes at the bounds of the rules, and beyond 32 bits.
pub const FLEETS: [u64; 14] = [0, 1, 2, 49, 50, 51, 499, 500, 501, 9_999, 10_000, 10_001, (1 << 32) + 1, u64::MAX];

/// Up to here every rota gets its tally; larger ones have a subject of their own.
const SMALL_TALLY: usize = 10;

/// Every call over an accepted rota.
pub fn every_call(session: &mut Session, known: &Known, random: &mut Random) -> Outcome {
    let plans: Vec<_> = (0..given::KINDS).map(|kind| given::plan(kind, known, random)).collect();
    let fewest = known.fewest().map_or(0, |(number, _)| number);
    let caps = [fewest.wrapping_sub(1), fewest, fewest + 1, 0, u32::MAX, random.below(65) as u32];
    let cells = given::cells(known, random);
    calls_on_tables(session, known, &plans, &caps, &cells, random)?;
    calls_on_file(session, &KnownFile::of(known), &plans, &caps, random)
}

/// Every call over tables, which may be refused.
pub fn calls_on_tables(
    session: &mut Session,
    known: &Known,
    plans: &[[u8; 64]],
    caps: &[u32],
    cells: &[Cell],
    random: &mut Random,
) -> Outcome {
    session.first_plan(known)?;
    for plan in plans {
        session.next_plan(known, plan)?;
        session.list_plan(known, true, plan)?;
    }
    session.list_plan(known, false, &given::random_bytes(random))?;
    session.list_plan(known, false, &plans[0])?;
    for &cap in caps {
        session.fewest_callouts(known, cap)?;
    }
    for words in lengths(known.n().min(64), random) {
        session.usable_slots(known, words)?;
    }
    session.cell_plans(known, cells.iter().copied())?;
    let pages = pages(known.n().min(64));
    let exact = plans.iter().map(|plan| (*plan, pages[0]));
    let others = plans.iter().cycle().zip(&pages[1..]).map(|(plan, &bytes)| (*plan, bytes));
    session.plan_sheets(known, exact.chain(others))?;
    for bytes in lengths(BLOCK * blocks_for(known.n()), random) {
        session.write_file(known, bytes)?;
    }
    calls_on_tally(session, known, plans, random)
}

/// One too short, none at all, exact, one too long, longer.
pub fn lengths(needed: usize, random: &mut Random) -> [usize; 5] {
    [needed.saturating_sub(1), 0, needed, needed + 1, needed + 2 + random.below(100)]
}

/// The lengths of pages for so many items: exact, one too long, one too short, a line too short, none at all, much longer.
pub fn pages(n: usize) -> [usize; 6] {
    let exact = sheet::bytes_for(n);
    [exact, exact + 1, exact - 1, n * LINE, 0, exact + 10 * LINE + 5]
}

fn calls_on_tally(session: &mut Session, known: &Known, plans: &[[u8; 64]], random: &mut Random) -> Outcome {
    // A tally that would be large is lent too short here.
    let tallies = match known.n() {
        n if n <= SMALL_TALLY => lengths(1 << n, random),
        n if n <= GREATEST_COUNTED => [0, 1, n, 1 << SMALL_TALLY, random.below(1 << SMALL_TALLY)],
        _ => [0, 1, 64, 1 << SMALL_TALLY, random.below(1 << SMALL_TALLY)],
    };
    let mut fleets = vec![];
    for words in tallies {
        session.count_plans(known, words)?;
        session.grade(known, words)?;
        for _ in 0..2 {
            let vehicles = fleet(random);
            session.monthly_price(known, vehicles, words)?;
            fleets.push(vehicles);
        }
    }
    calls_without_tally(session, known, &fleets)?;
    plan_numbers(session, known, plans, tallies, &mut random.clone())
}

/// The calls without a tally, with the same fleets. Accepted rotas above a small tally are left to subjects of their own here too.
fn calls_without_tally(session: &mut Session, known: &Known, fleets: &[u64]) -> Outcome {
    let counted = Input::new(Call::CountPlansUntallied, known).refusal() == 0;
    if counted && known.n() > SMALL_TALLY {
        return Ok(());
    }
    session.count_untallied(known)?;
    session.grade_untallied(known)?;
    fleets.iter().try_for_each(|&vehicles| session.price_untallied(known, vehicles))
}

/// Numbers and plans with tallies of the same lengths: all of them with the exact one, which is the third, some with the others.
fn plan_numbers(
    session: &mut Session,
    known: &Known,
    plans: &[[u8; 64]],
    tallies: [usize; 5],
    random: &mut Random,
) -> Outcome {
    let counted = known.n() <= SMALL_TALLY && Input::new(Call::CountPlansUntallied, known).refusal() == 0;
    let count = if counted { known.count() } else { 0 };
    let numbers = [0, count.wrapping_sub(1), count, random.word() % (count + 1), u64::MAX];
    numbers.iter().try_for_each(|&k| session.plan_at(known, k, tallies[2]))?;
    plans.iter().try_for_each(|plan| session.plan_number(known, plan, tallies[2]))?;
    for turn in [0, 1, 3, 4] {
        session.plan_at(known, 0, tallies[turn])?;
        session.plan_at(known, numbers[turn], tallies[turn])?;
        session.plan_number(known, &plans[0], tallies[turn])?;
        session.plan_number(known, &plans[plans.len() - 1], tallies[turn])?;
    }
    Ok(())
}

/// A fleet size at a bound, or any that is accepted.
pub fn fleet(random: &mut Random) -> u64 {
    match random.below(2) {
        0 => random.pick(&FLEETS),
        _ => 1 + random.below(10_000) as u64,
    }
}

/// The lengths of plan buffers.
pub const PLAN_ROOMS: [usize; 5] = [64, 0, 63, 65, 100];

/// Every call over a file, which may be refused.
pub fn calls_on_file(
    session: &mut Session,
    file: &KnownFile,
    plans: &[[u8; 64]],
    caps: &[u32],
    random: &mut Random,
) -> Outcome {
    let n = file.known.n();
    let more = n + 1 + random.below(100);
    for room in [[n, n], [64, 64], [more, n], [n, more], [n.saturating_sub(1), n], [n, n.saturating_sub(1)], [0, 0]] {
        session.read_file(file, room)?;
    }
    for room in PLAN_ROOMS {
        session.file_first_plan(file, &given::random_bytes(random), room)?;
    }
    for (turn, plan) in plans.iter().enumerate() {
        session.file_next_plan(file, plan, 64)?;
        session.file_next_plan(file, plan, PLAN_ROOMS[1 + turn % 4])?;
    }
    for (turn, &cap) in caps.iter().enumerate() {
        session.file_fewest_callouts(file, &given::random_bytes(random), 64, cap)?;
        session.file_fewest_callouts(file, &given::random_bytes(random), PLAN_ROOMS[1 + turn % 4], cap)?;
    }
    Ok(())
}
