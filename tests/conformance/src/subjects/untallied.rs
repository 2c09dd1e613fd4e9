//! Count, grade and price without a tally: every size that is counted, by itself and beside the calls with a tally; then the bounds.

use crate::inputs::families::{self, Callouts, Family, FAMILIES};
use crate::inputs::{brittle, refused};
use crate::random::Random;
use crate::reference::answers::GREATEST_COUNTED;
use crate::reference::Known;
use crate::rota::{low, Tables};
use crate::session::{Outcome, Session};

/// Fleets at the bounds of the rates and of refusal 7.
const FLEETS: [u64; 8] = [0, 1, 49, 50, 499, 500, 10_000, 10_001];

/// Up to here a rota of each family, with every fleet; above, a rota of each of the larger ones, with three fleets; from 17 items on of
/// every second one, in turn.
const EVERY_FAMILY: usize = 10;
const EVERY_LARGER: usize = 16;
const LARGER: [Family; 12] = [
    Family::Full,
    Family::Diagonal,
    Family::LowerTriangular,
    Family::UpperTriangular,
    Family::ScrambledTriangular,
    Family::Cycle,
    Family::ThreeSlotsEach,
    Family::Half,
    Family::HallViolation,
    Family::IdleItem,
    Family::ShutSlot,
    Family::Hessenberg,
];

/// Ten items with 6 × 65,536 plans. Twice in one rota they make a multiple of 2 to the power 32.
const MULTIPLE: [u64; 10] = [893, 725, 991, 1_015, 1_022, 730, 507, 763, 1_023, 893];

pub fn run(session: &mut Session, random: &mut Random) -> Outcome {
    for n in 1..=EVERY_FAMILY {
        for family in FAMILIES {
            let callouts = random.pick(&families::CALLOUTS);
            every_call(session, &Known::new(families::rota(family, callouts, n, random)), &FLEETS)?;
        }
    }
    for n in EVERY_FAMILY + 1..=GREATEST_COUNTED {
        let (skipped, step) = if n <= EVERY_LARGER { (0, 1) } else { (n % 2, 2) };
        for &family in LARGER.iter().skip(skipped).step_by(step) {
            let callouts = random.pick(&families::CALLOUTS);
            let fleets = [0, 1 + random.below(10_000) as u64, 10_001];
            every_call(session, &Known::new(families::rota(family, callouts, n, random)), &fleets)?;
        }
    }
    Ok(())
}

/// The three calls, with each fleet, and beside the tally with the second.
fn every_call(session: &mut Session, known: &Known, fleets: &[u64]) -> Outcome {
    session.count_untallied(known)?;
    session.grade_untallied(known)?;
    fleets.iter().try_for_each(|&vehicles| session.price_untallied(known, vehicles))?;
    session.beside_the_tally(known, fleets[1])
}

/// The three calls where n, the count or the fleet is at a bound, and where the last of 20 items is brittle or none is.
pub fn bounds(session: &mut Session, random: &mut Random) -> Outcome {
    for n in [0, 1, 21, 22, 64, 65] {
        for word in [low(n.min(64)), 0] {
            every_call(session, &Known::new(Tables::open(&vec![word; n])), &FLEETS)?;
        }
    }
    for n in [1, 20, 21, 64] {
        for faults in 1..16 {
            every_call(session, &Known::new(refused::tables(n, faults, random)), &FLEETS)?;
        }
    }
    let fleets = [0, 500, 10_001];
    for sizes in [&[19, 1][..], &[20]] {
        let opens = brittle::placed(brittle::cycles(sizes, random), |n| n - 1);
        every_call(session, &Known::new(Tables::open(&opens)), &fleets)?;
    }
    twenty(random).into_iter().try_for_each(|tables| every_call(session, &Known::new(tables), &fleets))?;
    every_call(session, &Known::new(families::rota(Family::Diagonal, Callouts::Some, 20, random)), &FLEETS)
}

/// Rotas of 20 items: a multiple of 2 to the power 32; every slot but its own open to each item, which makes an odd number above 2 to
/// the power 53; no plan; 20! plans; one plan.
fn twenty(random: &mut Random) -> Vec<Tables> {
    let of = |family: Family, random: &mut Random| families::rota(family, Callouts::Some, 20, random);
    let mut none = of(Family::Full, random);
    (none.opens[19], none.callouts[19]) = (0, 0);
    let twice: Vec<u64> = MULTIPLE.iter().copied().chain(MULTIPLE.iter().map(|word| word << 10)).collect();
    vec![
        Tables::open(&families::scrambled(twice, random)),
        Tables::open(&(0..20).map(|item| low(20) & !(1 << item)).collect::<Vec<u64>>()),
        none,
        of(Family::Full, random),
        of(Family::LowerTriangular, random),
        of(Family::UpperTriangular, random),
        of(Family::Permutation, random),
    ]
}
