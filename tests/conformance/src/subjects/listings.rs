//! Demand 3: whole lister runs with refused calls in between, and pairs of rotas compared by listing and by usable table.

use crate::checks::Lister;
use crate::inputs::families::{self, Callouts, Family};
use crate::inputs::{given, refused};
use crate::lent::Lent;
use crate::random::Random;
use crate::reference::answers::Call;
use crate::reference::{permanent, Known};
use crate::rota::{low, plan_text, Plan, Tables};
use crate::session::{Difference, Outcome, Session};
use crate::wrappers::{LentLister, LentTables};

/// Runs of rotas of up to six items, of sparse larger ones, of dense large ones, and pairs.
const SMALL_RUNS: usize = 1_200;
const SPARSE_RUNS: usize = 150;
const PARTIAL_RUNS: usize = 60;
const PAIRS: usize = 600;

/// Families with few plans, and with very many.
const SPARSE: [Family; 10] = [
    Family::FewPlans,
    Family::FewPlans,
    Family::FewPlans,
    Family::ScrambledTriangular,
    Family::TriangularAndOneCell,
    Family::PermutationAndNoise,
    Family::Blocks,
    Family::ScrambledBlockTriangular,
    Family::Cycle,
    Family::Shift,
];
const DENSE: [Family; 5] = [Family::Full, Family::Half, Family::SevenEighths, Family::NearlyFull, Family::Hessenberg];

/// A run ends here if the rota has more plans. Up to six items there are at most 720.
const LONGEST: u64 = 800;
const LONGEST_PARTIAL: u64 = 100;

pub fn run(session: &mut Session, random: &mut Random) -> Outcome {
    for turn in 0..SMALL_RUNS {
        let n = 1 + turn % 6;
        listing(session, &Known::new(families::any(n, random)), LONGEST, random)?;
    }
    for turn in 0..SPARSE_RUNS {
        let n = 7 + turn % 58;
        let family = random.pick(&SPARSE);
        listing(session, &Known::new(families::rota(family, Callouts::Some, n, random)), LONGEST, random)?;
    }
    for turn in 0..PARTIAL_RUNS {
        let n = 64 - turn % 58;
        let family = random.pick(&DENSE);
        listing(session, &Known::new(families::rota(family, Callouts::Some, n, random)), LONGEST_PARTIAL, random)?;
    }
    for turn in 0..PAIRS {
        pair(session, 1 + turn % 6, random)?;
    }
    Ok(())
}

/// One run from a fresh lister with any plan in it: one case.
fn listing(session: &mut Session, known: &Known, longest: u64, random: &mut Random) -> Outcome {
    session.case(Call::ListPlan);
    let mut lister = Lister::new(false, &given::random_bytes(random), session);
    let mut plans = 0u64;
    let mut further = 3;
    while further > 0 && plans < longest {
        while random.chance(1, 4) {
            refused_call(session, &mut lister, known, random)?;
        }
        match session.list_plan_with(&mut lister, known)? {
            0 => plans += 1,
            _ => further -= 1,
        }
    }
    refused_call(session, &mut lister, known, random)?;
    let ended = further == 0;
    if ended && known.n() <= 14 {
        let count = permanent::permanent(&known.tables.opens, low(known.n()));
        assert_eq!(plans, count, "the expected listing is as long as the count of\n{}", known.tables);
    }
    Ok(())
}

/// A call over something else that is refused and leaves the lister alone.
fn refused_call(session: &mut Session, lister: &mut Lister, known: &Known, random: &mut Random) -> Outcome {
    let n = known.n();
    let other = match random.below(5) {
        0 | 1 => refused::tables(n, 1 + random.below(15), random),
        2 if lister.started => only_plan(n, &lister.plan),
        3 if lister.started => without_a_cell(&known.tables, &lister.plan, random),
        _ => families::rota(Family::IdleItem, Callouts::Some, 1 + random.below(64), random),
    };
    let code = session.list_plan_with(lister, &Known::new(other))?;
    assert_ne!(code, 0, "the other call is refused");
    Ok(())
}

/// A rota with this plan and no other: 10.
fn only_plan(n: usize, plan: &Plan) -> Tables {
    Tables::open(&plan[..n].iter().map(|&slot| 1 << slot).collect::<Vec<u64>>())
}

/// The same rota with a cell of this plan closed: 8.
fn without_a_cell(tables: &Tables, plan: &Plan, random: &mut Random) -> Tables {
    let item = random.below(tables.n);
    let mut other = tables.clone();
    other.opens[item] &= !(1 << plan[item]);
    other.callouts[item] &= other.opens[item];
    other
}

/// The listing and the usable words of an accepted rota, as the library gives them.
fn given_by_library(session: &mut Session, tables: &Tables) -> (Vec<Plan>, Vec<u64>) {
    session.making_over(tables);
    let mut lent = LentTables::new(tables, &mut session.random);
    let mut lister = LentLister::new(false, &[7; 64], &mut session.random);
    let mut plans = vec![];
    while plans.len() <= 720 {
        let answer = session.calls.list(&mut lister, &mut lent);
        if answer.code != 0 {
            break;
        }
        plans.push(answer.plan.slots);
    }
    let mut usable = Lent::junk("usable table", tables.n, &mut session.random);
    session.calls.usable(&mut lent, &mut usable);
    (plans, usable.contents().to_vec())
}

/// Two rotas are equal in their listings exactly when they are equal in their usable cells.
fn pair(session: &mut Session, n: usize, random: &mut Random) -> Outcome {
    session.case(Call::ListPlan);
    session.case(Call::UsableSlots);
    let one = families::any(n, random);
    let known = Known::new(one.clone());
    let other = match random.below(3) {
        // The usable cells alone, with a plan: the same listing.
        0 if known.first().is_some() => Tables::open(known.usable()),
        1 => {
            let mut changed = one.clone();
            changed.opens[random.below(n)] ^= 1 << random.below(n);
            Tables::open(&changed.opens)
        }
        _ => families::any(n, random),
    };
    let (plans, usable) = given_by_library(session, &one);
    let (other_plans, other_usable) = given_by_library(session, &other);
    if (plans == other_plans) == (usable == other_usable) {
        return Ok(());
    }
    let text = |plans: &[Plan]| plans.iter().map(|plan| plan_text(&plan[..n])).collect::<Vec<_>>().join("; ");
    Err(Difference(format!(
        "{} and {}: listings and usable tables do not tell the same rotas apart\n{one}\n  listing {}\n{other}\n  listing {}",
        Call::ListPlan.name(),
        Call::UsableSlots.name(),
        text(&plans),
        text(&other_plans),
    )))
}
