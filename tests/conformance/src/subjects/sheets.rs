//! Plan sheets: pages of every length, every item with every slot, marked and not, records that are no plan, every family, every
//! plan of small rotas and every record of their slots.

use super::battery;
use crate::inputs::families::{self, Callouts, Family, CALLOUTS, FAMILIES};
use crate::inputs::given;
use crate::random::Random;
use crate::reference::sheet::{bytes_for, LINE};
use crate::reference::{Known, Method};
use crate::rota::{low, plan_of, Plan, Tables, BLANK};
use crate::session::{Outcome, Session};

/// One item, one digit and two digits beside each other, the most items.
const SIZES: [usize; 5] = [1, 9, 10, 11, 64];

/// How many random rotas of 4, 5, 6 and 7 items, and how many of their plans at most.
const RANDOM: [(usize, usize); 4] = [(4, 600), (5, 200), (6, 60), (7, 20)];
const MOST_PLANS: usize = 100;

/// Pages that are long enough; their lengths cut to 8 or 16 bits are not.
const LONG: [usize; 4] = [4_096, 65_536, 65_536 + LINE, 131_072];

pub fn run(session: &mut Session, random: &mut Random) -> Outcome {
    for n in SIZES {
        every_length(session, n, random)?;
        every_byte(session, n, random)?;
        closed_cells(session, n, random)?;
        one_mark(session, n, random)?;
    }
    for n in 1..=64 {
        every_cell(session, n, random)?;
    }
    for n in SIZES {
        for family in FAMILIES {
            for callouts in CALLOUTS {
                let known = Known::new(families::rota(family, callouts, n, random));
                some_plans(session, &known, random)?;
            }
        }
    }
    for n in 1..=3 {
        every_plan_of_every_rota(session, n)?;
        every_record(session, n, random)?;
    }
    for (n, rotas) in RANDOM {
        for _ in 0..rotas {
            let known = Known::by(Method::Definitions, families::any(n, random));
            let plans = given::every_plan(&known).take(MOST_PLANS);
            session.plan_sheets(&known, plans.map(|plan| (plan, bytes_for(n))))?;
        }
    }
    Ok(())
}

/// Each item has the slot so many after its own number, and the last ones have the first slots.
fn turned(n: usize, by: usize) -> Plan {
    let slots: Vec<usize> = (0..n).map(|item| (item + by) % n).collect();
    plan_of(&slots)
}

fn full(n: usize, random: &mut Random) -> Known {
    Known::new(families::rota(Family::Full, Callouts::Some, n, random))
}

/// Pages of every length up to a line more than needed, with a plan and without one.
fn every_length(session: &mut Session, n: usize, random: &mut Random) -> Outcome {
    let known = full(n, random);
    let records = [turned(n, random.below(n)), given::plan(7, &known, random)];
    let lengths = (0..=bytes_for(n) + LINE + 1).chain(LONG);
    session.plan_sheets(&known, lengths.flat_map(|bytes| records.map(|record| (record, bytes))))
}

/// A plan with one byte changed: each byte to values at bounds, and some bytes to every value.
fn every_byte(session: &mut Session, n: usize, random: &mut Random) -> Outcome {
    let known = full(n, random);
    let plan = turned(n, random.below(n));
    let changed = |at: usize, value: u8| {
        let mut record = plan;
        record[at] = value;
        (record, bytes_for(n))
    };
    for (at, slot) in plan.into_iter().enumerate() {
        let bounds = [0, 1, n as u8 - 1, n as u8, 63, 64, slot ^ 64, slot ^ 128, slot ^ 192, 255];
        session.plan_sheets(&known, bounds.map(|value| changed(at, value)))?;
    }
    for at in [0, n - 1, n.min(63), 63] {
        session.plan_sheets(&known, (0..=255).map(|value| changed(at, value)))?;
    }
    Ok(())
}

/// A plan of the rota with all slots open, given where one of its cells is closed.
fn closed_cells(session: &mut Session, n: usize, random: &mut Random) -> Outcome {
    let plan = turned(n, random.below(n));
    for item in 0..n {
        let mut tables = full(n, random).tables;
        tables.opens[item] &= !(1 << plan[item]);
        tables.callouts[item] &= tables.opens[item];
        session.plan_sheets(&Known::new(tables), battery::pages(n).map(|bytes| (plan, bytes)))?;
    }
    Ok(())
}

/// The words with the plan's cells alone.
fn cells(n: usize, plan: &Plan) -> Vec<u64> {
    plan[..n].iter().map(|&slot| 1 << slot).collect()
}

/// One cell of the plan as the only callout, and as the only cell of the plan that is none.
fn one_mark(session: &mut Session, n: usize, random: &mut Random) -> Outcome {
    let plan = turned(n, random.below(n));
    for item in 0..n {
        let (mut alone, mut but_one) = (vec![0; n], vec![low(n); n]);
        alone[item] = 1 << plan[item];
        but_one[item] &= !alone[item];
        for callouts in [alone, but_one] {
            let known = Known::new(Tables::new(n, &vec![low(n); n], &callouts));
            session.plan_sheets(&known, [(plan, bytes_for(n))])?;
        }
    }
    Ok(())
}

/// Every item with every slot; the callouts are none, all, the plan's cells, all others, some.
fn every_cell(session: &mut Session, n: usize, random: &mut Random) -> Outcome {
    let opens = vec![low(n); n];
    for by in 0..n {
        let plan = turned(n, by);
        let held = cells(n, &plan);
        let others = held.iter().map(|cell| low(n) & !cell).collect();
        let some = held.iter().map(|_| random.word() & low(n)).collect();
        for callouts in [vec![0; n], opens.clone(), held, others, some] {
            let known = Known::new(Tables::new(n, &opens, &callouts));
            session.plan_sheets(&known, [(plan, bytes_for(n))])?;
        }
    }
    Ok(())
}

/// The first plans, some later ones and the last; those of another rota, and the blank plan; any record on pages of all lengths.
fn some_plans(session: &mut Session, known: &Known, random: &mut Random) -> Outcome {
    let n = known.n();
    let mut plans: Vec<Plan> = given::every_plan(known).take(3).chain(known.last()).collect();
    plans.extend([given::some_plan(known, random), given::some_plan(known, random)]);
    let other = Known::new(families::any(n, random));
    plans.extend(other.first().into_iter().chain([given::some_plan(&other, random), BLANK, [0; 64]]));
    session.plan_sheets(known, plans.into_iter().map(|plan| (plan, bytes_for(n))))?;
    let record = given::plan(random.below(given::KINDS), known, random);
    session.plan_sheets(known, battery::pages(n).map(|bytes| (record, bytes)))
}

/// Every rota of so many items, each cell closed, open or a callout.
fn every_plan_of_every_rota(session: &mut Session, n: usize) -> Outcome {
    for number in 0..3usize.pow((n * n) as u32) {
        let known = Known::new(families::numbered(n, number));
        session.plan_sheets(&known, given::every_plan(&known).map(|plan| (plan, bytes_for(n))))?;
    }
    Ok(())
}

/// For each open table of so many items, with some of the cells as callouts, every record of slots 0 to n.
fn every_record(session: &mut Session, n: usize, random: &mut Random) -> Outcome {
    let records: Vec<Plan> = (0..(n + 1).pow(n as u32))
        .map(|number| (0..n).map(|item| number / (n + 1).pow(item as u32) % (n + 1)).collect::<Vec<usize>>())
        .map(|slots| plan_of(&slots))
        .collect();
    for number in 0..1u64 << (n * n) {
        let opens: Vec<u64> = (0..n).map(|item| number >> (item * n) & low(n)).collect();
        let callouts: Vec<u64> = opens.iter().map(|open| open & random.word()).collect();
        let known = Known::new(Tables { n, opens, callouts });
        session.plan_sheets(&known, records.iter().map(|record| (*record, bytes_for(n))))?;
    }
    Ok(())
}
