//! Small rotas against the definitions: all of one, two and three items, all open tables of four, many of up to seven.

use super::battery;
use crate::inputs::{families, given};
use crate::random::Random;
use crate::reference::{sheet, Known, Method};
use crate::rota::{plan_of, Tables};
use crate::session::{Outcome, Session};

/// How many random rotas of 4, 5, 6 and 7 items.
const RANDOM: [(usize, usize); 4] = [(4, 4_000), (5, 4_000), (6, 2_500), (7, 300)];

pub fn run(session: &mut Session, random: &mut Random) -> Outcome {
    for n in 1..=2 {
        for number in 0..3usize.pow((n * n) as u32) {
            let known = Known::new(families::numbered(n, number));
            battery::every_call(session, &known, random)?;
        }
    }
    every_given_plan(session)?;
    for number in 0..3usize.pow(9) {
        let known = Known::new(families::numbered(3, number));
        few_calls(session, &known, random)?;
    }
    every_table_of_four(session, random)?;
    for (n, rotas) in RANDOM {
        for _ in 0..rotas {
            let known = Known::by(Method::Definitions, families::any(n, random));
            battery::every_call(session, &known, random)?;
        }
    }
    Ok(())
}

/// For each table of up to three items, the next plan after every record of slots 0 to n.
fn every_given_plan(session: &mut Session) -> Outcome {
    for n in 1..=3usize {
        for number in 0..1u64 << (n * n) {
            let opens: Vec<u64> = (0..n).map(|item| number >> (item * n) & ((1 << n) - 1)).collect();
            let known = Known::new(Tables::open(&opens));
            for record in 0..(n + 1).pow(n as u32) {
                let slots: Vec<usize> = (0..n).map(|item| record / (n + 1).pow(item as u32) % (n + 1)).collect();
                session.next_plan(&known, &plan_of(&slots))?;
            }
        }
    }
    Ok(())
}

/// All 65,536 open tables of four items, with some of the cells as callouts.
fn every_table_of_four(session: &mut Session, random: &mut Random) -> Outcome {
    for number in 0..1u64 << 16 {
        let opens = [0, 4, 8, 12].map(|from| number >> from & 15);
        let callouts = opens.map(|open| open & random.word());
        let known = Known::new(Tables::new(4, &opens, &callouts));
        session.first_plan(&known)?;
        session.fewest_callouts(&known, 4)?;
        session.usable_slots(&known, 4)?;
        session.count_plans(&known, 16)?;
        session.count_untallied(&known)?;
    }
    Ok(())
}

/// What depends on the cells of a very small rota, with exact outputs.
fn few_calls(session: &mut Session, known: &Known, random: &mut Random) -> Outcome {
    session.first_plan(known)?;
    let plan = given::some_plan(known, random);
    session.next_plan(known, &plan)?;
    session.list_plan(known, random.chance(1, 2), &plan)?;
    for cap in 0..3 {
        session.fewest_callouts(known, cap)?;
    }
    session.usable_slots(known, known.n())?;
    session.cell_plans(known, [(random.below(known.n()), random.below(known.n()))])?;
    session.plan_sheets(known, [(plan, sheet::bytes_for(known.n()))])?;
    session.count_plans(known, 1 << known.n())?;
    session.grade(known, 1 << known.n())?;
    let vehicles = battery::fleet(random);
    session.monthly_price(known, vehicles, 1 << known.n())?;
    session.count_untallied(known)?;
    session.grade_untallied(known)?;
    session.price_untallied(known, vehicles)?;
    session.plan_at(known, random.clone().below(7) as u64, 1 << known.n())?;
    session.plan_number(known, &plan, 1 << known.n())
}
