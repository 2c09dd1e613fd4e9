//! Refused tables and files: every set of faults, over small and large rotas; the one tested first is given.

use super::battery;
use crate::checks::KnownFile;
use crate::inputs::families::{self, Callouts, Family};
use crate::inputs::{damaged, given, refused};
use crate::random::Random;
use crate::reference::{matching, Known};
use crate::rota::{low, plan_of, Tables};
use crate::session::{Outcome, Session};

const ROUNDS: usize = 60;

pub fn run(session: &mut Session, random: &mut Random) -> Outcome {
    for round in 0..ROUNDS {
        for faults in 1..16 {
            let n = number_of_items(round, random);
            refused_tables(session, n, faults, random)?;
        }
        for faults in 1..32 {
            let n = number_of_items(round, random);
            refused_file(session, n, faults << 2, random)?;
        }
    }
    wrong_lengths(session, random)?;
    sheets(session, random)
}

/// Small ones first, then all sizes, and those beside which a file has a block more.
fn number_of_items(round: usize, random: &mut Random) -> usize {
    match round {
        0 => 1 + random.below(4),
        1 => random.pick(&[20, 21, 31, 32, 62, 63, 64]),
        _ => 1 + random.below(64),
    }
}

fn plans(random: &mut Random) -> Vec<[u8; 64]> {
    vec![[0; 64], plan_of(&random.permutation(64)), given::random_bytes(random)]
}

fn refused_tables(session: &mut Session, n: usize, faults: usize, random: &mut Random) -> Outcome {
    let known = Known::new(refused::tables(n, faults, random));
    let plans = plans(random);
    let cells = given::any_cells(random);
    battery::calls_on_tables(session, &known, &plans, &[0, 64], &cells, random)
}

fn refused_file(session: &mut Session, n: usize, faults: usize, random: &mut Random) -> Outcome {
    let file = KnownFile::new(damaged::file(n, faults, random));
    let plans = plans(random);
    battery::calls_on_file(session, &file, &plans, &[0, 64], random)
}

/// Both tables of every length beside n.
fn wrong_lengths(session: &mut Session, random: &mut Random) -> Outcome {
    for n in [1, 2, 20, 63, 64] {
        for length in [0, 1, n - 1, n, n + 1, 64, 65, 1_000] {
            for other in [0, n - 1, n, n + 1, 64, 65] {
                let mut tables = refused::tables(n, 0, random);
                tables.opens.resize(length, 1);
                tables.callouts.resize(other, 0);
                let plans = plans(random);
                let cells = given::any_cells(random);
                battery::calls_on_tables(session, &Known::new(tables), &plans, &[0], &cells, random)?;
            }
        }
    }
    Ok(())
}

/// Plan sheets over every set of faults, with pages of all lengths. The given record is a complete plan but for them, or is none.
fn sheets(session: &mut Session, random: &mut Random) -> Outcome {
    for n in [1, 2, 3, 9, 10, 32, 63, 64] {
        for faults in 0..16 {
            let rota = families::rota(Family::Full, Callouts::Some, n, random);
            let tables = refused::with_faults(rota, faults, random);
            let opens: Vec<u64> = tables.opens.iter().take(n).map(|open| open & low(n)).collect();
            let plan = matching::first(&Tables::open(&opens)).unwrap_or([0; 64]);
            let mut twice = plan;
            twice[0] = plan[n - 1];
            let records = [plan, twice, given::random_bytes(random)];
            let lent = battery::pages(n).into_iter().flat_map(|bytes| records.map(|record| (record, bytes)));
            session.plan_sheets(&Known::new(tables), lent)?;
        }
    }
    Ok(())
}
