//! The rotas worked out in document 01.

use super::battery;
use crate::random::Random;
use crate::reference::Known;
use crate::rota::Tables;
use crate::session::{Outcome, Session};

fn rows() -> Vec<Tables> {
    vec![
        Tables::new(3, &[3, 7, 6], &[1, 0, 4]),
        Tables::open(&[7, 6, 6]),
        Tables::open(&[1, 1, 2, 14]),
        Tables::open(&[0, 3]),
        Tables::open(&[1]),
        Tables::open(&[0]),
        Tables::open(&[u64::MAX; 64]),
        Tables::open(&[(1 << 20) - 1; 20]),
        Tables::open(&[(1 << 21) - 1; 21]),
    ]
}

pub fn run(session: &mut Session, random: &mut Random) -> Outcome {
    for row in rows() {
        battery::every_call(session, &Known::new(row), random)?;
    }
    for n in [0, 65] {
        refused(session, Tables::open(&vec![0; n]), random)?;
    }
    let mut outside = vec![1; 63];
    outside[62] = 1 << 63;
    refused(session, Tables::open(&outside), random)
}

fn refused(session: &mut Session, tables: Tables, random: &mut Random) -> Outcome {
    battery::calls_on_tables(session, &Known::new(tables), &[[0; 64]], &[0], &[(0, 0), (64, 0)], random)
}
