//! Grade and price at the bounds of their rules.

use super::battery::FLEETS;
use crate::inputs::families;
use crate::random::Random;
use crate::reference::{permanent, Known};
use crate::rota::{low, Tables};
use crate::session::{Outcome, Session};

/// Counts at the bounds of the grades.
pub const COUNTS: [u64; 14] = [1, 2, 3, 22, 23, 24, 25, 26, 998, 999, 1_000, 1_001, 1_002, 5_000];

const ROUNDS: usize = 6;

pub fn run(session: &mut Session, random: &mut Random) -> Outcome {
    for _ in 0..ROUNDS {
        for count in COUNTS {
            let opens = families::with_count(count, random);
            let n = opens.len();
            assert_eq!(permanent::permanent(&opens, low(n)), count, "a rota with {count} plans");
            graded(session, &opens, random)?;
            graded(session, &one_more(&opens, 0, 0), random)?;
            graded(session, &one_more(&opens, low(n), 0), random)?;
            graded(session, &one_more(&opens, 0, 1 << n), random)?;
            graded(session, &without_plan(&opens, random), random)?;
        }
    }
    Ok(())
}

/// A further item and a further slot that go together. Either the item has other slots open too, or the slot other items: as many
/// plans as before.
fn one_more(opens: &[u64], more_slots: u64, more_items: u64) -> Vec<u64> {
    let further = 1 << opens.len() | more_slots;
    opens.iter().map(|open| open | more_items).chain([further]).collect()
}

/// No slot for one of the items.
fn without_plan(opens: &[u64], random: &mut Random) -> Vec<u64> {
    let mut short = opens.to_vec();
    short[random.below(opens.len())] = 0;
    short
}

/// Grade and price, with no callouts, with nothing but callouts, and with some.
pub fn graded(session: &mut Session, opens: &[u64], random: &mut Random) -> Outcome {
    let n = opens.len();
    for kind in 0..3 {
        let callouts = match kind {
            0 => vec![0; n],
            1 => opens.to_vec(),
            _ => opens.iter().map(|open| open & random.word()).collect(),
        };
        let known = Known::new(Tables::new(n, opens, &callouts));
        session.grade(&known, 1 << n)?;
        session.grade_untallied(&known)?;
        for vehicles in FLEETS {
            session.monthly_price(&known, vehicles, 1 << n)?;
            session.price_untallied(&known, vehicles)?;
        }
    }
    Ok(())
}
