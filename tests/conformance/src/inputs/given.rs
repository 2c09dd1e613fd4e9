//! Plans to hand over: complete ones from all over the dictionary, and records that are no complete plan. Cells, inside the rota
//! and not.

use crate::random::Random;
use crate::reference::{matching, Known};
use crate::rota::{plan_of, Cell, Plan, Tables, BLANK};

pub const KINDS: usize = 14;

/// A complete plan found in random order, or a random permutation if there is none.
pub fn some_plan(known: &Known, random: &mut Random) -> Plan {
    let mut adjacent = known.tables.open_slots();
    adjacent.iter_mut().for_each(|slots| random.shuffle(slots));
    let items = random.permutation(adjacent.len());
    let found = matching::some_plan(&adjacent, items.into_iter());
    found.unwrap_or_else(|| plan_of(&random.permutation(adjacent.len())))
}

/// Every complete plan, in dictionary order.
pub fn every_plan(known: &Known) -> impl Iterator<Item = Plan> + '_ {
    std::iter::successors(known.first(), |plan| known.next(plan))
}

pub fn random_bytes(random: &mut Random) -> Plan {
    std::array::from_fn(|_| random.byte())
}

/// The last of the plans that begin as some plan does, so that the next one differs early.
fn last_with_beginning(known: &Known, random: &mut Random) -> Plan {
    let plan = some_plan(known, random);
    let mut opens = known.tables.opens.clone();
    for item in 0..random.below(opens.len()) {
        opens[item] &= 1 << plan[item];
    }
    matching::last(&Tables::open(&opens)).unwrap_or(plan)
}

/// A plan of a kind over accepted tables; kinds 0 to 4 are complete plans if there is one.
pub fn plan(kind: usize, known: &Known, random: &mut Random) -> Plan {
    let n = known.n();
    let mut plan = match kind {
        0 => known.first().unwrap_or([0; 64]),
        1 => known.last().unwrap_or([0; 64]),
        2 => known.first().and_then(|first| known.next(&first)).unwrap_or([0; 64]),
        3 => last_with_beginning(known, random),
        _ => some_plan(known, random),
    };
    let (item, other) = (random.below(n), random.below(n));
    match kind {
        // A slot at n or above, within 64 where there is one.
        5 => plan[item] = (n + random.below((64 - n).max(1))) as u8,
        // The right slot but for a multiple of 64, or any slot from 64 on.
        6 => plan[item] += 64 * (1 + random.below(3)) as u8,
        7 => plan[item] = 64 + random.below(192) as u8,
        // A slot twice.
        8 => plan[item] = plan[other],
        // Two slots exchanged, often with a closed cell.
        9 => plan.swap(item, other),
        // Some other slot, closed or taken.
        10 => plan[item] = random.below(n) as u8,
        // A nonzero byte from n on; with n = 64 there is none.
        11 => plan[(n + random.below((64 - n).max(1))).min(63)] = 1 + random.below(255) as u8,
        12 => plan = random_bytes(random),
        13 => plan = random.pick(&[BLANK, [0; 64]]),
        _ => {}
    }
    plan
}

/// Cells over accepted tables, all of one item: of the last plan, an open one, any; then cells outside which modulo n, 64 or
/// another power of 2 are that of the last plan.
pub fn cells(known: &Known, random: &mut Random) -> Vec<Cell> {
    let n = known.n();
    let item = random.below(n);
    let slot = known.last().map_or(0, |plan| plan[item].into());
    let open = random.pick(&[&known.tables.open_slots()[item][..], &[slot]].concat());
    let mut list = vec![(item, slot), (item, open), (item, random.below(n))];
    for beyond in [n, 64, 1 << random.pick(&[8, 16, 32, 63])] {
        list.extend([(item + beyond, slot), (item, slot + beyond)]);
    }
    list
}

/// Cells for tables that are refused: at the beginning, anywhere, and outside.
pub fn any_cells(random: &mut Random) -> [Cell; 4] {
    let (item, slot) = (random.below(64), random.below(64));
    [(0, 0), (item, slot), (usize::MAX, slot), (item, usize::MAX)]
}
