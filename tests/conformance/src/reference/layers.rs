//! Tables over sets of slots, a layer for each number of items.

use crate::rota::{has, plan_of, Plan, Tables};

/// Each set hands its number on to the sets with one slot more.
pub fn tally(rota: &Tables) -> Vec<u64> {
    let mut words = vec![0u64; 1 << rota.n];
    words[0] = 1;
    for set in 0..words.len() {
        let items = set.count_ones() as usize;
        if words[set] == 0 || items == rota.n {
            continue;
        }
        let mut left = rota.opens[items] & !(set as u64);
        while left != 0 {
            words[set | 1 << left.trailing_zeros()] += words[set];
            left &= left - 1;
        }
    }
    words
}

/// The fewest callouts with which the items from |S| on can take the slots outside S, for each S.
fn fewest_rest(rota: &Tables) -> Vec<Option<u32>> {
    let mut rest = vec![None; 1 << rota.n];
    rest[(1 << rota.n) - 1] = Some(0);
    for set in (0..(1usize << rota.n) - 1).rev() {
        let item = set.count_ones() as usize;
        let slots = (0..rota.n).filter(|&slot| rota.is_open(item, slot) && !has(set as u64, slot));
        rest[set] = slots
            .filter_map(|slot| rest[set | 1 << slot].map(|more: u32| more + u32::from(rota.is_callout(item, slot))))
            .min();
    }
    rest
}

/// The fewest callouts and the first plan that has so many.
pub fn fewest(rota: &Tables) -> Option<(u32, Plan)> {
    let rest = fewest_rest(rota);
    let number = rest[0]?;
    let (mut set, mut slots, mut left) = (0usize, vec![], number);
    for item in 0..rota.n {
        let costs = |slot: usize| rest[set | 1 << slot].map(|more| more + u32::from(rota.is_callout(item, slot)));
        let open = |&slot: &usize| rota.is_open(item, slot) && !has(set as u64, slot);
        let slot = (0..rota.n).filter(open).find(|&slot| costs(slot) == Some(left))?;
        left -= u32::from(rota.is_callout(item, slot));
        set |= 1 << slot;
        slots.push(slot);
    }
    Some((number, plan_of(&slots)))
}
