//! Document 01's definitions by brute force, for rotas of at most eight items: all permutations, filtered.

use crate::rota::{has, plan_of, slots_of, Cell, Plan, Tables};
use std::sync::OnceLock;

pub const GREATEST_N: usize = 8;

/// All permutations of the numbers below n, in no particular order.
fn permutations(n: usize) -> &'static [Vec<usize>] {
    static ALL: OnceLock<Vec<Vec<Vec<usize>>>> = OnceLock::new();
    &ALL.get_or_init(|| (0..=GREATEST_N).map(every_order).collect())[n]
}

fn every_order(n: usize) -> Vec<Vec<usize>> {
    if n == 0 {
        return vec![vec![]];
    }
    let mut longer = vec![];
    for shorter in every_order(n - 1) {
        for place in 0..n {
            let mut order = shorter.clone();
            order.insert(place, n - 1);
            longer.push(order);
        }
    }
    longer
}

/// The complete plans in dictionary order.
pub fn plans(rota: &Tables) -> Vec<Plan> {
    let complete = |slots: &&Vec<usize>| slots.iter().enumerate().all(|(item, &slot)| rota.is_open(item, slot));
    let mut list: Vec<Plan> = permutations(rota.n).iter().filter(complete).map(|slots| plan_of(slots)).collect();
    list.sort();
    list
}

/// Bit j of word i is set if some complete plan gives item i slot j.
pub fn usable(rota: &Tables, plans: &[Plan]) -> Vec<u64> {
    let mut words = vec![0; rota.n];
    for plan in plans {
        for (item, word) in words.iter_mut().enumerate() {
            *word |= 1 << plan[item];
        }
    }
    words
}

/// The first plan that gives the item the slot.
pub fn cell_plan(rota: &Tables, plans: &[Plan], cell: Cell) -> Option<Plan> {
    let held = |plan: &&Plan| (0..rota.n).any(|item| (item, usize::from(plan[item])) == cell);
    plans.iter().find(held).copied()
}

/// A set's size less the number of slots open to any of it.
pub fn short_by(rota: &Tables, set: u64) -> i64 {
    let slots = (0..rota.n).filter(|&item| has(set, item)).fold(0, |union, item| union | rota.opens[item]);
    i64::from(set.count_ones()) - i64::from(slots.count_ones())
}

/// All smallest sets among those with the greatest shortage, and that shortage.
pub fn smallest_short_sets(rota: &Tables) -> (Vec<u64>, u32) {
    let sets = 0..1u64 << rota.n;
    let greatest = sets.clone().map(|set| short_by(rota, set)).max().unwrap_or(0);
    let short: Vec<u64> = sets.filter(|&set| short_by(rota, set) == greatest).collect();
    let size = short.iter().map(|set| set.count_ones()).min().unwrap_or(0);
    (short.into_iter().filter(|set| set.count_ones() == size).collect(), greatest as u32)
}

/// The set that is given, of which document 01 says that it is the only one, and the shortage.
pub fn shortage(rota: &Tables) -> (u64, u32) {
    let (sets, greatest) = smallest_short_sets(rota);
    assert_eq!(sets.len(), 1, "one smallest set with the greatest shortage");
    (sets[0], greatest)
}

/// The fewest callout cells of a complete plan, and the first plan that has so many.
pub fn fewest(rota: &Tables, plans: &[Plan]) -> Option<(u32, Plan)> {
    let number = plans.iter().map(|plan| rota.callouts_of(plan)).min()?;
    let first = plans.iter().find(|plan| rota.callouts_of(plan) == number)?;
    Some((number, *first))
}

/// Word S holds the number of ways to give the slots of S, all of them, to the first items: every way is made once.
pub fn tally(rota: &Tables) -> Vec<u64> {
    let mut words = vec![0; 1 << rota.n];
    give(rota, 0, 0, &mut words);
    words
}

fn give(rota: &Tables, items: usize, given: u64, words: &mut [u64]) {
    words[given as usize] += 1;
    if items < rota.n {
        for slot in 0..rota.n {
            if !has(given, slot) && rota.is_open(items, slot) {
                give(rota, items + 1, given | 1 << slot, words);
            }
        }
    }
}

/// Word S holds the number of ways to give the slots of S, all of them, to the last items: every order of these slots is tried.
pub fn last_tally(rota: &Tables) -> Vec<u64> {
    let ways = |set: u64| {
        let slots = slots_of(set);
        let items = rota.n - slots.len()..rota.n;
        let given = |order: &&Vec<usize>| items.clone().zip(*order).all(|(item, &at)| rota.is_open(item, slots[at]));
        permutations(slots.len()).iter().filter(given).count() as u64
    };
    (0..1 << rota.n).map(ways).collect()
}
