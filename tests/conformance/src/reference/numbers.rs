//! Plan numbers, and the ways to give the slots of each set to the last items.

use super::permanent::permanent;
use crate::rota::{low, plan_of, slots_of, Plan, Tables};

/// From the last item back each set hands its number on to the sets with one slot more.
pub fn tally(rota: &Tables) -> Vec<u64> {
    let mut words = vec![0u64; 1 << rota.n];
    words[0] = 1;
    for set in 0..words.len() - 1 {
        let item = rota.n - 1 - set.count_ones() as usize;
        let mut left = if words[set] == 0 { 0 } else { rota.opens[item] & !(set as u64) };
        while left != 0 {
            words[set | 1 << left.trailing_zeros()] += words[set];
            left &= left - 1;
        }
    }
    words
}

/// The same words by Ryser's formula, for all sets of one size together, modulo 2 to the power 64: the products of a set and of
/// all its parts are added up with their signs, a slot at a time.
pub fn tally_by_ryser(rota: &Tables) -> Vec<u64> {
    let sets = 1usize << rota.n;
    let mut words = vec![0; sets];
    let mut products = vec![1u64; sets];
    for items in 0..=rota.n {
        let mut sums = products.clone();
        for size in (0..rota.n).map(|slot| 1 << slot) {
            for pair in sums.chunks_exact_mut(2 * size) {
                let (without, with) = pair.split_at_mut(size);
                with.iter_mut().zip(without).for_each(|(sum, part)| *sum = sum.wrapping_sub(*part));
            }
        }
        (0..sets).filter(|set| set.count_ones() as usize == items).for_each(|set| words[set] = sums[set]);
        if let Some(item) = rota.n.checked_sub(items + 1) {
            let open = |set: usize| u64::from((rota.opens[item] & set as u64).count_ones());
            products.iter_mut().enumerate().for_each(|(set, product)| *product = product.wrapping_mul(open(set)));
        }
    }
    words
}

/// The plan with so many plans before it, by the ways of the last items: each item passes a slot over if the plans with it are
/// all among those before.
pub fn plan(rota: &Tables, ways: &[u64], number: u64) -> Option<Plan> {
    let (mut left, mut before, mut slots) = (low(rota.n), number, vec![]);
    for open in &rota.opens {
        let slot = slots_of(open & left).into_iter().find(|slot| {
            let more = before.checked_sub(ways[(left & !(1 << slot)) as usize]);
            before = more.unwrap_or(before);
            more.is_none()
        })?;
        left &= !(1 << slot);
        slots.push(slot);
    }
    Some(plan_of(&slots))
}

/// The number of complete plans before this one, by Ryser's formula: for each item those that give it a lower slot, and the items
/// before it the same slots.
pub fn number(rota: &Tables, plan: &Plan) -> u64 {
    let (mut left, mut before) = (low(rota.n), 0);
    for (item, &slot) in plan[..rota.n].iter().enumerate() {
        let lower = [&[rota.opens[item] & low(slot.into())], &rota.opens[item + 1..]].concat();
        before += permanent(&lower, left);
        left &= !(1 << slot);
    }
    before
}
