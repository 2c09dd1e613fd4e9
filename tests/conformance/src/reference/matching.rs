//! Perfect matchings of any size by augmenting paths over vectors: an item is given a slot, and the one that had it looks for
//! another.

use crate::rota::{plan_of, word_of, Cell, Plan, Tables};

/// A matching; the slots' side is kept beside it.
#[derive(Clone)]
pub struct Matching {
    slot_of: Vec<Option<usize>>,
    item_of: Vec<Option<usize>>,
}

/// Gives the item a slot, moving others, if that can be done without any slot in `seen`.
fn place(adjacent: &[Vec<usize>], item: usize, seen: &mut [bool], matching: &mut Matching) -> bool {
    for &slot in &adjacent[item] {
        if seen[slot] {
            continue;
        }
        seen[slot] = true;
        let free = match matching.item_of[slot] {
            None => true,
            Some(other) => place(adjacent, other, seen, matching),
        };
        if free {
            matching.item_of[slot] = Some(item);
            matching.slot_of[item] = Some(slot);
            return true;
        }
    }
    false
}

/// A maximum matching of the items in the order given.
pub fn maximum(adjacent: &[Vec<usize>], order: impl Iterator<Item = usize>) -> Matching {
    let mut matching = Matching { slot_of: vec![None; adjacent.len()], item_of: vec![None; 64] };
    for item in order {
        place(adjacent, item, &mut [false; 64], &mut matching);
    }
    matching
}

fn size(matching: &Matching) -> usize {
    matching.slot_of.iter().flatten().count()
}

/// The slots of a perfect matching.
fn perfect(matching: &Matching) -> Option<Vec<usize>> {
    matching.slot_of.iter().copied().collect()
}

/// Some complete plan, found from the lists of slots in the order they have.
pub fn some_plan(adjacent: &[Vec<usize>], order: impl Iterator<Item = usize>) -> Option<Plan> {
    perfect(&maximum(adjacent, order)).map(|slots| plan_of(&slots))
}

/// Gives the item the slot in a perfect matching whose fixed items stay, if that can be done.
fn force(adjacent: &[Vec<usize>], matching: &Matching, item: usize, slot: usize, fixed: &[bool]) -> Option<Matching> {
    let left = matching.slot_of[item]?;
    let other = matching.item_of[slot]?;
    if left == slot {
        return Some(matching.clone());
    }
    if fixed[other] {
        return None;
    }
    let mut moved = matching.clone();
    moved.item_of[left] = None;
    moved.item_of[slot] = Some(item);
    moved.slot_of[item] = Some(slot);
    let mut seen = [false; 64];
    seen[slot] = true;
    for (kept, &stays) in fixed.iter().enumerate() {
        if stays && kept != item {
            seen[matching.slot_of[kept]?] = true;
        }
    }
    place(adjacent, other, &mut seen, &mut moved).then_some(moved)
}

/// Makes the items from `from` on as small as can be in dictionary order; those before it stay.
fn least_from(adjacent: &[Vec<usize>], mut matching: Matching, from: usize) -> Option<Vec<usize>> {
    let mut fixed: Vec<bool> = (0..adjacent.len()).map(|item| item < from).collect();
    for item in from..adjacent.len() {
        let found = adjacent[item].iter().find_map(|&slot| force(adjacent, &matching, item, slot, &fixed));
        matching = found?;
        fixed[item] = true;
    }
    perfect(&matching)
}

pub fn first(rota: &Tables) -> Option<Plan> {
    let adjacent = rota.open_slots();
    let start = maximum(&adjacent, 0..rota.n);
    perfect(&start)?;
    least_from(&adjacent, start, 0).map(|slots| plan_of(&slots))
}

/// The last plan in dictionary order: the first one of the rota with its slots mirrored.
pub fn last(rota: &Tables) -> Option<Plan> {
    let mirror = |word: u64| word_of((0..rota.n).filter(|&slot| word >> (rota.n - 1 - slot) & 1 == 1));
    let mirrored: Vec<u64> = rota.opens.iter().map(|&word| mirror(word)).collect();
    let plan = first(&Tables::open(&mirrored))?;
    let slots: Vec<usize> = (0..rota.n).map(|item| rota.n - 1 - usize::from(plan[item])).collect();
    Some(plan_of(&slots))
}

/// Whether the 64 bytes are a complete plan of the rota.
pub fn is_plan(rota: &Tables, plan: &Plan) -> bool {
    let mut slots: Vec<usize> = plan[..rota.n].iter().map(|&slot| slot.into()).collect();
    let open = slots.iter().enumerate().all(|(item, &slot)| slot < rota.n && rota.is_open(item, slot));
    slots.sort();
    slots.dedup();
    open && slots.len() == rota.n && plan[rota.n..].iter().all(|&byte| byte == 0)
}

/// The least complete plan after the given one, which is a complete plan.
pub fn next(rota: &Tables, given: &Plan) -> Option<Plan> {
    let adjacent = rota.open_slots();
    let mut matching = Matching { slot_of: vec![None; rota.n], item_of: vec![None; 64] };
    for (item, &slot) in given[..rota.n].iter().enumerate() {
        matching.slot_of[item] = Some(slot.into());
        matching.item_of[usize::from(slot)] = Some(item);
    }
    for item in (0..rota.n).rev() {
        let fixed: Vec<bool> = (0..rota.n).map(|other| other < item).collect();
        let greater = adjacent[item].iter().filter(|&&slot| slot > given[item].into());
        for &slot in greater {
            if let Some(moved) = force(&adjacent, &matching, item, slot, &fixed) {
                return least_from(&adjacent, moved, item + 1).map(|slots| plan_of(&slots));
            }
        }
    }
    None
}

/// Every open cell is tried: can some complete plan hold it?
pub fn usable(rota: &Tables) -> Vec<u64> {
    let adjacent = rota.open_slots();
    let matching = maximum(&adjacent, 0..rota.n);
    if perfect(&matching).is_none() {
        return vec![0; rota.n];
    }
    let none = vec![false; rota.n];
    let held = |item: usize, slot: usize| force(&adjacent, &matching, item, slot, &none).is_some();
    let row = |item: usize| word_of(adjacent[item].iter().copied().filter(|&slot| held(item, slot)));
    (0..rota.n).map(row).collect()
}

/// The first plan of the rota in which the item has no other slot open.
pub fn cell_plan(rota: &Tables, (item, slot): Cell) -> Option<Plan> {
    if item >= rota.n || !rota.is_open(item, slot) {
        return None;
    }
    let mut opens = rota.opens.clone();
    opens[item] = 1 << slot;
    first(&Tables::open(&opens))
}

/// The items reached by alternating paths from those that a maximum matching leaves out, and how many it leaves out.
pub fn shortage(rota: &Tables) -> (u64, u32) {
    let adjacent = rota.open_slots();
    let matching = maximum(&adjacent, 0..rota.n);
    let mut waiting: Vec<usize> = (0..rota.n).filter(|&item| matching.slot_of[item].is_none()).collect();
    let left_out = waiting.len() as u32;
    let mut reached = vec![false; rota.n];
    while let Some(item) = waiting.pop() {
        if !reached[item] {
            reached[item] = true;
            waiting.extend(adjacent[item].iter().filter_map(|&slot| matching.item_of[slot]));
        }
    }
    (word_of((0..rota.n).filter(|&item| reached[item])), left_out)
}

/// The same set in another way: the items without which a maximum matching is as large.
pub fn shortage_by_removal(rota: &Tables) -> (u64, u32) {
    let adjacent = rota.open_slots();
    let whole = size(&maximum(&adjacent, 0..rota.n));
    let spare = |&item: &usize| size(&maximum(&adjacent, (0..rota.n).filter(|&other| other != item))) == whole;
    (word_of((0..rota.n).filter(spare)), (rota.n - whole) as u32)
}
