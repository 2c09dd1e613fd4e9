//! The fewest callouts by successive shortest augmenting paths (Bellman-Ford), a callout costing 1; then the first plan of that
//! cost by fixing the items one by one.

use crate::rota::{plan_of, Plan, Tables};

struct Assignment {
    /// Each item's open slots, rising, with their costs.
    cells: Vec<Vec<(usize, i64)>>,
    slot_of: Vec<Option<usize>>,
    item_of: Vec<Option<usize>>,
}

/// Shortest distances to slots; a slot that can't be reached has none.
struct Paths {
    distance: Vec<Option<i64>>,
    /// The slot that is left so that this one can be taken.
    through: Vec<Option<usize>>,
}

impl Assignment {
    fn new(rota: &Tables) -> Self {
        let cost = |item: usize, slot: usize| i64::from(rota.is_callout(item, slot));
        let cells = rota.open_slots().into_iter().enumerate();
        Assignment {
            cells: cells
                .map(|(item, slots)| slots.into_iter().map(|slot| (slot, cost(item, slot))).collect())
                .collect(),
            slot_of: vec![None; rota.n],
            item_of: vec![None; rota.n],
        }
    }

    fn cost(&self, item: usize, slot: usize) -> i64 {
        self.cells[item].iter().find(|cell| cell.0 == slot).expect("an open cell").1
    }

    /// The shortest ways for an item without a slot to come by each slot. Barred slots stay as they are.
    fn paths(&self, start: usize, barred: &[bool]) -> Paths {
        let n = self.item_of.len();
        let mut paths = Paths { distance: vec![None; n], through: vec![None; n] };
        for &(slot, cost) in self.cells[start].iter().filter(|cell| !barred[cell.0]) {
            paths.distance[slot] = Some(cost);
        }
        let mut changed = true;
        while changed {
            changed = false;
            for slot in 0..n {
                let (Some(distance), Some(owner)) = (paths.distance[slot], self.item_of[slot]) else { continue };
                let left = distance - self.cost(owner, slot);
                for &(other, cost) in self.cells[owner].iter().filter(|cell| !barred[cell.0]) {
                    if paths.distance[other].is_none_or(|known| left + cost < known) {
                        paths.distance[other] = Some(left + cost);
                        paths.through[other] = Some(slot);
                        changed = true;
                    }
                }
            }
        }
        paths
    }

    /// Moves every item on the way to the slot; the last one is the item that had none.
    fn follow(&mut self, paths: &Paths, start: usize, end: usize) {
        let mut slot = end;
        while let Some(before) = paths.through[slot] {
            let owner = self.item_of[before].expect("a slot on the way has an owner");
            self.item_of[slot] = Some(owner);
            self.slot_of[owner] = Some(slot);
            slot = before;
        }
        self.item_of[slot] = Some(start);
        self.slot_of[start] = Some(slot);
    }

    /// An assignment of least cost, or None if there is no complete plan.
    fn solve(&mut self) -> Option<()> {
        let n = self.item_of.len();
        for item in 0..n {
            let paths = self.paths(item, &vec![false; n]);
            let free = (0..n).filter(|&slot| self.item_of[slot].is_none());
            let nearest = free.filter_map(|slot| paths.distance[slot].map(|d| (d, slot))).min()?;
            self.follow(&paths, item, nearest.1);
        }
        Some(())
    }

    /// Gives the item the slot if the cost stays the same; items before it stay. True if done.
    fn fix(&mut self, item: usize, slot: usize) -> bool {
        let left = self.slot_of[item].expect("a complete plan");
        let other = self.item_of[slot].expect("a complete plan");
        if other <= item {
            return other == item;
        }
        let n = self.item_of.len();
        let mut barred: Vec<bool> = (0..n).map(|s| self.item_of[s].is_some_and(|owner| owner < item)).collect();
        barred[slot] = true;
        let saved = self.cost(item, left) + self.cost(other, slot) - self.cost(item, slot);
        self.item_of[left] = None;
        let paths = self.paths(other, &barred);
        if paths.distance[left] == Some(saved) {
            self.follow(&paths, other, left);
            self.item_of[slot] = Some(item);
            self.slot_of[item] = Some(slot);
            return true;
        }
        self.item_of[left] = Some(item);
        false
    }
}

/// The fewest callout cells of a complete plan, and the first plan in dictionary order that has so many.
pub fn fewest(rota: &Tables) -> Option<(u32, Plan)> {
    let mut assignment = Assignment::new(rota);
    assignment.solve()?;
    for item in 0..rota.n {
        let slots: Vec<usize> = assignment.cells[item].iter().map(|cell| cell.0).collect();
        let fixed = slots.into_iter().any(|slot| assignment.fix(item, slot));
        assert!(fixed, "the slot that the item has can always be kept");
    }
    let slots: Vec<usize> = assignment.slot_of.iter().flatten().copied().collect();
    let plan = plan_of(&slots);
    Some((rota.callouts_of(&plan), plan))
}
