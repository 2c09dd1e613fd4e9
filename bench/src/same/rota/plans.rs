//! The first, the next, the fewest-callout and a cell's plan of a rota.

use crate::records::{Plan, PlanAnswer};
use crate::same::{acceptance, answers, cell, least, min_cost, next};

// The first plan of a rota of n items.
pub fn rota_first_plan(n: usize, opens: &[u64], callouts: &[u64]) -> PlanAnswer {
    let code = acceptance::table_code(n, n, opens, callouts);
    if code != 0 {
        return answers::refused(code);
    }
    least::first_plan(opens)
}

// The plan after the given one.
pub fn rota_next_plan(n: usize, opens: &[u64], callouts: &[u64], given: Plan) -> PlanAnswer {
    let code = acceptance::table_code(n, n, opens, callouts);
    if code != 0 {
        return answers::refused(code);
    }
    next::next_plan(opens, given)
}

// The first of the plans with the fewest callouts, if these are at most `cap`.
pub fn rota_fewest_callouts(n: usize, opens: &[u64], callouts: &[u64], cap: u32) -> PlanAnswer {
    let code = acceptance::table_code(n, n, opens, callouts);
    if code != 0 {
        return answers::refused(code);
    }
    min_cost::fewest_plan(opens, callouts, cap)
}

// The first plan that holds a cell, or the blank plan.
pub fn rota_cell_plan(n: usize, opens: &[u64], callouts: &[u64], item: usize, slot: usize) -> PlanAnswer {
    let code = acceptance::table_code(n, n, opens, callouts);
    if code != 0 {
        return answers::refused(code);
    }
    cell::cell_plan(opens, item, slot)
}
