//! A plan by its number, and a plan's number. Whether there is such a plan is known before the tally is touched, so a refusal leaves it as
//! it was.

use crate::records::{NumberAnswer, Plan, PlanAnswer};
use crate::same::answers::counts;
use crate::same::{acceptance, answers, plan, rank, ryser};

// The plan with k plans before it.
pub fn rota_plan_at(n: usize, opens: &[u64], callouts: &[u64], k: u64, tally: &mut [u64]) -> PlanAnswer {
    let code = acceptance::count_code(n, n, opens, callouts, tally.len());
    if code != 0 {
        return answers::refused(code);
    }
    if ryser::count(opens) <= k {
        return answers::refused(16);
    }
    rank::tally_last(opens, tally);
    answers::given(rank::unrank(opens, tally, k), 0)
}

// How many plans stand before the given one.
pub fn rota_plan_number(n: usize, opens: &[u64], callouts: &[u64], given: Plan, tally: &mut [u64]) -> NumberAnswer {
    let code = acceptance::count_code(n, n, opens, callouts, tally.len());
    if code != 0 {
        return counts::number_refused(code);
    }
    let slots = given.slots;
    if !plan::is_plan(opens, slots) {
        return counts::number_refused(8);
    }
    rank::tally_last(opens, tally);
    counts::number_given(rank::rank(opens, tally, slots))
}
