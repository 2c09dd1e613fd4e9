//! The lister.

use super::plans;
use crate::records::{Lister, PlanAnswer};

// A lister's step: the lister afterwards, and the answer.
pub struct Stepped {
    pub lister: Lister,
    pub answer: PlanAnswer,
}

// What a lister answers: fresh the first plan, started the one after the plan that it holds.
fn answer(lister: Lister, n: usize, opens: &[u64], callouts: &[u64]) -> PlanAnswer {
    if lister.started {
        return plans::rota_next_plan(n, opens, callouts, lister.plan);
    }
    plans::rota_first_plan(n, opens, callouts)
}

// One step of a lister, by value.
pub fn step(lister: Lister, n: usize, opens: &[u64], callouts: &[u64]) -> Stepped {
    let a = answer(lister, n, opens, callouts);
    if a.code != 0 {
        return Stepped { lister, answer: a };
    }
    Stepped { lister: Lister { started: true, plan: a.plan }, answer: a }
}

// The lister's next plan. A refusal leaves the lister as it was.
pub fn rota_list_plan(lister: &mut Lister, n: usize, opens: &[u64], callouts: &[u64]) -> PlanAnswer {
    let s = step(*lister, n, opens, callouts);
    *lister = s.lister;
    s.answer
}
