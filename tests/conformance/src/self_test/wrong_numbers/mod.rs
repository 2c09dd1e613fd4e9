//! Wrong libraries that come near: plan numbers, both ways, and the tally that they leave.

mod given;
mod plans;
mod refusals;
mod tallies;

use super::faults::{instead, success, Fault};
use super::mock::Reply;
use crate::reference::answers::{Call, Input};
use crate::reference::definitions;
use crate::rota::{Plan, Tables};
use Call::{CountPlans, ListPlan, PlanAt, PlanNumber};

const NUMBERS: [Call; 2] = [PlanAt, PlanNumber];

/// Items up to which a wrong order is made; above, the answer is right.
const ORDERED: usize = 6;

pub fn faults() -> Vec<Fault> {
    let sizes = [plans::all(), given::all(), tallies::written()].into_iter().flatten();
    let bounds = [plans::fewer_bits(), given::fewer_bits(), tallies::kept(), refusals::all()].into_iter().flatten();
    let found = sizes.map(|fault| fault.found_by("numbers"));
    let found = found.chain(bounds.map(|fault| fault.found_by("numbers at bounds")));
    found.chain(beside().into_iter().map(|fault| fault.found_by("numbers beside the lister"))).collect()
}

/// The plan of another number; 16 if there is none.
fn at(name: &str, other: impl Fn(&Input) -> Option<u64> + Send + Sync + 'static) -> Fault {
    success(PlanAt, name, move |input, reply| plan_at(input, reply, other(input)))
}

fn plan_at(input: &Input, reply: &mut Reply, k: Option<u64>) {
    match k.and_then(|k| input.known.plan_at(k)) {
        Some(plan) => reply.plan = plan,
        None => *reply = Reply::right(input, 16),
    }
}

/// Another number of a plan.
fn number(name: &str, other: impl Fn(&Input, u64) -> u64 + Send + Sync + 'static) -> Fault {
    success(PlanNumber, name, move |input, reply| reply.number = other(input, reply.number))
}

/// The number of the last plan.
fn last(input: &Input) -> u64 {
    input.known.count() - 1
}

fn none(input: &Input) -> bool {
    input.known.first().is_none()
}

/// The number that the call tests after 6.
fn last_test(call: Call) -> u32 {
    if call == PlanAt {
        16
    } else {
        8
    }
}

/// The complete plans in another order.
fn ordered<K: Ord>(rota: &Tables, key: impl Fn(&Plan) -> K) -> Vec<Plan> {
    let mut plans = definitions::plans(rota);
    plans.sort_by_key(key);
    plans
}

/// The slots of the last item first.
fn backwards(plan: &Plan) -> Plan {
    let mut other = *plan;
    other.reverse();
    other
}

/// Libraries whose calls do not agree with each other, or agree in what is wrong.
fn beside() -> Vec<Fault> {
    let both = |name: &str, k: fn(&Input, u64) -> Option<u64>, back: fn(&Input, u64) -> u64| {
        Fault::new(format!("both calls: {name}"), move |input, reply| match (input.call, reply.code) {
            (PlanAt, 0) => plan_at(input, reply, k(input, input.k)),
            (PlanNumber, 0) => reply.number = back(input, reply.number),
            _ => {}
        })
    };
    let first_items = |call: Call| {
        success(call, "the first items' tally beside the count", |input, reply| {
            reply.words = input.known.tally().to_vec();
        })
    };
    vec![
        both("numbers from 1", |_, k| k.checked_sub(1), |_, number| number + 1),
        both("numbers from the last plan on", |input, k| Some(last(input) - k), |input, number| last(input) - number),
        both(
            "the first two plans exchanged",
            |input, k| Some(if k < 2 && last(input) > 0 { 1 - k } else { k }),
            |input, number| if number < 2 && last(input) > 0 { 1 - number } else { number },
        ),
        at("k + 1 beside the lister", |input| Some(input.k + 1)),
        number("one more for the last plan, beside the lister", |input, number| {
            number + u64::from(number == last(input))
        }),
        Fault::of(PlanAt, "the last plan at k = count, beside the lister", |input, reply| {
            if reply.code == 16 && input.k == input.known.count() && !none(input) {
                *reply = Reply::right(&Input { k: last(input), ..Input::new(PlanAt, input.known) }, 0);
            }
        }),
        instead(PlanAt, "10 behind the last plan, beside the lister", 16, 10, |_| true),
        success(PlanAt, "the plan's callouts beside the lister", |input, reply| {
            reply.callouts = input.known.tables.callouts_of(&reply.plan);
        }),
        success(ListPlan, "the second plan first, beside the plan numbers", |input, reply| {
            let second = if input.started { None } else { input.known.next(&reply.plan) };
            reply.plan = second.unwrap_or(reply.plan);
            reply.lister = (true, reply.plan);
        }),
        first_items(PlanAt),
        first_items(PlanNumber),
        success(CountPlans, "the last items' tally beside the plan numbers", |input, reply| {
            reply.words = input.known.last_tally().to_vec();
        }),
    ]
}
