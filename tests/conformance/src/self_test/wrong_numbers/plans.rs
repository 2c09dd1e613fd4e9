//! Wrong plans of a number.

use super::{at, backwards, last, ordered, success, Fault, Input, Plan, PlanAt, ORDERED};
use crate::rota::{plan_of, BLANK};

pub fn all() -> Vec<Fault> {
    [other_plans(), bytes()].into_iter().flatten().collect()
}

/// Another plan.
fn given(name: &str, other: impl Fn(&Input, &Plan) -> Plan + Send + Sync + 'static) -> Fault {
    success(PlanAt, name, move |input, reply| reply.plan = other(input, &reply.plan))
}

/// The number's digits to the bases n, n - 1, .. choose among the slots that are left, open or not.
fn all_open(n: usize, mut number: u64) -> Plan {
    let mut left: Vec<usize> = (0..n).collect();
    let mut slots = vec![];
    for further in (0..n as u64).rev() {
        let base: u64 = (1..=further).product();
        slots.push(left.remove((number / base) as usize % left.len()));
        number %= base;
    }
    plan_of(&slots)
}

fn other_plans() -> Vec<Fault> {
    vec![
        at("k + 1", |input| Some(input.k + 1)),
        at("k + 1, but for the last plan", |input| Some((input.k + 1).min(last(input)))),
        at("k - 1, but for the first plan", |input| Some(input.k.saturating_sub(1))),
        at("numbers from 1", |input| input.k.checked_sub(1)),
        at("numbers from the last plan on", |input| Some(last(input) - input.k)),
        at("always the first plan", |_| Some(0)),
        at("always the last plan", |input| Some(last(input))),
        at("the first plan in place of the last", |input| Some(if input.k == last(input) { 0 } else { input.k })),
        at("the plan before the last in place of the last", |input| Some(input.k.min(last(input).max(1) - 1))),
        at("the second and the third plan exchanged", |input| match input.k {
            1 | 2 if last(input) >= 2 => Some(3 - input.k),
            k => Some(k),
        }),
        at("999 at most", |input| Some(input.k.min(999))),
        at("k cut to 3 bits", |input| Some(input.k % 8)),
        at("k cut to 8 bits", |input| Some(input.k % (1 << 8))),
        at("k cut to 16 bits", |input| Some(input.k % (1 << 16))),
        at("k cut to 32 bits", |input| Some(input.k % (1 << 32))),
        given("the last item's slot before the others'", |input, plan| match input.known.n() {
            n if n > ORDERED => *plan,
            _ => ordered(&input.known.tables, backwards)[input.k as usize],
        }),
        given("plans with fewer callouts first", |input, plan| match input.known.n() {
            n if n > ORDERED => *plan,
            _ => {
                let rota = &input.known.tables;
                ordered(rota, |plan| (rota.callouts_of(plan), *plan))[input.k as usize]
            }
        }),
        given("closed cells taken for open ones", |input, _| all_open(input.known.n(), input.k)),
        given("the first plan where item 1 has another slot", |input, plan| match input.known.first() {
            Some(first) if first[1] != plan[1] => first,
            _ => *plan,
        }),
        given("the last two items exchanged", |input, plan| {
            let (n, mut other) = (input.known.n(), *plan);
            other.swap(n - 1, n.max(2) - 2);
            other
        }),
        given("the last item without a slot", |input, plan| {
            let mut other = *plan;
            other[input.known.n() - 1] = 255;
            other
        }),
        given("slots beyond 7 as slot 7", |_, plan| plan.map(|slot| slot.min(7))),
    ]
}

/// Other bytes and numbers in the answer.
fn bytes() -> Vec<Fault> {
    vec![
        given("255 from byte n on", |input, plan| {
            let mut other = *plan;
            other[input.known.n()..].fill(255);
            other
        }),
        given("slots from 1", |input, plan| {
            let mut other = *plan;
            other[..input.known.n()].iter_mut().for_each(|slot| *slot += 1);
            other
        }),
        given("a blank plan with 0", |_, _| BLANK),
        success(PlanAt, "the plan's callouts", |input, reply| {
            reply.callouts = input.known.tables.callouts_of(&reply.plan);
        }),
        success(PlanAt, "the fewest callouts", |input, reply| {
            reply.callouts = input.known.fewest().map_or(0, |(callouts, _)| callouts);
        }),
        success(PlanAt, "the number as the item set", |input, reply| reply.items = input.k),
        success(PlanAt, "the number as the shortage", |input, reply| reply.shortage = input.k as u32),
    ]
}

/// Numbers of fewer bits than 20 items need, and in floating point.
pub fn fewer_bits() -> Vec<Fault> {
    vec![
        at("k of 61 bits", |input| Some(input.k % (1 << 61))),
        at("k in floating point", |input| Some((input.k as f64 as u64).min(last(input)))),
    ]
}
