//! Wrong grades of rotas with 1,000 plans or more and a brittle item: rules 2 and 3 both fit.

use super::brittle::with_many_plans;
use super::{grade_of, graded, one_open, some_brittle, Fault, Input, GRADED, PRICES};
use crate::reference::pricing;

/// The subjects that find them.
const FEW_ITEMS: &str = "overlap";
const MANY_ITEMS: &str = "overlap of many items";

pub fn all() -> Vec<Fault> {
    let tests = with_many_plans(FEW_ITEMS, MANY_ITEMS);
    let orders = few_items().into_iter().flatten().map(|fault| fault.found_by(FEW_ITEMS));
    let orders = orders.chain(many_items().into_iter().flatten().map(|fault| fault.found_by(MANY_ITEMS)));
    orders.chain(tests).chain(refusals().into_iter().map(|fault| fault.found_by(FEW_ITEMS))).collect()
}

/// Rule 2 before rule 3, where the test passes.
pub fn rule_2_first(name: &str, test: fn(&Input) -> bool) -> [Fault; 4] {
    graded(&format!("rule 2 before rule 3{name}"), move |input| match input.known.count() {
        1_000.. if test(input) => 5,
        _ => grade_of(input),
    })
}

/// Where no item has one open slot, it is another test of brittle items: open slots counted, from 1,000 plans on.
fn few_items() -> Vec<[Fault; 4]> {
    vec![
        rule_2_first(" at 1,000 plans", |input| input.known.count() == 1_000),
        rule_2_first(" from 1,001 plans on", |input| input.known.count() > 1_000),
        rule_2_first(" from 5,001 plans on", |input| input.known.count() > 5_000),
        rule_2_first(" where an item has one open slot", one_open),
    ]
}

fn many_items() -> Vec<[Fault; 4]> {
    vec![
        rule_2_first(" from 2^32 plans on", |input| input.known.count() >> 32 > 0),
        rule_2_first(" from 17 items on", |input| input.known.n() > 16),
        rule_2_first(" at 20 items", |input| input.known.n() == 20),
        graded("rule 1 by the lowest 32 bits of the count", |input| match input.known.count() % (1 << 32) {
            1 => 1,
            _ => grade_of(input),
        }),
    ]
}

/// Grade 2 in place of a refusal, where the test passes.
fn accepted(name: &str, code: u32, test: fn(&Input) -> bool) -> [Fault; 4] {
    GRADED.map(|call| {
        Fault::of(call, name, move |input, reply| {
            if reply.code == code && test(input) {
                (reply.code, reply.items, reply.shortage) = (0, 0, 0);
                reply.number = if PRICES.contains(&call) { pricing::price(2, input.vehicles, 0) } else { 2 };
            }
        })
    })
}

fn refusals() -> Vec<Fault> {
    let of_21_items = |input: &Input| input.known.n() == 21 && some_brittle(input);
    let faults = [
        accepted("21 items with a brittle one graded", 5, of_21_items),
        accepted("an item of one open slot graded without a plan", 9, one_open),
    ];
    faults.into_iter().flatten().collect()
}
