//! Wrong libraries that come near: grades and prices, with a tally and without. A wrong grade is tried as the grade, and as the
//! price at its rate.

mod brittle;
mod overlap;
mod prices;

use super::faults::{success, Fault};
use crate::reference::answers::{Call, Input};
use crate::reference::{layers, pricing};
use Call::{Grade, GradeUntallied, MonthlyPrice, MonthlyPriceUntallied};

/// The calls that grade, and those of them that give a price.
const GRADED: [Call; 4] = [Grade, MonthlyPrice, GradeUntallied, MonthlyPriceUntallied];
const PRICES: [Call; 2] = [MonthlyPrice, MonthlyPriceUntallied];

pub fn faults() -> Vec<Fault> {
    let at_bounds = other_rules().into_iter().flatten().chain(tally_faults()).chain(prices::all());
    at_bounds.map(|fault| fault.found_by("prices")).chain(brittle::all()).chain(overlap::all()).collect()
}

/// Another grade where there is one.
fn graded(name: &str, other: impl Fn(&Input) -> u32 + Clone + Send + Sync + 'static) -> [Fault; 4] {
    GRADED.map(|call| {
        let other = other.clone();
        success(call, name, move |input, reply| {
            reply.number = match PRICES.contains(&call) {
                true => pricing::price(other(input), input.vehicles, input.known.fewest().expect("a plan").0),
                false => other(input).into(),
            };
        })
    })
}

/// Rule 3 with another test of whether some item is brittle.
fn rule_3(name: &str, test: impl Fn(&Input) -> bool + Clone + Send + Sync + 'static) -> [Fault; 4] {
    graded(name, move |input| pricing::by_rules(test(input), input.known.count()))
}

fn grade_of(input: &Input) -> u32 {
    pricing::grade(input.known.usable(), input.known.count())
}

fn some_brittle(input: &Input) -> bool {
    pricing::some_brittle(input.known.usable())
}

fn one_open(input: &Input) -> bool {
    pricing::some_brittle(&input.known.tables.opens)
}

fn other_rules() -> Vec<[Fault; 4]> {
    let mut list = vec![
        overlap::rule_2_first("", |_| true),
        graded("rule 3 before rule 1", |input| match input.known.count() {
            1 if some_brittle(input) => 2,
            _ => grade_of(input),
        }),
        rule_3("rule 3 left out", |_| false),
    ];
    for (count, taken) in [(1, 2), (2, 1), (23, 24), (24, 23), (999, 1_000), (1_000, 999)] {
        list.push(graded(&format!("{count} plans graded as {taken}"), move |input| match input.known.count() {
            same if same == count => pricing::grade(input.known.usable(), taken),
            _ => grade_of(input),
        }));
    }
    list
}

fn tally_faults() -> Vec<Fault> {
    let usable_left = |call: Call| {
        success(call, "the usable table left in the tally", |input, reply| {
            let n = input.known.n();
            reply.words[..n].copy_from_slice(input.known.usable());
        })
    };
    vec![
        success(Grade, "the tally kept", |_, reply| reply.words.clear()),
        Fault::of(Grade, "the tally filled with 9", |input, reply| {
            if reply.code == 9 {
                reply.words = layers::tally(&input.known.tables);
            }
        }),
        usable_left(Grade),
        usable_left(MonthlyPrice),
    ]
}
