//! Wrong numbers of a plan, and wrong tests of the given record.

use super::{backwards, instead, last, none, number, ordered, Fault, Input, Plan, PlanNumber, Reply, Tables, ORDERED};
use crate::reference::{definitions, permanent};
use crate::rota::{low, BLANK};
use crate::self_test::wrong_sheets::{all_slots, inside, open_cells, without};

/// Items up to which a wrong sum is computed; above, the number is right.
const SUMMED: usize = 12;

pub fn all() -> Vec<Fault> {
    [other_numbers(), sums(), records(), plans_refused()].into_iter().flatten().collect()
}

fn other_numbers() -> Vec<Fault> {
    vec![
        number("numbers from 1", |_, number| number + 1),
        number("numbers from the last plan on", |input, number| last(input) - number),
        number("always 0", |_, _| 0),
        number("always the count", |input, _| input.known.count()),
        number("the count for the last plan", |input, number| number + u64::from(number == last(input))),
        number("one less for the last plan", |input, number| match number == last(input) {
            true => number.saturating_sub(1),
            false => number,
        }),
        number("1 for the first plan", |input, number| number.max(1).min(last(input))),
        number("999 at most", |_, number| number.min(999)),
        number("8 bits", |_, number| number % (1 << 8)),
        number("16 bits", |_, number| number % (1 << 16)),
        number("32 bits", |_, number| number % (1 << 32)),
        number("the plan's callouts", |input, _| input.known.tables.callouts_of(&input.given).into()),
        number("the last item's slot before the others'", |input, number| match input.known.n() {
            n if n > ORDERED => number,
            _ => {
                let plans = definitions::plans(&input.known.tables);
                plans.iter().filter(|plan| backwards(plan) < backwards(&input.given)).count() as u64
            }
        }),
        number("plans with fewer callouts first", |input, number| match input.known.n() {
            n if n > ORDERED => number,
            _ => {
                let rota = &input.known.tables;
                let plans = ordered(rota, |plan| (rota.callouts_of(plan), *plan));
                plans.iter().position(|plan| *plan == input.given).expect("a plan") as u64
            }
        }),
    ]
}

/// The sum over the items of the plans that give the item one of other slots, and the items before it those of the given plan.
fn summed(name: &str, passes: fn(usize, usize) -> bool, lower: fn(&Tables, usize, usize) -> u64) -> Fault {
    number(name, move |input, number| {
        let (rota, n) = (&input.known.tables, input.known.n());
        if n > SUMMED {
            return number;
        }
        let (mut left, mut before) = (low(n), 0);
        for (item, &slot) in input.given[..n].iter().enumerate() {
            let open = [&[lower(rota, item, slot.into())], &rota.opens[item + 1..]].concat();
            before += if passes(n, item) { permanent::permanent(&open, left) } else { 0 };
            left &= !(1 << slot);
        }
        before
    })
}

fn open_below(rota: &Tables, item: usize, slot: usize) -> u64 {
    rota.opens[item] & low(slot)
}

fn sums() -> Vec<Fault> {
    vec![
        summed("item 0 left out", |_, item| item != 0, open_below),
        summed("item 0 alone", |_, item| item == 0, open_below),
        summed("the item before the last left out", |n, item| item + 2 != n, open_below),
        summed("items from 8 on left out", |_, item| item < 8, open_below),
        summed("closed cells counted", |_, _| true, |_, _, slot| low(slot)),
        summed(
            "callouts not counted",
            |_, _| true,
            |rota, item, slot| open_below(rota, item, slot) & !rota.callouts[item],
        ),
        summed("slot 0 not counted", |_, _| true, |rota, item, slot| open_below(rota, item, slot) & !1),
        summed("the given slot counted", |_, _| true, |rota, item, slot| rota.opens[item] & low(slot + 1)),
        summed("the slots above counted", |_, _| true, |rota, item, slot| rota.opens[item] & !low(slot + 1)),
    ]
}

/// A record that is no plan taken for another, or for plan 0.
fn records() -> Vec<Fault> {
    let taken = |name: &str, other: fn(&Input) -> Plan| {
        Fault::of(PlanNumber, name, move |input, reply| {
            if reply.code == 8 && input.known.is_plan(&other(input)) {
                let other = Input { given: other(input), file: &[], ..Input::new(PlanNumber, input.known) };
                *reply = Reply::right(&other, 0);
            }
        })
    };
    let accepted = |name: &str, accepts: fn(&Input) -> bool| {
        Fault::of(PlanNumber, name, move |input, reply| {
            if reply.code == 8 && accepts(input) {
                reply.code = 0;
                reply.words = input.known.last_tally().to_vec();
            }
        })
    };
    let mut list = vec![
        taken("bytes from n on not tested", |input| without(input, input.known.n(), 64)),
        taken("byte n not tested", |input| without(input, input.known.n(), input.known.n() + 1)),
        taken("byte 63 not tested", |input| without(input, input.known.n().max(63), 64)),
        taken("slots modulo 64", |input| input.given.map(|slot| slot % 64)),
        taken("slots modulo 128", |input| input.given.map(|slot| slot % 128)),
        taken("the first plan for the blank plan", |input| match input.given {
            BLANK => input.known.first().unwrap_or(BLANK),
            given => given,
        }),
        taken("the first plan for every other record", |input| input.known.first().unwrap_or(BLANK)),
        accepted("a slot twice accepted", |input| open_cells(input, 0..input.known.n())),
        accepted("closed cells accepted", all_slots),
        accepted("the first cell not tested", |input| all_slots(input) && open_cells(input, 1..input.known.n())),
        accepted("the last cell not tested", |input| all_slots(input) && open_cells(input, 0..input.known.n() - 1)),
        accepted("every record with slots below n accepted", inside),
        accepted("every record accepted without a plan", none),
        accepted("every record accepted", |_| true),
    ];
    for other in [9, 10, 15, 16] {
        list.push(instead(PlanNumber, &format!("{other} in place of 8"), 8, other, |_| true));
        list.push(instead(PlanNumber, &format!("{other} in place of 8 without a plan"), 8, other, none));
    }
    list
}

fn plans_refused() -> Vec<Fault> {
    let refused = |name: &str, number: u32, refuses: fn(&Input) -> bool| instead(PlanNumber, name, 0, number, refuses);
    vec![
        refused("8 for every plan but the first", 8, |input| input.known.first() != Some(input.given)),
        refused("8 for the last plan", 8, |input| input.known.last() == Some(input.given)),
        refused("10 for the last plan", 10, |input| input.known.last() == Some(input.given)),
        refused("8 for a plan with a callout", 8, |input| input.known.tables.callouts_of(&input.given) > 0),
        refused("8 for a plan with slot 0 last", 8, |input| input.given[input.known.n() - 1] == 0),
        refused("16 for plan 1,000", 16, |input| input.known.number(&input.given) >= 1_000),
    ]
}

/// Numbers of fewer bits than 20 items need, and in floating point.
pub fn fewer_bits() -> Vec<Fault> {
    vec![number("61 bits", |_, number| number % (1 << 61)), number("floating point", |_, number| number as f64 as u64)]
}
