//! Wrong tests of the given plan: other records accepted, complete plans refused, other numbers than 8.

use super::{sheet_of, success, Fault, Input, Plan, PlanSheet, Reply};
use crate::rota::BLANK;

/// Other records accepted, complete plans refused, other numbers than 8.
pub fn all() -> Vec<Fault> {
    let mut list = accepted_as_another();
    list.extend(accepted_as_given());
    list.extend(plans_refused());
    for number in [0, 10, 15] {
        list.push(Fault::of(PlanSheet, &format!("{number} for 8"), move |_, reply| {
            reply.code = if reply.code == 8 { number } else { reply.code };
        }));
    }
    for number in [0, 9, 10, 15] {
        list.push(Fault::of(PlanSheet, &format!("{number} for 8 without a plan"), move |input, reply| {
            if reply.code == 8 && input.known.first().is_none() {
                reply.code = number;
            }
        }));
    }
    list
}

/// A record that is no plan taken for one.
fn accepted_as_another() -> Vec<Fault> {
    let taken = |name: &str, other: fn(&Input) -> Plan| {
        Fault::of(PlanSheet, name, move |input, reply| {
            if reply.code == 8 && input.known.is_plan(&other(input)) {
                reply.code = 0;
                reply.bytes = sheet_of(input, other(input));
            }
        })
    };
    vec![
        taken("bytes from n on not tested", |input| without(input, input.known.n(), 64)),
        taken("byte n not tested", |input| without(input, input.known.n(), input.known.n() + 1)),
        taken("byte 63 not tested from n on", |input| without(input, input.known.n().max(63), 64)),
        taken("bytes from n + 1 on not tested", |input| without(input, input.known.n() + 1, 64)),
        taken("slots modulo 64", |input| input.given.map(|slot| slot % 64)),
        taken("slots modulo 128", |input| input.given.map(|slot| slot % 128)),
        taken("the first plan for the blank plan", |input| match input.given {
            BLANK => input.known.first().unwrap_or(BLANK),
            given => given,
        }),
        taken("the first plan for every other record", |input| input.known.first().unwrap_or(BLANK)),
    ]
}

/// A record that is no plan printed.
fn accepted_as_given() -> Vec<Fault> {
    let accepted = |name: &str, accepts: fn(&Input) -> bool| {
        Fault::of(PlanSheet, name, move |input, reply| {
            if reply.code == 8 && accepts(input) {
                reply.code = 0;
                reply.bytes = sheet_of(input, input.given);
            }
        })
    };
    vec![
        accepted("a slot twice accepted", |input| open_cells(input, 0..input.known.n())),
        accepted("a plan of another rota accepted", all_slots),
        accepted("one closed cell accepted", |input| {
            let closed = |item: &usize| !open_cells(input, *item..*item + 1);
            all_slots(input) && (0..input.known.n()).filter(closed).count() == 1
        }),
        accepted("the first cell not tested", |input| all_slots(input) && open_cells(input, 1..input.known.n())),
        accepted("the last cell not tested", |input| all_slots(input) && open_cells(input, 0..input.known.n() - 1)),
        accepted("the first cell alone tested", |input| all_slots(input) && open_cells(input, 0..1)),
        accepted("every record with slots below n accepted", inside),
        accepted("every record with bytes below 64 accepted", |input| input.given.iter().all(|&slot| slot < 64)),
        accepted("every record with bytes below 100 accepted", |input| input.given.iter().all(|&slot| slot < 100)),
    ]
}

fn plans_refused() -> Vec<Fault> {
    let refused = |name: &str, number: u32, refuses: fn(&Input) -> bool| {
        success(name, move |input, reply| {
            if refuses(input) {
                *reply = Reply::right(input, number);
            }
        })
    };
    vec![
        refused("8 for every plan but the first", 8, |input| input.known.first() != Some(input.given)),
        refused("8 for every plan but the last", 8, |input| input.known.last() != Some(input.given)),
        refused("8 for a plan with a callout", 8, |input| input.known.tables.callouts_of(&input.given) > 0),
        refused("8 for a plan with more callouts than the fewest", 8, |input| {
            let callouts = input.known.tables.callouts_of(&input.given);
            input.known.fewest().is_some_and(|(fewest, _)| fewest < callouts)
        }),
        refused("8 for a plan with a cell that is no callout", 8, |input| {
            (input.known.tables.callouts_of(&input.given) as usize) < input.known.n()
        }),
        refused("8 for 64 items", 8, |input| input.known.n() == 64),
        refused("8 for a plan with slot 0 last", 8, |input| input.given[input.known.n() - 1] == 0),
        refused("10 for the last plan", 10, |input| input.known.last() == Some(input.given)),
    ]
}

/// The given record with 0 in these places.
pub fn without(input: &Input, from: usize, to: usize) -> Plan {
    let mut plan = input.given;
    plan[from.min(64)..to.min(64)].fill(0);
    plan
}

pub fn inside(input: &Input) -> bool {
    let n = input.known.n();
    input.given[..n].iter().all(|&slot| usize::from(slot) < n) && input.given[n..].iter().all(|&byte| byte == 0)
}

/// Whether no slot is given twice.
pub fn all_slots(input: &Input) -> bool {
    let mut slots = input.given[..input.known.n()].to_vec();
    slots.sort();
    slots.dedup();
    slots.len() == input.known.n() && inside(input)
}

pub fn open_cells(input: &Input, mut items: std::ops::Range<usize>) -> bool {
    items.all(|item| input.known.tables.is_open(item, input.given[item].into())) && inside(input)
}
