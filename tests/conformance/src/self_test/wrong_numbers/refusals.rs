//! Wrong refusals: numbers that are not below the count, other answers with a refusal, other sizes and lengths.

use super::{instead, last, last_test, none, success, Fault, Input, Plan, PlanAt, PlanNumber, Reply, NUMBERS};
use crate::rota::BLANK;

pub fn all() -> Vec<Fault> {
    [beyond(), zeros(), lengths(), twenty()].into_iter().flatten().collect()
}

/// Numbers that are not below the count, and the last one that is.
fn beyond() -> Vec<Fault> {
    let accepted = |name: &str, plan: fn(&Input) -> Option<Plan>| {
        Fault::of(PlanAt, name, move |input, reply| {
            let plan = if reply.code == 16 { plan(input) } else { None };
            if let Some(plan) = plan {
                (reply.code, reply.plan) = (0, plan);
                reply.words = input.known.last_tally().to_vec();
            }
        })
    };
    let refused = |name: &str, refuses: fn(&Input) -> bool| instead(PlanAt, name, 0, 16, refuses);
    let mut list = vec![
        accepted("the last plan at k = count", |input| match input.k == input.known.count() {
            true => input.known.last(),
            false => None,
        }),
        accepted("the first plan at k = count", |input| match input.k == input.known.count() {
            true => input.known.first(),
            false => None,
        }),
        accepted("a blank plan at k = count", |input| (input.k == input.known.count()).then_some(BLANK)),
        accepted("the last plan for every k", |input| input.known.last()),
        accepted("a blank plan for every k", |_| Some(BLANK)),
        accepted("a blank plan without a plan", |input| none(input).then_some(BLANK)),
        accepted("a blank plan for k = 0 without a plan", |input| (none(input) && input.k == 0).then_some(BLANK)),
        accepted("k modulo the count", |input| input.known.plan_at(input.k.checked_rem(input.known.count())?)),
        accepted("k beyond the count cut to 32 bits", |input| input.known.plan_at(input.k % (1 << 32))),
        accepted("k from 2^63 on taken for negative", |input| match input.k >> 63 {
            1 => input.known.first(),
            _ => None,
        }),
        accepted("2^64 - 1 taken for the last plan", |input| match input.k {
            u64::MAX => input.known.last(),
            _ => None,
        }),
        refused("16 at k = count - 1", |input| input.k == last(input)),
        refused("16 at k = 0", |input| input.k == 0),
        refused("16 from k = 2^32 on", |input| input.k >> 32 > 0),
        refused("16 where there is one plan", |input| input.known.count() == 1),
        Fault::of(PlanAt, "who is short with 16", |input, reply| {
            if reply.code == 16 && none(input) {
                (reply.items, reply.shortage) = input.known.shortage();
            }
        }),
        Fault::of(PlanAt, "the last plan with 16", |input, reply| {
            if reply.code == 16 {
                reply.plan = input.known.last().unwrap_or(BLANK);
            }
        }),
    ];
    for other in [8, 9, 10, 15] {
        list.push(instead(PlanAt, &format!("{other} in place of 16"), 16, other, |_| true));
        list.push(instead(PlanAt, &format!("{other} in place of 16 without a plan"), 16, other, none));
        let behind = |input: &Input| input.k == input.known.count();
        list.push(instead(PlanAt, &format!("{other} in place of 16 at k = count"), 16, other, behind));
    }
    for of in [5, 6] {
        list.push(instead(PlanAt, &format!("16 before {of} without a plan"), of, 16, none));
        list.push(instead(PlanAt, &format!("16 before {of} for 2^64 - 1"), of, 16, |input| input.k == u64::MAX));
        list.push(instead(PlanAt, &format!("9 before {of}"), of, 9, none));
        list.push(instead(PlanNumber, &format!("8 before {of} without a plan"), of, 8, none));
        list.push(instead(PlanNumber, &format!("8 before {of} for the blank plan"), of, 8, |input| {
            input.given == BLANK
        }));
    }
    list
}

/// Refusals with another plan than the blank one, or with a number.
fn zeros() -> Vec<Fault> {
    let mut list = vec![];
    for &code in PlanAt.order(false) {
        let with = |name: &str, plan: fn(&Input) -> Plan| {
            Fault::of(PlanAt, &format!("{name} with {code}"), move |input, reply| {
                if reply.code == code {
                    reply.plan = plan(input);
                }
            })
        };
        list.push(with("zeros for the blank plan", |_| [0; 64]));
        list.push(with("a blank plan of n bytes", |input| {
            let mut plan = BLANK;
            plan[input.known.n().min(63)..].fill(0);
            plan
        }));
    }
    let first = |code: u32| {
        Fault::of(PlanAt, &format!("the first plan with {code}"), move |input, reply| {
            if reply.code == code {
                reply.plan = input.known.first().unwrap_or(BLANK);
            }
        })
    };
    list.extend([5, 6, 16].map(first));
    for code in [5, 6, 8] {
        list.push(Fault::of(PlanNumber, &format!("2^64 - 1 with {code}"), move |_, reply| {
            reply.number = if reply.code == code { u64::MAX } else { reply.number };
        }));
    }
    list
}

/// Other sizes and lengths accepted and refused.
fn lengths() -> Vec<Fault> {
    let mut list = vec![];
    for call in NUMBERS {
        list.push(instead(call, "6 in place of 5", 5, 6, |_| true));
        list.push(instead(call, "5 in place of 6", 6, 5, |_| true));
        list.push(instead(call, "15 in place of 6", 6, 15, |_| true));
        list.push(instead(call, "5 for n above 64", 1, 5, |input| input.known.n() > 64));
        list.push(instead(call, "a longer tally refused", 0, 6, |input| input.tally_words > 1 << input.known.n()));
        list.push(instead(call, "a tally that is not longer refused", 0, 6, |input| {
            input.tally_words == 1 << input.known.n()
        }));
        let accepted = |name: &str, accepts: fn(&Input) -> bool| {
            Fault::of(call, name, move |input, reply| {
                if reply.code == 6 && accepts(input) {
                    *reply = Reply::right(input, input.refusal_in(&[last_test(call)]));
                    reply.words.truncate(input.tally_words);
                }
            })
        };
        list.push(accepted("a tally a word too short accepted", |input| input.tally_words + 1 == 1 << input.known.n()));
        list.push(accepted("every tally accepted", |_| true));
        list.push(Fault::of(call, "21 items accepted", |input, reply| {
            if reply.code == 5 && input.known.n() == 21 {
                reply.code = 0;
            }
        }));
    }
    list
}

fn twenty() -> Vec<Fault> {
    let mut list = vec![];
    for call in NUMBERS {
        list.push(instead(call, "20 items refused", 0, 5, |input| input.known.n() == 20));
        list.push(success(call, "a word of 20 items", |input, reply| {
            if input.known.n() == 20 {
                reply.words[0x5_5555] += 1;
            }
        }));
        list.push(instead(call, "6 for 20 items", 0, 6, |input| input.known.n() == 20));
    }
    let alone = |input: &Input| input.known.n() == 20 && input.known.count() == 0;
    list.push(instead(PlanAt, "9 in place of 16 for 20 items", 16, 9, alone));
    list
}
