//! Wrong libraries that come near: plans, shortages, usable tables, counts.

use super::faults::Fault;
use super::mock::Reply;
use crate::reference::answers::{Call, Input};
use crate::reference::{definitions, layers, matching};
use crate::rota::{has, plan_of, word_of, Plan, Tables};
use Call::*;

pub fn faults() -> Vec<Fault> {
    let mut list = lister_faults();
    list.extend(first_faults());
    list.extend(next_faults());
    list.extend(shortage_and_fewest_faults());
    list.extend(usable_faults());
    list.extend(count_faults());
    list
}

fn give(reply: &mut Reply, plan: Option<Plan>) {
    if let (0, Some(plan)) = (reply.code, plan) {
        reply.plan = plan;
        reply.lister = (true, plan);
    }
}

fn lister_faults() -> Vec<Fault> {
    vec![
        Fault::of(ListPlan, "repeats its plan", |input, reply| {
            give(reply, input.started.then_some(input.given));
        }),
        Fault::of(ListPlan, "ends after three plans", |input, reply| {
            if input.started && reply.code == 0 {
                let second = input.known.first().and_then(|first| input.known.next(&first));
                if second.and_then(|second| input.known.next(&second)) == Some(input.given) {
                    *reply = Reply::right(input, 10);
                }
            }
        }),
        Fault::of(ListPlan, "passes a plan over", |input, reply| {
            let further = if input.started && reply.code == 0 { input.known.next(&reply.plan) } else { None };
            give(reply, further);
        }),
        Fault::of(ListPlan, "begins with the second plan", |input, reply| {
            let second = if !input.started && reply.code == 0 { input.known.next(&reply.plan) } else { None };
            give(reply, second);
        }),
        Fault::of(ListPlan, "started, gives 9 without a plan", |input, reply| {
            if input.started && reply.code == 8 && input.known.first().is_none() {
                *reply = Reply::right(input, 9);
            }
        }),
        Fault::of(ListPlan, "fresh, tests its plan", |input, reply| {
            if !input.started && [0, 9].contains(&reply.code) && !input.known.is_plan(&input.given) {
                *reply = Reply::right(input, 8);
            }
        }),
    ]
}

/// Every item takes its lowest free slot.
fn first_fit(rota: &Tables) -> Option<Plan> {
    let (mut taken, mut slots) = (0, vec![]);
    for open in &rota.opens {
        let slot = (0..rota.n).find(|&slot| has(open & !taken, slot))?;
        taken |= 1 << slot;
        slots.push(slot);
    }
    Some(plan_of(&slots))
}

fn first_faults() -> Vec<Fault> {
    let lost = |input: &Input, reply: &mut Reply, kept: u64| {
        if reply.code == 0 {
            let opens: Vec<u64> = input.known.tables.opens.iter().map(|open| open & kept).collect();
            match matching::first(&Tables::open(&opens)) {
                Some(plan) => reply.plan = plan,
                None => *reply = Reply::right(input, 9),
            }
        }
    };
    vec![
        Fault::of(FirstPlan, "the same plan for every rota", |input, reply| {
            give(reply, Some(plan_of(&(0..input.known.n().min(64)).collect::<Vec<_>>())));
        }),
        Fault::of(FirstPlan, "always 9", |input, reply| {
            if reply.code == 0 {
                *reply = Reply::right(input, 9);
            }
        }),
        Fault::of(FirstPlan, "first fit", |input, reply| {
            if reply.code == 0 {
                match first_fit(&input.known.tables) {
                    Some(plan) => reply.plan = plan,
                    None => *reply = Reply::right(input, 9),
                }
            }
        }),
        Fault::of(FirstPlan, "the last plan", |input, reply| {
            let last = if reply.code == 0 { input.known.last() } else { None };
            give(reply, last);
        }),
        Fault::of(FirstPlan, "slot 63 lost", move |input, reply| lost(input, reply, u64::MAX >> 1)),
        Fault::of(FirstPlan, "slots from 32 on lost", move |input, reply| lost(input, reply, u64::MAX >> 32)),
    ]
}

fn next_faults() -> Vec<Fault> {
    let accepts = |name: &str, repaired: fn(&Input) -> Plan| {
        Fault::of(NextPlan, name, move |input, reply| {
            let plan = if reply.code == 8 { repaired(input) } else { input.given };
            if reply.code == 8 && input.known.is_plan(&plan) {
                let input = Input { given: plan, file: &[], ..Input::new(NextPlan, input.known) };
                *reply = Reply::right(&input, input.refusal());
            }
        })
    };
    let slots = |input: &Input| input.given[..input.known.n()].to_vec();
    vec![
        Fault::of(NextPlan, "changes the last three items alone", |input, reply| {
            let kept = input.known.n().saturating_sub(3);
            if reply.code == 0 && reply.plan[..kept] != input.given[..kept] {
                *reply = Reply::right(input, 10);
            }
        }),
        Fault::of(NextPlan, "gives the given one", |input, reply| give(reply, Some(input.given))),
        accepts("accepts bytes from n on", |input| {
            let mut plan = input.given;
            plan[input.known.n()..].fill(0);
            plan
        }),
        accepts("takes slots modulo 64", |input| input.given.map(|slot| slot % 64)),
        Fault::of(NextPlan, "accepts a slot twice", move |input, reply| {
            if reply.code == 8
                && slots(input).iter().enumerate().all(|(i, &s)| has(input.known.tables.opens[i], s.into()))
            {
                *reply = Reply::right(input, 10);
            }
        }),
        Fault::of(NextPlan, "accepts a closed cell", move |input, reply| {
            let inside = |&slot: &u8| usize::from(slot) < input.known.n();
            if reply.code == 8 && slots(input).iter().all(inside) {
                let set = word_of(slots(input).iter().map(|&slot| slot.into()));
                if set.count_ones() as usize == input.known.n()
                    && input.given[input.known.n()..] == [0; 64][input.known.n()..]
                {
                    *reply = Reply::right(input, 10);
                }
            }
        }),
    ]
}

fn shortage_and_fewest_faults() -> Vec<Fault> {
    vec![
        Fault::of(FirstPlan, "the largest set with the shortage", |input, reply| {
            let rota = &input.known.tables;
            if reply.code == 9 && rota.n <= 6 {
                let short =
                    (0..1u64 << rota.n).filter(|&set| definitions::short_by(rota, set) == reply.shortage.into());
                reply.items = short.fold(0, |union, set| union | set);
            }
        }),
        Fault::of(FirstPlan, "a shortage of 1 at most", |_, reply| reply.shortage = reply.shortage.min(1)),
        Fault::of(FewestCallouts, "the cap itself refused", |input, reply| {
            if reply.code == 0 && reply.callouts == input.cap {
                *reply = Reply::right(input, 11);
            }
        }),
        Fault::of(FewestCallouts, "the last of the cheapest", |input, reply| {
            if reply.code == 0 && input.known.n() <= 6 {
                let plans = definitions::plans(&input.known.tables);
                let cheapest = |plan: &&Plan| input.known.tables.callouts_of(plan) == reply.callouts;
                let last = plans.iter().rfind(cheapest).copied();
                give(reply, last);
            }
        }),
        Fault::of(FewestCallouts, "the first plan", |input, reply| {
            if reply.code == 0 {
                reply.plan = input.known.first().expect("a plan");
                reply.callouts = input.known.tables.callouts_of(&reply.plan);
            }
        }),
        Fault::of(FewestCallouts, "the fewest number left out of 11", |_, reply| {
            reply.callouts = if reply.code == 11 { 0 } else { reply.callouts };
        }),
    ]
}

fn usable_faults() -> Vec<Fault> {
    let changed = |name: &str, words: fn(&Input) -> Vec<u64>| {
        Fault::of(UsableSlots, name, move |input, reply| {
            if reply.code == 0 {
                reply.words = words(input);
            }
        })
    };
    vec![
        changed("untouched", |_| vec![]),
        changed("the open table if there is a plan", |input| match input.known.first() {
            Some(_) => input.known.tables.opens.clone(),
            None => vec![0; input.known.n()],
        }),
        changed("the open table if there is no plan", |input| match input.known.first() {
            Some(_) => input.known.usable().to_vec(),
            None => input.known.tables.opens.clone(),
        }),
        changed("the cells of the first and last plan", |input| {
            let plans = [input.known.first(), input.known.last()];
            let row = |item: usize| plans.iter().flatten().fold(0, |word, plan| word | 1 << plan[item]);
            (0..input.known.n()).map(row).collect()
        }),
        changed("slot 63 lost", |input| input.known.usable().iter().map(|word| word & u64::MAX >> 1).collect()),
    ]
}

fn count_faults() -> Vec<Fault> {
    let changed = |name: &str, change: fn(&Input, &mut Reply)| {
        Fault::of(CountPlans, name, move |input, reply| {
            if reply.code == 0 {
                change(input, reply);
            }
        })
    };
    vec![
        changed("the number of open cells", |input, reply| {
            reply.number = input.known.tables.opens.iter().map(|open| u64::from(open.count_ones())).sum();
        }),
        changed("the last items first", |input, reply| {
            let mut turned = input.known.tables.clone();
            turned.opens.reverse();
            reply.words = layers::tally(&turned);
        }),
        changed("no way for the empty set", |_, reply| reply.words[0] = 0),
        changed("32 bits", |_, reply| reply.number %= 1 << 32).found_by("counts"),
        changed("a word of 20 items", |input, reply| {
            if input.known.n() == 20 {
                reply.words[0x5_5555] += 1;
            }
        })
        .found_by("counts"),
        changed("20 items refused", |input, reply| {
            if input.known.n() == 20 {
                *reply = Reply::right(input, 5);
            }
        })
        .found_by("counts"),
    ]
}
