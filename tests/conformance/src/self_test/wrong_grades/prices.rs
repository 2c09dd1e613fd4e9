//! Wrong prices: other callouts, other fleets, other rates.

use super::{grade_of, success, Call, Fault, PRICES};
use crate::reference::pricing;
use crate::self_test::mock::Reply;

pub fn all() -> Vec<Fault> {
    PRICES.into_iter().flat_map(of_call).collect()
}

fn of_call(call: Call) -> Vec<Fault> {
    let mut list = vec![
        success(call, "the first plan's callouts", |input, reply| {
            let callouts = input.known.first().map_or(0, |plan| input.known.tables.callouts_of(&plan));
            reply.number = pricing::price(grade_of(input), input.vehicles, callouts);
        }),
        success(call, "no callouts", |input, reply| {
            reply.number = pricing::price(grade_of(input), input.vehicles, 0);
        }),
        success(call, "10,000 vehicles refused", |input, reply| {
            if input.vehicles == 10_000 {
                *reply = Reply::right(input, 7);
            }
        }),
        Fault::of(call, "vehicles cut to 32 bits", |input, reply| {
            if reply.code == 7 && input.vehicles == (1 << 32) + 1 {
                reply.code = 0;
            }
        }),
    ];
    for vehicles in [0, 10_001] {
        list.push(Fault::of(call, &format!("{vehicles} vehicles accepted"), move |input, reply| {
            if reply.code == 7 && input.vehicles == vehicles {
                reply.code = 0;
            }
        }));
    }
    for (vehicles, taken) in [(49, 50), (50, 49), (499, 500), (500, 499)] {
        list.push(success(call, &format!("{vehicles} vehicles at the rate of {taken}"), move |input, reply| {
            if input.vehicles == vehicles {
                let rate = |fleet: u64| pricing::price(grade_of(input), fleet, 0) / fleet;
                reply.number = reply.number + rate(taken) * vehicles - rate(vehicles) * vehicles;
            }
        }));
    }
    for (row, fleets) in pricing::RATES.iter().enumerate() {
        for &rate in fleets {
            list.push(success(call, &format!("rate {rate} a cent off"), move |input, reply| {
                let grade = grade_of(input);
                if grade as usize == row + 1 && pricing::price(grade, input.vehicles, 0) == rate * input.vehicles {
                    reply.number += input.vehicles;
                }
            }));
        }
    }
    list
}
