//! For every call and every number that it can give: another number, another value in each field, a byte written in each
//! buffer where it should be kept; and for every call its tests in another order.

use super::faults::{Fault, Place};
use super::mock::Reply;
use crate::reference::answers::{Call, CALLS};
use Call::*;

pub fn faults() -> Vec<Fault> {
    let mut list = vec![];
    for call in CALLS {
        for code in codes(call) {
            let mut with_code = vec![];
            other_number(call, code, &mut with_code);
            other_fields(call, code, &mut with_code);
            touched_buffers(call, code, &mut with_code);
            if matches!(code, 1..=4 | 12..=14) {
                with_code = with_code.into_iter().map(|fault| fault.found_by("refusals")).collect();
            }
            list.extend(with_code);
        }
        exchanged_tests(call, &mut list);
    }
    list
}

/// Every number that a call can give.
fn codes(call: Call) -> Vec<u32> {
    let mut codes = vec![0];
    codes.extend(call.order(false).iter().chain(call.order(true)));
    codes.sort();
    codes.dedup();
    codes
}

fn other_number(call: Call, code: u32, list: &mut Vec<Fault>) {
    list.push(Fault::of(call, &format!("another number than {code}"), move |_, reply| {
        if reply.code == code {
            reply.code = code + 1;
        }
    }));
}

type Field = (&'static str, fn(&mut Reply));

/// The fields of a call's answer.
fn fields(call: Call) -> Vec<Field> {
    let shortage: Field = ("shortage", |reply| reply.shortage += 1);
    let items: Field = ("items", |reply| reply.items ^= 1 << 63);
    let number: Field = ("number", |reply| reply.number += 1);
    match call {
        FirstPlan | NextPlan | ListPlan | FewestCallouts | CellPlan | PlanAt => vec![
            shortage,
            items,
            ("callouts", |reply| reply.callouts += 1),
            ("first slot", |reply| reply.plan[0] ^= 1),
            ("last byte of the plan", |reply| reply.plan[63] ^= 128),
        ],
        CountPlans | CountPlansUntallied | PlanNumber | ReadFile | WriteFile => vec![number],
        Grade | MonthlyPrice | GradeUntallied | MonthlyPriceUntallied => vec![number, shortage, items],
        UsableSlots | PlanSheet | FileFirstPlan | FileNextPlan | FileFewestCallouts => vec![],
    }
}

fn other_fields(call: Call, code: u32, list: &mut Vec<Fault>) {
    for (field, change) in fields(call) {
        list.push(Fault::of(call, &format!("another {field} with {code}"), move |_, reply| {
            if reply.code == code {
                change(reply);
            }
        }));
    }
}

/// How many buffers are lent, and which of them are outputs.
fn buffers(call: Call) -> (usize, &'static [usize]) {
    match call {
        FirstPlan | NextPlan | FewestCallouts | CellPlan => (2, &[]),
        CountPlansUntallied | GradeUntallied | MonthlyPriceUntallied => (2, &[]),
        ListPlan | UsableSlots | PlanSheet | CountPlans | Grade | MonthlyPrice | WriteFile => (3, &[2]),
        PlanAt | PlanNumber => (3, &[2]),
        ReadFile => (3, &[1, 2]),
        FileFirstPlan | FileNextPlan | FileFewestCallouts => (2, &[1]),
    }
}

fn touched_buffers(call: Call, code: u32, list: &mut Vec<Fault>) {
    let (number, outputs) = buffers(call);
    for buffer in 0..number {
        let mut places = vec![Place::GuardBefore, Place::GuardAfter];
        if !outputs.contains(&buffer) || code != 0 {
            places.push(Place::First);
        } else if call != ListPlan {
            places.push(Place::Further);
        }
        // The lister is stored whole after every call, so a byte of it is changed in the reply below.
        places.retain(|&place| call != ListPlan || buffer != 2 || place != Place::First);
        for place in places {
            let name = format!("{}: {place:?} of buffer {buffer} written with {code}", call.name());
            let touched = Some((call, code, buffer, place));
            list.push(Fault { name, touched, ..Fault::none() });
        }
    }
    if call == ListPlan {
        list.push(Fault::of(call, &format!("the lister's flag changed with {code}"), move |_, reply| {
            reply.lister.0 ^= reply.code == code;
        }));
        list.push(Fault::of(call, &format!("the lister's plan changed with {code}"), move |_, reply| {
            reply.lister.1[63] ^= u8::from(reply.code == code);
        }));
    }
}

/// Neighbouring tests exchanged. 10 supposes that the given plan is one and 11 that there is one: before the test that they
/// follow they have no meaning.
fn exchanged_tests(call: Call, list: &mut Vec<Fault>) {
    let mut pairs: Vec<&[u32]> = call.order(false).windows(2).chain(call.order(true).windows(2)).collect();
    pairs.sort();
    pairs.dedup();
    for pair in pairs.into_iter().filter(|pair| ![10, 11].contains(&pair[1])) {
        let (one, other) = (pair[0], pair[1]);
        let name = format!("{}: {other} tested before {one}", call.name());
        let subject = match call {
            CountPlansUntallied | GradeUntallied | MonthlyPriceUntallied => Some("untallied at bounds"),
            PlanAt | PlanNumber => Some("numbers at bounds"),
            _ => None,
        };
        list.push(Fault { name, subject, exchanged: Some((call, one, other)), ..Fault::none() });
    }
}
