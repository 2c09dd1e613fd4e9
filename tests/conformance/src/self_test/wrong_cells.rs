//! Wrong libraries that come near: plans of cells.

use super::faults::Fault;
use super::mock::Reply;
use crate::reference::answers::{Call, Input};
use crate::reference::{assignment, matching};
use crate::rota::{has, plan_of, Cell, Plan, Tables, BLANK};
use Call::CellPlan;

pub fn faults() -> Vec<Fault> {
    let successes = [other_plans(), blanks(), larger_numbers(), numbers(), bytes()];
    let found = successes.into_iter().flatten().map(|fault| fault.found_by("cells"));
    found.chain(refusals().into_iter().map(|fault| fault.found_by("refusals"))).collect()
}

/// A fault of the successes.
fn success(name: &str, change: impl Fn(&Input, &mut Reply) + Send + Sync + 'static) -> Fault {
    Fault::of(CellPlan, name, move |input, reply| {
        if reply.code == 0 {
            change(input, reply);
        }
    })
}

/// A change of the answer for a cell that some plan holds.
fn held(name: &str, change: impl Fn(&Input, &mut Reply) + Send + Sync + 'static) -> Fault {
    success(name, move |input, reply| {
        if reply.plan != BLANK {
            change(input, reply);
        }
    })
}

/// Another plan for such a cell; None leaves the right one.
fn other_plan(name: &str, other: impl Fn(&Input, &Plan) -> Option<Plan> + Send + Sync + 'static) -> Fault {
    held(name, move |input, reply| reply.plan = other(input, &reply.plan).unwrap_or(reply.plan))
}

/// A change of the answer for a cell that no plan holds; it may be outside.
fn not_held(name: &str, change: impl Fn(&Input, &mut Reply) + Send + Sync + 'static) -> Fault {
    success(name, move |input, reply| {
        if reply.plan == BLANK {
            change(input, reply);
        }
    })
}

fn outside(input: &Input) -> bool {
    input.cell.0.max(input.cell.1) >= input.known.n()
}

fn open(input: &Input) -> bool {
    !outside(input) && input.known.tables.is_open(input.cell.0, input.cell.1)
}

/// The rota with no other slot open to the cell's item.
fn with_cell(input: &Input) -> Tables {
    let mut tables = input.known.tables.clone();
    let (item, slot) = input.cell;
    tables.opens[item] &= 1 << slot;
    tables.callouts[item] &= 1 << slot;
    tables
}

/// The plan with the cell, its slot's owner taking what the item had.
fn exchanged(plan: &Plan, (item, slot): Cell, n: usize) -> Plan {
    let mut other = *plan;
    if let Some(owner) = (0..n).find(|&owner| usize::from(plan[owner]) == slot) {
        other.swap(owner, item);
    }
    other
}

/// The cell, and every other item with its lowest free slot.
fn first_fit(rota: &Tables, (item, slot): Cell) -> Option<Plan> {
    let mut taken = 1 << slot;
    let mut slots = vec![];
    for (other, open) in rota.opens.iter().enumerate() {
        let lowest = (0..rota.n).find(|&free| has(open & !taken, free));
        let given = if other == item { slot } else { lowest? };
        taken |= 1 << given;
        slots.push(given);
    }
    Some(plan_of(&slots))
}

fn other_plans() -> Vec<Fault> {
    let lost = |input: &Input, kept: u64| {
        let opens: Vec<u64> = input.known.tables.opens.iter().map(|open| open & kept).collect();
        matching::cell_plan(&Tables::open(&opens), input.cell).or(Some(BLANK))
    };
    vec![
        other_plan("the second plan that holds the cell", |input, plan| matching::next(&with_cell(input), plan)),
        other_plan("the last plan that holds the cell", |input, _| matching::last(&with_cell(input))),
        other_plan("the first plan", |input, _| input.known.first()),
        other_plan("the last plan", |input, _| input.known.last()),
        other_plan("the plan after the right one", |input, plan| input.known.next(plan)),
        other_plan("the fewest callouts", |input, _| assignment::fewest(&with_cell(input)).map(|(_, plan)| plan)),
        other_plan("the first plan with two slots exchanged", |input, _| {
            Some(exchanged(&input.known.first()?, input.cell, input.known.n()))
        }),
        other_plan("the items before it as in the first plan", |input, _| {
            let (mut tables, first) = (with_cell(input), input.known.first()?);
            for (item, slot) in first.iter().enumerate().take(input.cell.0) {
                tables.opens[item] = 1 << slot;
            }
            matching::first(&tables).or(Some(BLANK))
        }),
        other_plan("the items after it looked at first", |input, _| {
            let mut tables = with_cell(input);
            tables.opens.rotate_left(input.cell.0);
            let mut plan = matching::first(&tables)?;
            plan[..tables.n].rotate_right(input.cell.0);
            Some(plan)
        }),
        other_plan("first fit", |input, _| first_fit(&input.known.tables, input.cell).or(Some(BLANK))),
        other_plan("no callouts but the cell", |input, _| {
            let mut tables = with_cell(input);
            for item in (0..tables.n).filter(|&item| item != input.cell.0) {
                tables.opens[item] &= !tables.callouts[item];
            }
            matching::first(&tables).or(Some(BLANK))
        }),
        other_plan("slot 63 lost", move |input, _| lost(input, u64::MAX >> 1)),
        other_plan("slots from 32 on lost", move |input, _| lost(input, u64::MAX >> 32)),
        success("item and slot exchanged", |input, reply| {
            reply.plan = input.known.cell_plan((input.cell.1, input.cell.0)).unwrap_or(BLANK);
        }),
    ]
}

/// A blank plan where there is one, and the other way round.
fn blanks() -> Vec<Fault> {
    vec![
        other_plan("always blank", |_, _| Some(BLANK)),
        other_plan("blank but for cells of the first plan", |input, plan| {
            (input.known.first()? != *plan).then_some(BLANK)
        }),
        other_plan("blank but for cells of the first and last plan", |input, plan| {
            let (first, last) = (input.known.first()?, input.known.last()?);
            let ends = first == *plan || usize::from(last[input.cell.0]) == input.cell.1;
            (!ends).then_some(BLANK)
        }),
        other_plan("blank for a callout", |input, _| {
            input.known.tables.is_callout(input.cell.0, input.cell.1).then_some(BLANK)
        }),
        other_plan("blank for item 63", |input, _| (input.cell.0 == 63).then_some(BLANK)),
        other_plan("blank for slot 63", |input, _| (input.cell.1 == 63).then_some(BLANK)),
        not_held("the first plan if none holds the cell", |input, reply| {
            reply.plan = input.known.first().unwrap_or(BLANK);
        }),
        not_held("the first plan if none holds an open cell", |input, reply| {
            reply.plan = input.known.first().filter(|_| open(input)).unwrap_or(BLANK);
        }),
        not_held("the first plan if the cell is not open", |input, reply| {
            reply.plan = input.known.first().filter(|_| !outside(input) && !open(input)).unwrap_or(BLANK);
        }),
        not_held("the first plan if the item is outside", |input, reply| {
            reply.plan = input.known.first().filter(|_| input.cell.0 >= input.known.n()).unwrap_or(BLANK);
        }),
        not_held("the first plan if the slot is outside", |input, reply| {
            reply.plan = input.known.first().filter(|_| input.cell.1 >= input.known.n()).unwrap_or(BLANK);
        }),
        not_held("an open cell put into the first plan", |input, reply| {
            if let (true, Some(first)) = (open(input), input.known.first()) {
                reply.plan = exchanged(&first, input.cell, input.known.n());
            }
        }),
        not_held("a closed cell as if it were open", |input, reply| {
            if !outside(input) && !open(input) {
                let mut opens = input.known.tables.opens.clone();
                opens[input.cell.0] |= 1 << input.cell.1;
                reply.plan = matching::cell_plan(&Tables::open(&opens), input.cell).unwrap_or(BLANK);
            }
        }),
        not_held("slots 0 to n - 1 if there is no plan", |input, reply| {
            if let (true, None) = (open(input), input.known.first()) {
                let slots: Vec<usize> = (0..input.known.n()).collect();
                reply.plan = plan_of(&slots);
            }
        }),
    ]
}

/// A number and n, and what the number is taken for.
type Taken = (&'static str, fn(usize, usize) -> usize);

/// A cell outside taken for one inside.
fn larger_numbers() -> Vec<Fault> {
    let taken: [Taken; 8] = [
        ("n taken as n - 1", |number, n| if number == n { n - 1 } else { number }),
        ("n and above taken as n - 1", |number, n| number.min(n - 1)),
        ("modulo n", |number, n| number % n),
        ("modulo 64", |number, _| number % 64),
        ("cut to 8 bits", |number, _| number % (1 << 8)),
        ("cut to 16 bits", |number, _| number % (1 << 16)),
        ("cut to 32 bits", |number, _| number % (1 << 32)),
        ("cut to 63 bits", |number, _| number % (1 << 63)),
    ];
    let mut list = vec![];
    for (name, inside) in taken {
        list.push(success(&format!("item: {name}"), move |input, reply| {
            let cell = (inside(input.cell.0, input.known.n()), input.cell.1);
            reply.plan = input.known.cell_plan(cell).unwrap_or(BLANK);
        }));
        list.push(success(&format!("slot: {name}"), move |input, reply| {
            let cell = (input.cell.0, inside(input.cell.1, input.known.n()));
            reply.plan = input.known.cell_plan(cell).unwrap_or(BLANK);
        }));
    }
    for least in [63, 64, usize::MAX] {
        list.push(not_held(&format!("item {least} taken for item 0"), move |input, reply| {
            if input.cell.0 == least && input.known.n() <= least {
                reply.plan = input.known.cell_plan((0, input.cell.1)).unwrap_or(BLANK);
            }
        }));
        list.push(not_held(&format!("slot {least} taken for slot 0"), move |input, reply| {
            if input.cell.1 == least && input.known.n() <= least {
                reply.plan = input.known.cell_plan((input.cell.0, 0)).unwrap_or(BLANK);
            }
        }));
    }
    list.push(not_held("the bytes from n on taken for slots", |input, reply| {
        if (input.known.n()..64).contains(&input.cell.0) && input.cell.1 == 0 {
            reply.plan = input.known.first().unwrap_or(BLANK);
        }
    }));
    list
}

/// A number other than 0 in an answer that has 0 in it.
fn numbers() -> Vec<Fault> {
    let mut list = vec![
        not_held("9 without a plan", |input, reply| {
            if input.known.first().is_none() {
                *reply = Reply::right(input, 9);
            }
        }),
        not_held("9 without a plan, for cells inside", |input, reply| {
            if input.known.first().is_none() && !outside(input) {
                *reply = Reply::right(input, 9);
            }
        }),
        not_held("without a plan who is short", |input, reply| {
            if input.known.first().is_none() {
                (reply.items, reply.shortage) = input.known.shortage();
            }
        }),
        held("the plan's callouts", |input, reply| {
            reply.callouts = input.known.tables.callouts_of(&reply.plan);
        }),
        held("whether the cell is a callout", |input, reply| {
            reply.callouts = input.known.tables.is_callout(input.cell.0, input.cell.1).into();
        }),
        held("the item as the item set", |input, reply| reply.items = 1 << input.cell.0),
    ];
    for number in [8, 9, 10] {
        list.push(not_held(&format!("{number} if a plan exists and none holds the cell"), move |input, reply| {
            if input.known.first().is_some() {
                reply.code = number;
            }
        }));
    }
    for number in [1, 3, 8, 10, 15] {
        list.push(success(&format!("{number} for an item outside"), move |input, reply| {
            if input.cell.0 >= input.known.n() {
                reply.code = number;
            }
        }));
        list.push(success(&format!("{number} for a slot outside"), move |input, reply| {
            if input.cell.1 >= input.known.n() {
                reply.code = number;
            }
        }));
    }
    list
}

/// Other bytes in a record.
fn bytes() -> Vec<Fault> {
    vec![
        not_held("zeros for the blank plan", |_, reply| reply.plan = [0; 64]),
        not_held("64 for the blank plan's bytes", |_, reply| reply.plan = [64; 64]),
        not_held("a blank plan of n bytes", |input, reply| reply.plan[input.known.n()..].fill(0)),
        not_held("a blank plan of one byte", |_, reply| reply.plan[1..].fill(0)),
        not_held("blank but for the cell", |input, reply| {
            if !outside(input) {
                reply.plan[input.cell.0] = input.cell.1 as u8;
            }
        }),
        other_plan("255 from byte n on", |input, plan| {
            let mut plan = *plan;
            plan[input.known.n()..].fill(255);
            Some(plan)
        }),
        other_plan("the cell alone", |input, plan| {
            let mut cell = [255; 64];
            cell[input.cell.0] = plan[input.cell.0];
            Some(cell)
        }),
    ]
}

fn refusals() -> Vec<Fault> {
    let mut list = vec![
        Fault::of(CellPlan, "zeros for the plan of a refusal", |_, reply| {
            if reply.code != 0 {
                reply.plan = [0; 64];
            }
        }),
        Fault::of(CellPlan, "a cell outside refused before the tables", |input, reply| {
            if reply.code > 1 && outside(input) {
                reply.code = 1;
            }
        }),
        Fault::of(CellPlan, "a slot outside refused before 4", |input, reply| {
            if reply.code == 4 && input.cell.1 >= input.known.n() {
                reply.code = 3;
            }
        }),
    ];
    for number in 1..=4 {
        let rest: Vec<u32> = (1..=4).filter(|&other| other != number).collect();
        list.push(Fault::of(CellPlan, &format!("{number} not tested"), move |input, reply| {
            if reply.code == number {
                reply.code = input.refusal_in(&rest);
            }
        }));
        list.push(Fault::of(CellPlan, &format!("{number} not tested for a cell outside"), move |input, reply| {
            if reply.code == number && outside(input) {
                reply.code = 0;
            }
        }));
        list.push(Fault::of(CellPlan, &format!("{number} tested for a cell outside alone"), move |input, reply| {
            if reply.code == number && !outside(input) {
                reply.code = 0;
            }
        }));
    }
    list.push(Fault::of(CellPlan, "3 tested for the cell's item alone", |input, reply| {
        let tables = &input.known.tables;
        if reply.code == 3 && tables.opens.get(input.cell.0).is_none_or(|open| open >> tables.n == 0) {
            reply.code = 0;
        }
    }));
    list.push(Fault::of(CellPlan, "4 tested for the cell's item alone", |input, reply| {
        let tables = &input.known.tables;
        let cells = (tables.opens.get(input.cell.0), tables.callouts.get(input.cell.0));
        if let (4, (Some(open), Some(callout))) = (reply.code, cells) {
            reply.code = if callout & !open == 0 { 0 } else { 4 };
        }
    }));
    list
}
