//! The reference's methods against each other, and against the rows that document 01 works out.

use crate::inputs::{families, given};
use crate::random::Random;
use crate::reference::answers::{Call, Input};
use crate::reference::{assignment, definitions, layers, matching, permanent, rota_file, sheet, Known, Method};
use crate::rota::{low, plan_of, Plan, Tables, BLANK};

/// Compares and counts; a difference ends the program.
pub fn run() -> u64 {
    let mut random = Random::stream(1, "methods");
    let mut compared = worked_rows();
    for turn in 0..6_000 {
        compared += with_definitions(&families::any(1 + turn % 6, &mut random));
    }
    for _ in 0..200 {
        compared += with_definitions(&families::any(7, &mut random));
    }
    for turn in 0..600 {
        compared += with_layers(&families::any(8 + turn % 5, &mut random), &mut random);
    }
    for turn in 0..570 {
        compared += with_each_other(&families::any(8 + turn % 57, &mut random), &mut random);
    }
    compared
}

macro_rules! same {
    ($rota:expr, $what:expr, $one:expr, $other:expr) => {{
        assert_eq!($one, $other, "{} of\n{}", $what, $rota);
        1
    }};
}
pub(super) use same;

/// Every method against the definitions.
fn with_definitions(rota: &Tables) -> u64 {
    let plans = definitions::plans(rota);
    let mut compared = same!(rota, "first plan", matching::first(rota), plans.first().copied());
    compared += same!(rota, "last plan", matching::last(rota), plans.last().copied());
    for (place, plan) in plans.iter().enumerate() {
        assert!(matching::is_plan(rota, plan), "a complete plan of\n{rota}");
        compared += same!(rota, "next plan", matching::next(rota, plan), plans.get(place + 1).copied());
        compared += same!(rota, "sheet", sheet::text(rota, plan).into_bytes(), sheet_by_columns(rota, plan));
    }
    compared += same!(rota, "usable table", matching::usable(rota), definitions::usable(rota, &plans));
    for cell in (0..=rota.n).flat_map(|item| (0..=rota.n).map(move |slot| (item, slot))) {
        let plan = definitions::cell_plan(rota, &plans, cell);
        compared += same!(rota, format!("plan of {cell:?}"), matching::cell_plan(rota, cell), plan);
    }
    let short = definitions::shortage(rota);
    compared += same!(rota, "shortage", matching::shortage(rota), short);
    compared += same!(rota, "shortage by removal", matching::shortage_by_removal(rota), short);
    compared += same!(rota, "whether 9 fits", short.1 > 0, plans.is_empty());
    let fewest = definitions::fewest(rota, &plans);
    compared += same!(rota, "fewest callouts", assignment::fewest(rota), fewest);
    compared += same!(rota, "fewest callouts by layers", layers::fewest(rota), fewest);
    compared += same!(rota, "tally", layers::tally(rota), definitions::tally(rota));
    compared + same!(rota, "count", permanent::permanent(&rota.opens, low(rota.n)), plans.len() as u64)
}

/// The sheet byte by byte: what stands in each column of each line.
fn sheet_by_columns(rota: &Tables, plan: &Plan) -> Vec<u8> {
    let mut bytes = vec![b' '; sheet::bytes_for(rota.n)];
    for (at, letter) in [(0, b'I'), (1, b'T'), (6, b'S'), (7, b'L'), (12, b'C')] {
        bytes[at] = letter;
    }
    for (item, line) in bytes.chunks_mut(32).skip(1).enumerate() {
        for (column, number) in [(0, item as u8), (6, plan[item])] {
            line[column + 1] = b'0' + number % 10;
            if number >= 10 {
                line[column] = b'0' + number / 10;
            }
        }
        if rota.callouts[item] >> plan[item] & 1 == 1 {
            line[12] = b'C';
        }
    }
    bytes.chunks_mut(32).for_each(|line| line[31] = 10);
    bytes
}

/// The number of complete plans before this one, by Ryser's formula.
pub fn rank(rota: &Tables, plan: &Plan) -> u64 {
    let mut left = low(rota.n);
    let mut before = 0;
    for (item, &given) in plan[..rota.n].iter().enumerate() {
        for slot in 0..usize::from(given) {
            if rota.is_open(item, slot) && left >> slot & 1 == 1 {
                before += permanent::permanent(&rota.opens[item + 1..], left & !(1 << slot));
            }
        }
        left &= !(1 << given);
    }
    before
}

/// Rotas of 8 to 12 items: places in the dictionary, minors and layers.
fn with_layers(rota: &Tables, random: &mut Random) -> u64 {
    let known = Known::by(Method::Search, rota.clone());
    let count = permanent::permanent(&rota.opens, low(rota.n));
    let mut compared = same!(rota, "count", layers::tally(rota)[low(rota.n) as usize], count);
    compared += same!(rota, "fewest callouts", layers::fewest(rota), assignment::fewest(rota));
    compared += same!(rota, "whether a plan exists", known.first().is_some(), count > 0);
    let (item, slot) = (random.below(rota.n), random.below(rota.n));
    let mut others = rota.opens.clone();
    others.remove(item);
    let minor = rota.is_open(item, slot) && permanent::permanent(&others, low(rota.n) & !(1 << slot)) > 0;
    compared += same!(rota, "usable cell", matching::usable(rota)[item] >> slot & 1 == 1, minor);
    let held = matching::cell_plan(rota, (item, slot));
    compared += same!(rota, "whether a plan holds the cell", held.is_some(), minor);
    if let Some(plan) = held {
        let mut with_cell = rota.clone();
        with_cell.opens[item] = 1 << slot;
        assert!(matching::is_plan(&with_cell, &plan), "a complete plan that holds the cell of\n{rota}");
        compared += same!(rota, "plans before it that hold the cell", rank(&with_cell, &plan), 0);
    }
    if let (Some(first), Some(last)) = (known.first(), known.last()) {
        compared += same!(rota, "place of the first plan", rank(rota, &first), 0);
        compared += same!(rota, "place of the last plan", rank(rota, &last), count - 1);
        let plan = given::some_plan(&known, random);
        if let Some(next) = known.next(&plan) {
            compared += same!(rota, "place of the next plan", rank(rota, &next), rank(rota, &plan) + 1);
        }
    }
    compared
}

/// Rotas of up to 64 items: the two ways to the shortage, and plans that must not pass each other.
fn with_each_other(rota: &Tables, random: &mut Random) -> u64 {
    let known = Known::by(Method::Search, rota.clone());
    let mut compared = same!(rota, "shortage", matching::shortage(rota), matching::shortage_by_removal(rota));
    compared += same!(rota, "whether a plan exists", known.first().is_some(), assignment::fewest(rota).is_some());
    let Some(first) = known.first() else { return compared };
    let plans = [given::some_plan(&known, random), given::some_plan(&known, random)];
    let (number, cheapest) = known.fewest().expect("a plan");
    compared += same!(rota, "the fewest callouts' plan", matching::is_plan(rota, &cheapest), true);
    for plan in plans {
        let next = matching::next(rota, &plan);
        let passed = plans.iter().any(|other| *other > plan && next.is_none_or(|next| next > *other));
        compared += same!(rota, "the first plan is the least", first <= plan, true);
        compared += same!(rota, "the next plan comes after", next.is_none_or(|next| next > plan), true);
        compared += same!(rota, "no plan is passed over", passed, false);
        compared += same!(rota, "sheet", sheet::text(rota, &plan).into_bytes(), sheet_by_columns(rota, &plan));
        let callouts = rota.callouts_of(&plan);
        compared +=
            same!(rota, "the fewest callouts", callouts > number || callouts == number && cheapest <= plan, true);
        let held = (0..rota.n).all(|item| known.usable()[item] >> plan[item] & 1 == 1);
        compared += same!(rota, "a plan's cells are usable", held, true);
        let item = random.below(rota.n);
        let least = known.cell_plan((item, plan[item].into())).expect("the plan holds it");
        compared += same!(rota, "the first plan of a cell is one", matching::is_plan(rota, &least), true);
        compared += same!(rota, "the first plan of a cell holds it", least[item], plan[item]);
        compared += same!(rota, "the first plan of a cell is the least", first <= least && least <= plan, true);
    }
    compared
}

/// The rows that document 01 works out, from both kinds of method.
fn worked_rows() -> u64 {
    let mut compared = 0;
    for method in [Method::Definitions, Method::Search] {
        let by = |tables: Tables| Known::by(method, tables);
        let t = by(Tables::new(3, &[3, 7, 6], &[1, 0, 4]));
        let plans = [[0, 1, 2], [0, 2, 1], [1, 0, 2]].map(|slots| plan_of(&slots));
        compared += same!(t.tables, "first", t.first(), Some(plans[0]));
        compared += same!(t.tables, "next", (t.next(&plans[0]), t.next(&plans[1])), (Some(plans[1]), Some(plans[2])));
        compared += same!(t.tables, "next", t.next(&plans[2]), None);
        let cells = [(0, 0), (1, 1), (2, 1), (1, 0), (0, 2), (3, 0), (0, usize::MAX)].map(|cell| t.cell_plan(cell));
        let held = [0, 0, 1, 2].map(|place| Some(plans[place]));
        compared += same!(t.tables, "cells", (&cells[..4], &cells[4..]), (&held[..], &[None; 3][..]));
        compared += same!(t.tables, "count", t.count(), 3);
        compared += same!(t.tables, "fewest", t.fewest(), Some((1, plans[1])));
        let priced = Input { vehicles: 100, tally_words: 8, ..Input::new(Call::MonthlyPrice, &t) };
        compared += same!(t.tables, "grade", priced.grade_answer(0).grade, 3);
        compared += same!(t.tables, "price", priced.price_answer(priced.refusal()).cents, 33_000);
        let capped = Input { cap: 0, ..Input::new(Call::FewestCallouts, &t) };
        compared += same!(t.tables, "cap 0", (capped.refusal(), capped.plan_answer(11).callouts), (11, 1));
        let lines = ["IT    SL    C", " 0     0    C", " 1     1     ", " 2     2    C"];
        let expected: String = lines.iter().map(|line| format!("{line}{}\n", " ".repeat(18))).collect();
        compared += same!(t.tables, "sheet", sheet::text(&t.tables, &plans[0]), expected);
        let printed = |given: Plan, room: usize| Input { given, room: [room, 0], ..Input::new(Call::PlanSheet, &t) };
        let codes = [printed(plans[2], 128), printed(plans[2], 127), printed(BLANK, 128), printed(BLANK, 127)];
        compared += same!(t.tables, "sheet's refusals", codes.map(|input| input.refusal()), [0, 15, 8, 15]);
        let two = by(Tables::open(&[7, 6, 6]));
        compared += same!(two.tables, "plans", (two.first(), two.last()), (Some(plans[0]), Some(plans[1])));
        compared += same!(two.tables, "usable", two.usable(), [1, 6, 6]);
        compared += same!(two.tables, "cells", (two.cell_plan((0, 1)), two.cell_plan((1, 2))), (None, Some(plans[1])));
        let priced = Input { vehicles: 100, tally_words: 8, ..Input::new(Call::MonthlyPrice, &two) };
        compared += same!(two.tables, "grade", priced.grade_answer(0).grade, 2);
        compared += same!(two.tables, "price", priced.price_answer(priced.refusal()).cents, 35_000);
        let four = by(Tables::open(&[1, 1, 2, 14]));
        compared += same!(four.tables, "shortage", (four.first(), four.shortage()), (None, (3, 1)));
        let none = by(Tables::open(&[0, 3]));
        compared += same!(none.tables, "shortage", (none.first(), none.shortage()), (None, (1, 1)));
        let cell = Input { cell: (1, 0), ..Input::new(Call::CellPlan, &none) };
        compared += same!(none.tables, "no refusal", (cell.refusal(), cell.plan_answer(0).plan.slots), (0, BLANK));
        let one = by(Tables::open(&[1]));
        compared += same!(
            one.tables,
            "count and grade",
            (one.count(), Input::new(Call::Grade, &one).grade_answer(0).grade),
            (1, 1)
        );
        let shut = by(Tables::open(&[0]));
        compared += same!(shut.tables, "nothing", (shut.usable(), shut.count(), shut.first()), (&[0][..], 0, None));
        let file = rota_file::bytes_of(&t.tables);
        compared += same!(t.tables, "check", (file.len(), file[510], file[511]), (512, 82, 1));
    }
    let all = Known::new(Tables::open(&[u64::MAX; 64]));
    let slots: Vec<usize> = (0..64).collect();
    compared += same!(
        all.tables,
        "first",
        (Input::new(Call::FirstPlan, &all).refusal(), all.first()),
        (0, Some(plan_of(&slots)))
    );
    let full = Tables::open(&[low(20); 20]);
    compared += same!(full, "20!", permanent::permanent(&full.opens, low(20)), 2_432_902_008_176_640_000);
    compared
}
