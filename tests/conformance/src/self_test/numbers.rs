//! Plan numbers and the last items' tally: the methods against each other, and against rows worked out by hand.

use super::methods::{rank, same};
use crate::inputs::{families, given};
use crate::random::Random;
use crate::reference::answers::{Call, Input};
use crate::reference::{definitions, layers, numbers, Known, Method};
use crate::rota::{low, plan_of, Plan, Tables, BLANK};

/// Compares and counts; a difference ends the program.
pub fn run() -> u64 {
    let mut random = Random::stream(1, "numbers");
    let mut compared = worked_rows();
    for n in 1..=3 {
        for number in 0..1u64 << (n * n) {
            let opens: Vec<u64> = (0..n).map(|item| number >> (item * n) & low(n)).collect();
            compared += small(&Tables::open(&opens));
        }
    }
    for turn in 0..1_200 {
        compared += small(&families::any(4 + turn % 4, &mut random));
    }
    for turn in 0..400 {
        compared += larger(&families::any(8 + turn % 5, &mut random), &mut random);
    }
    for n in 13..=20 {
        compared +=
            larger(&families::rota(families::Family::Half, families::Callouts::No, n, &mut random), &mut random);
    }
    compared
}

fn reversed(rota: &Tables) -> Tables {
    Tables::open(&rota.opens.iter().rev().copied().collect::<Vec<u64>>())
}

/// Up to seven items: every plan is looked at.
fn small(rota: &Tables) -> u64 {
    let plans = definitions::plans(rota);
    let ways = definitions::last_tally(rota);
    let mut compared = tallies(rota, &ways);
    for method in [Method::Definitions, Method::Search] {
        let known = Known::by(method, rota.clone());
        for (place, plan) in plans.iter().enumerate() {
            compared += same!(rota, "number", known.number(plan), place as u64);
            compared += same!(rota, "plan of a number", known.plan_at(place as u64), Some(*plan));
        }
        for beyond in [plans.len() as u64, plans.len() as u64 + 1, u64::MAX] {
            compared += same!(rota, "plan of a number beyond", known.plan_at(beyond), None);
        }
    }
    compared
}

/// The tally in two more ways, and as the first items' tally of the rota with its items in reverse order.
fn tallies(rota: &Tables, ways: &[u64]) -> u64 {
    let mut compared = same!(rota, "last items' tally", numbers::tally(rota), ways);
    compared += same!(rota, "last items' tally by Ryser's formula", numbers::tally_by_ryser(rota), ways);
    compared + same!(rota, "tally in reverse order", layers::tally(&reversed(rota)), ways)
}

/// Rotas of 8 items and more: some plans, by the minors of their cells.
fn larger(rota: &Tables, random: &mut Random) -> u64 {
    let known = Known::by(Method::Search, rota.clone());
    let mut compared = tallies(rota, known.last_tally());
    let count = known.count();
    compared += same!(rota, "count", known.last_tally()[low(rota.n) as usize], count);
    compared += same!(rota, "plan of a number beyond", known.plan_at(count), None);
    let (Some(first), Some(last)) = (known.first(), known.last()) else { return compared };
    let plan = given::some_plan(&known, random);
    for plan in [first, last, plan].into_iter().chain(known.next(&plan)) {
        let number = known.number(&plan);
        compared += same!(rota, "number by minors", number, rank(rota, &plan));
        compared += same!(rota, "plan of a number", known.plan_at(number), Some(plan));
    }
    compared + same!(rota, "numbers at the ends", (known.number(&first), known.number(&last)), (0, count - 1))
}

/// T, a rota without a plan, and 20 items with every cell open.
fn worked_rows() -> u64 {
    let mut compared = 0;
    for method in [Method::Definitions, Method::Search] {
        let t = Known::by(method, Tables::new(3, &[3, 7, 6], &[1, 0, 4]));
        let plans = [[0, 1, 2], [0, 2, 1], [1, 0, 2]].map(|slots| plan_of(&slots));
        compared += same!(t.tables, "plans", [0, 1, 2].map(|k| t.plan_at(k)), plans.map(Some));
        compared += same!(t.tables, "numbers", plans.map(|plan| t.number(&plan)), [0, 1, 2]);
        compared += same!(t.tables, "last items' tally", t.last_tally(), [1, 0, 1, 1, 1, 1, 2, 3]);
        let at = |k: u64, tally_words: usize| Input { k, tally_words, ..Input::new(Call::PlanAt, &t) };
        let codes = [at(2, 8), at(3, 8), at(u64::MAX, 9), at(2, 7), at(3, 7)].map(|input| input.refusal());
        compared += same!(t.tables, "refusals of a number", codes, [0, 16, 16, 6, 6]);
        let answer = at(3, 8).plan_answer(16);
        let numbers = (answer.code, answer.shortage, answer.items, answer.callouts, answer.plan.slots);
        compared += same!(t.tables, "answer with 16", numbers, (16, 0, 0, 0, BLANK));
        let of = |given: Plan, words: usize| Input { given, tally_words: words, ..Input::new(Call::PlanNumber, &t) };
        let codes = [of(plans[2], 8), of(BLANK, 8), of(plans[2], 7), of(BLANK, 7)].map(|input| input.refusal());
        compared += same!(t.tables, "refusals of a plan", codes, [0, 8, 6, 6]);
        compared += same!(t.tables, "number with 8", of(BLANK, 8).number_answer(8).number, 0);
        let none = Known::by(method, Tables::open(&[0, 3]));
        let at = Input { tally_words: 4, ..Input::new(Call::PlanAt, &none) };
        compared += same!(none.tables, "no plan", (at.refusal(), at.plan_answer(16).items), (16, 0));
        compared += same!(none.tables, "last items' tally", none.last_tally(), [1, 1, 1, 0]);
    }
    let full = Known::new(Tables::open(&[low(20); 20]));
    let plans = [(0..20).collect::<Vec<usize>>(), (0..20).rev().collect()].map(|slots| plan_of(&slots));
    compared += same!(full.tables, "numbers", plans.map(|plan| full.number(&plan)), [0, 2_432_902_008_176_639_999]);
    let far = Input { tally_words: 1 << 21, ..Input::new(Call::PlanAt, &Known::new(Tables::open(&[1; 21]))) }.refusal();
    compared + same!(full.tables, "21 items", far, 5)
}
