//! The calls without a tally: count, grade and price, and how the count grows, beside the count with a tally.

use crate::families::{untallied, Family, Rota};
use crate::report::{digits, table, Report};
use crate::side::agree;
use crate::timing::{times, Times};
use crate::VEHICLES;
use std::hint::black_box;

/// How many times as long as with a tally.
const BESIDE: &str = "untallied / tallied";

/// The families whose growth is shown.
pub const GROWING: [&str; 3] = ["dense", "4 slots an item", "triangle up"];

pub fn counts(report: &mut Report, n: usize) {
    let columns =
        ["count, tallied", "count", "Rust", "ratio", BESIDE, "grade", "Rust", "ratio", "price", "Rust", "ratio"];
    table(&format!("Counting without a tally, n = {n}"), "family", &columns);
    for Family { name, rotas } in untallied(n) {
        let Rota { opens, callouts } = &rotas[0];
        agree(name, |s| (s.grade_untallied)(n, opens, callouts));
        agree(name, |s| (s.monthly_price_untallied)(n, opens, callouts, VEHICLES));
        let (counted, tallied) = both_counts(report.rounds, n, name, &rotas[0]);
        print!("| {name} | {} |", digits(tallied.library));
        report.beside_tally(n, name, counted, tallied);
        let t = times(report.rounds, 1, |s| {
            black_box((s.grade_untallied)(black_box(n), opens, callouts));
        });
        report.cell("grade untallied", n, name, t);
        let t = times(report.rounds, 1, |s| {
            black_box((s.monthly_price_untallied)(black_box(n), opens, callouts, VEHICLES));
        });
        report.cell("price untallied", n, name, t);
        println!();
    }
}

/// The times of the count without a tally and with one. Ends the program if the two differ.
pub fn both_counts(rounds: u32, n: usize, name: &str, Rota { opens, callouts }: &Rota) -> (Times, Times) {
    let mut tally = vec![0; 1 << n];
    let with = agree(name, |s| (s.count_plans)(n, opens, callouts, &mut vec![0; 1 << n]));
    let without = agree(name, |s| (s.count_plans_untallied)(n, opens, callouts));
    assert!(with == without, "{name}: {with:?} with a tally, {without:?} without");
    let tallied = times(rounds, 1, |s| {
        black_box((s.count_plans)(black_box(n), opens, callouts, black_box(&mut tally)));
    });
    let counted = times(rounds, 1, |s| {
        black_box((s.count_plans_untallied)(black_box(n), opens, callouts));
    });
    (counted, tallied)
}

pub fn growth(report: &mut Report) {
    let columns: Vec<&str> = GROWING.iter().flat_map(|&name| [name, "Rust", "ratio", BESIDE]).collect();
    table("Growth of the count without a tally", "n", &columns);
    for n in [8, 12, 16, 20] {
        print!("| {n} |");
        for Family { name, rotas } in untallied(n).into_iter().filter(|family| GROWING.contains(&family.name)) {
            let (counted, tallied) = both_counts(report.rounds, n, name, &rotas[0]);
            report.beside_tally(n, name, counted, tallied);
        }
        println!();
    }
}
