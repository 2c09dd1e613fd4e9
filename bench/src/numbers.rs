//! The calls for plan numbers, beside the count with a tally and the count without one, which they are made of; how their times grow;
//! and the walk through the tally alone.

use crate::families::{untallied, Family, Rota};
use crate::random::Random;
use crate::records::Plan;
use crate::report::{digits, table, Report};
use crate::same::rank;
use crate::side::{agree, LIBRARY};
use crate::timing::{once, time, times, Times};
use crate::untallied::{both_counts, GROWING};
use std::hint::black_box;

/// How many times as long as the two counts together.
const BESIDE: &str = "/ both counts";

/// So many plans of a rota are walked to.
const WALKS: usize = 1000;

/// So often a tally is filled anew for a walk.
const FILLS: usize = 41;

/// A plan and its number.
type Numbered = (u64, Plan);

/// A call, what it is about, and how it is timed.
type Call = (&'static str, &'static str, fn(u32, usize, &Rota, Numbered) -> Times);

const CALLS: [Call; 2] =
    [("plan at", "Growth of a plan by its number", plan_at), ("plan number", "Growth of a plan's number", plan_number)];

fn plan_at(rounds: u32, n: usize, Rota { opens, callouts }: &Rota, (k, _): Numbered) -> Times {
    let mut tally = vec![0; 1 << n];
    times(rounds, 1, |s| {
        black_box((s.plan_at)(black_box(n), opens, callouts, k, black_box(&mut tally)));
    })
}

fn plan_number(rounds: u32, n: usize, Rota { opens, callouts }: &Rota, (_, plan): Numbered) -> Times {
    let mut tally = vec![0; 1 << n];
    times(rounds, 1, |s| {
        black_box((s.plan_number)(black_box(n), opens, callouts, plan, black_box(&mut tally)));
    })
}

/// The plan in the middle of the list, or none. Ends the program if the two sides differ in an answer or in a word of the tally, or if
/// one call does not undo the other.
fn compare(n: usize, name: &str, Rota { opens, callouts }: &Rota) -> Option<Numbered> {
    let lent = || vec![u64::MAX; (1 << n) + 1];
    let at = |k: u64| {
        agree(name, |s| {
            let mut tally = lent();
            ((s.plan_at)(n, opens, callouts, k, &mut tally), tally)
        })
    };
    let number_of = |plan: Plan| {
        agree(name, |s| {
            let mut tally = lent();
            ((s.plan_number)(n, opens, callouts, plan, &mut tally), tally)
        })
    };
    let count = agree(name, |s| (s.count_plans_untallied)(n, opens, callouts)).count;
    for k in [count, u64::MAX] {
        let (refused, tally) = at(k);
        assert!(refused.code == 16 && tally == lent(), "{name}: plan {k} of {count} is not refused");
        let (refused, tally) = number_of(refused.plan);
        assert!(refused.code == 8 && tally == lent(), "{name}: the blank plan has a number");
    }
    if count == 0 {
        return None;
    }
    for k in [0, count / 2, count - 1] {
        let (found, tally) = at(k);
        let (back, same) = number_of(found.plan);
        assert!((found.code, back.code, back.number) == (0, 0, k), "{name}: plan {k} has another number");
        assert!(tally == same && tally[1 << n] == u64::MAX, "{name}: the two calls leave other tallies");
    }
    Some((count / 2, at(count / 2).0.plan))
}

/// Those of the families that are chosen and have a plan: the rota that is timed, and the plan in the middle of its list.
fn planned(n: usize, chosen: impl Fn(&str) -> bool) -> impl Iterator<Item = (&'static str, Rota, Numbered)> {
    let families = untallied(n).into_iter().filter(move |family| chosen(family.name));
    families.filter_map(move |Family { name, mut rotas }| {
        let rota = rotas.swap_remove(0);
        let middle = compare(n, name, &rota)?;
        Some((name, rota, middle))
    })
}

/// The time of the two counts together.
fn counts(rounds: u32, n: usize, name: &str, rota: &Rota) -> f64 {
    let (counted, tallied) = both_counts(rounds, n, name, rota);
    counted.library + tallied.library
}

pub fn numbers(report: &mut Report, n: usize) {
    let columns = ["both counts", "plan at", "Rust", "ratio", BESIDE, "plan number", "Rust", "ratio", BESIDE];
    table(&format!("Plan numbers, n = {n}"), "family", &columns);
    for (name, rota, middle) in planned(n, |_| true) {
        let both = counts(report.rounds, n, name, &rota);
        print!("| {name} | {} |", digits(both));
        for (call, _, timed) in CALLS {
            let t = timed(report.rounds, n, &rota, middle);
            report.beside_counts(call, n, name, t, both);
        }
        println!();
    }
}

/// The walk to a plan and the walk to a number, in Rust, through a tally that the library has filled: many plans of a rota, at random.
/// Then the walk to one plan, each time right after the tally was filled, so that few of the words that it reads are in the cache.
pub fn walks(report: &mut Report, n: usize) {
    let columns = ["to a plan", "to a number", "after a fill: to the middle plan", "to the last"];
    table(&format!("The walk through a filled tally, in Rust, n = {n}"), "family", &columns);
    for (name, Rota { opens, callouts }, _) in planned(n, |_| true) {
        let mut tally = vec![0; 1 << n];
        let filled = (LIBRARY.plan_at)(n, &opens, &callouts, 0, &mut tally);
        assert!(filled.code == 0, "{name}: no plan");
        let (count, mut random) = (tally[(1 << n) - 1], Random::new(1));
        let walk = |_| {
            let k = random.word() % count;
            (k, rank::unrank(&opens, &tally, k))
        };
        let plans: Vec<(u64, [u8; 64])> = (0..WALKS).map(walk).collect();
        for &(k, plan) in &plans {
            assert!(rank::rank(&opens, &tally, plan) == k, "{name}: plan {k} has another number");
        }
        let there = time(report.rounds, WALKS, || {
            for &(k, _) in &plans {
                black_box(rank::unrank(black_box(&opens), &tally, k));
            }
        });
        let back = time(report.rounds, WALKS, || {
            for &(_, plan) in &plans {
                black_box(rank::rank(black_box(&opens), &tally, plan));
            }
        });
        print!("| {name} |");
        report.walk("walk to a plan", n, name, there);
        report.walk("walk to a number", n, name, back);
        let mut after_a_fill = |k: u64| {
            let mut walks = [(); FILLS].map(|()| {
                (LIBRARY.plan_at)(n, &opens, &callouts, 0, &mut tally);
                once(|| {
                    black_box(rank::unrank(black_box(&opens), &tally, k));
                })
            });
            walks.sort_by(f64::total_cmp);
            walks[FILLS / 2]
        };
        println!(" {} | {} |", digits(after_a_fill(count / 2)), digits(after_a_fill(count - 1)));
    }
}

pub fn growth(report: &mut Report) {
    for (call, title, timed) in CALLS {
        let columns: Vec<&str> = GROWING.iter().flat_map(|&name| [name, "Rust", "ratio", BESIDE]).collect();
        table(title, "n", &columns);
        for n in [8, 12, 16, 20] {
            print!("| {n} |");
            for (name, rota, middle) in planned(n, |name| GROWING.contains(&name)) {
                let both = counts(report.rounds, n, name, &rota);
                let t = timed(report.rounds, n, &rota, middle);
                report.beside_counts(call, n, name, t, both);
            }
            println!();
        }
    }
}
