//! Times the library's calls beside the same algorithms in Rust, and prints tables. Answers are compared before anything is timed.

mod cells;
mod families;
mod library;
mod numbers;
mod random;
mod records;
mod report;
mod same;
mod side;
mod timing;
mod untallied;

use families::{counted, families, hardest, Family, Rota};
use records::{Lister, Plan, PlanAnswer};
use report::{heading, machine, Report};
use side::{agree, Side, LIBRARY};
use std::hint::black_box;
use timing::times;

pub const VEHICLES: u64 = 500;

/// The family of the tables that have one alone.
const HIDDEN: &str = "random 6 and a plan";

/// The bytes of the page, which is long enough for every sheet.
const PAGE: usize = 2080;

/// The first plan of each rota. Ends the program if the two sides differ on a rota that is timed, or on the plans that follow
/// and their sheets.
fn compare_plans(n: usize, Family { name, rotas }: &Family) -> Vec<PlanAnswer> {
    let compare = |r: &Rota| {
        let first = agree(name, |s| (s.first_plan)(n, &r.opens, &r.callouts));
        agree(name, |s| (s.next_plan)(n, &r.opens, &r.callouts, first.plan));
        agree(name, |s| (s.fewest_callouts)(n, &r.opens, &r.callouts, u32::MAX));
        agree(name, |s| {
            let mut usable = vec![0; n];
            ((s.usable_slots)(n, &r.opens, &r.callouts, &mut usable), usable)
        });
        let sheet = |s: &Side, plan: Plan| {
            let mut page = vec![255; PAGE];
            ((s.plan_sheet)(n, &r.opens, &r.callouts, plan, &mut page), page)
        };
        agree(name, |s| sheet(s, first.plan));
        // The walk goes on for a while, to compare more plans.
        let mut plan: Plan = first.plan;
        for _ in 0..100 {
            let next = agree(name, |s| (s.next_plan)(n, &r.opens, &r.callouts, plan));
            if next.code != 0 {
                break;
            }
            plan = next.plan;
            agree(name, |s| sheet(s, plan));
        }
        first
    };
    rotas.iter().map(compare).collect()
}

fn plans(report: &mut Report, n: usize, families: Vec<Family>) {
    heading(&format!("Plans, n = {n}"), "family", &["first", "next", "usable", "fewest", "sheet"]);
    for family in families {
        let first = compare_plans(n, &family);
        let Family { name, rotas } = family;
        let count = rotas.len();
        print!("| {name} |");
        let t = times(report.rounds, count, |s| {
            for r in &rotas {
                black_box((s.first_plan)(black_box(n), &r.opens, &r.callouts));
            }
        });
        report.cell("first", n, name, t);
        let planned = first.iter().all(|a| a.code == 0);
        if planned {
            let t = times(report.rounds, count, |s| {
                for (r, first) in rotas.iter().zip(&first) {
                    black_box((s.next_plan)(black_box(n), &r.opens, &r.callouts, first.plan));
                }
            });
            report.cell("next", n, name, t);
        } else {
            print!(" | | |");
        }
        let mut usable = vec![0; n];
        let t = times(report.rounds, count, |s| {
            for r in &rotas {
                black_box((s.usable_slots)(black_box(n), &r.opens, &r.callouts, black_box(&mut usable)));
            }
        });
        report.cell("usable", n, name, t);
        let t = times(report.rounds, count, |s| {
            for r in &rotas {
                black_box((s.fewest_callouts)(black_box(n), &r.opens, &r.callouts, u32::MAX));
            }
        });
        report.cell("fewest", n, name, t);
        if planned {
            let mut page = vec![0; PAGE];
            let t = times(report.rounds, count, |s| {
                for (r, first) in rotas.iter().zip(&first) {
                    black_box((s.plan_sheet)(black_box(n), &r.opens, &r.callouts, first.plan, black_box(&mut page)));
                }
            });
            report.cell("sheet", n, name, t);
        } else {
            print!(" | | |");
        }
        println!();
    }
}

fn counts(report: &mut Report, n: usize) {
    heading(&format!("Counting, n = {n}"), "family", &["count", "grade", "price"]);
    let mut tally = vec![0; 1 << n];
    for Family { name, rotas } in counted(n) {
        let r = &rotas[0];
        agree(name, |s| {
            let mut tally = vec![0; 1 << n];
            ((s.count_plans)(n, &r.opens, &r.callouts, &mut tally), tally)
        });
        agree(name, |s| (s.grade)(n, &r.opens, &r.callouts, &mut vec![0; 1 << n]));
        agree(name, |s| (s.monthly_price)(n, &r.opens, &r.callouts, VEHICLES, &mut vec![0; 1 << n]));
        print!("| {name} |");
        let t = times(report.rounds, 1, |s| {
            black_box((s.count_plans)(black_box(n), &r.opens, &r.callouts, black_box(&mut tally)));
        });
        report.cell("count", n, name, t);
        let t = times(report.rounds, 1, |s| {
            black_box((s.grade)(black_box(n), &r.opens, &r.callouts, black_box(&mut tally)));
        });
        report.cell("grade", n, name, t);
        let t = times(report.rounds, 1, |s| {
            black_box((s.monthly_price)(black_box(n), &r.opens, &r.callouts, VEHICLES, black_box(&mut tally)));
        });
        report.cell("price", n, name, t);
        println!();
    }
}

/// Grade and price of 5,040 plans and a brittle item are those of Rust; no timed family has both.
fn brittle_agrees() {
    let (n, r) = (8, families::brittle(8));
    agree("brittle", |s| (s.grade)(n, &r.opens, &r.callouts, &mut vec![0; 1 << n]));
    agree("brittle", |s| (s.monthly_price)(n, &r.opens, &r.callouts, VEHICLES, &mut vec![0; 1 << n]));
    agree("brittle", |s| (s.grade_untallied)(n, &r.opens, &r.callouts));
    agree("brittle", |s| (s.monthly_price_untallied)(n, &r.opens, &r.callouts, VEHICLES));
}

/// How the times grow with n.
fn growth(report: &mut Report) {
    growth_of_first(report);
    growth_of_fewest(report);
    growth_of_count(report);
    untallied::growth(report);
    numbers::growth(report);
}

fn growth_of_first(report: &mut Report) {
    heading("Growth of the first plan", "n", &["dense", "random 6 and a plan", "triangle up"]);
    for n in [8, 16, 32, 64] {
        print!("| {n} |");
        for Family { name, rotas } in counted(n) {
            for r in &rotas {
                agree(name, |s| (s.first_plan)(n, &r.opens, &r.callouts));
            }
            let t = times(report.rounds, rotas.len(), |s| {
                for r in &rotas {
                    black_box((s.first_plan)(black_box(n), &r.opens, &r.callouts));
                }
            });
            report.cell("first", n, name, t);
        }
        println!();
    }
}

fn growth_of_fewest(report: &mut Report) {
    let diagonal = "triangle up, callouts on the diagonal alone";
    heading("Growth of the fewest callouts where the search has n rounds", "n", &[diagonal]);
    for n in [8, 16, 32, 64] {
        let Rota { opens, callouts } = hardest(n);
        agree("hardest", |s| (s.fewest_callouts)(n, &opens, &callouts, u32::MAX));
        print!("| {n} |");
        let t = times(report.rounds, 1, |s| {
            black_box((s.fewest_callouts)(black_box(n), &opens, &callouts, u32::MAX));
        });
        report.cell("fewest", n, diagonal, t);
        println!();
    }
}

fn growth_of_count(report: &mut Report) {
    heading("Growth of the count", "n", &["dense", "random 6 and a plan", "triangle up"]);
    for n in [8, 12, 16, 20] {
        print!("| {n} |");
        let mut tally = vec![0; 1 << n];
        for Family { name, rotas } in counted(n) {
            let r = &rotas[0];
            agree(name, |s| (s.count_plans)(n, &r.opens, &r.callouts, &mut vec![0; 1 << n]));
            let t = times(report.rounds, 1, |s| {
                black_box((s.count_plans)(black_box(n), &r.opens, &r.callouts, black_box(&mut tally)));
            });
            report.cell("count", n, name, t);
        }
        println!();
    }
}

/// The lister from a fresh one and from the first plan, and the calls on files.
fn desk(report: &mut Report) {
    let columns = ["list, fresh", "list, started", "file first", "file next", "file fewest"];
    heading(&format!("The lister and the plan calls on files, {HIDDEN}"), "n", &columns);
    for n in [20, 64] {
        let Rota { opens, callouts } = families::hidden(n, 6, &mut random::Random::new(1));
        let mut file = vec![0; 1536];
        let bytes = (LIBRARY.write_file)(n, &opens, &callouts, &mut file).bytes as usize;
        let file = &file[..bytes];
        let fresh = Lister { started: false, plan: Plan { slots: [0; 64] } };
        let list = |s: &Side, mut lister: Lister| {
            let answer = (s.list_plan)(&mut lister, n, &opens, &callouts);
            (answer, lister)
        };
        let started = agree("list", |s| list(s, fresh)).1;
        agree("list", |s| list(s, started));
        let on_file =
            |call: fn(&Side, &[u8], &mut [u8]) -> u32, s: &Side, mut plan: Plan| (call(s, file, &mut plan.slots), plan);
        let calls: [(&str, fn(&Side, &[u8], &mut [u8]) -> u32); 3] = [
            ("file first", |s, file, plan| (s.file_first_plan)(file, plan)),
            ("file next", |s, file, plan| (s.file_next_plan)(file, plan)),
            ("file fewest", |s, file, plan| (s.file_fewest_callouts)(file, plan, u32::MAX)),
        ];
        print!("| {n} |");
        for (what, lister) in [("list, fresh", fresh), ("list, started", started)] {
            let t = times(report.rounds, 1, |s| {
                black_box(list(s, black_box(lister)));
            });
            report.cell(what, n, HIDDEN, t);
        }
        for (what, call) in calls {
            agree(what, |s| on_file(call, s, started.plan));
            let t = times(report.rounds, 1, |s| {
                black_box(on_file(call, s, black_box(started.plan)));
            });
            report.cell(what, n, HIDDEN, t);
        }
        println!();
    }
}

fn files(report: &mut Report) {
    heading(&format!("Files of {HIDDEN}"), "n", &["write", "read"]);
    for n in [20, 31, 62, 64] {
        let Rota { opens, callouts } = families::hidden(n, 6, &mut random::Random::new(1));
        let written = agree("write", |s| {
            let mut file = vec![0; 1536];
            ((s.write_file)(n, &opens, &callouts, &mut file), file)
        });
        let file = &written.1[..written.0.bytes as usize];
        let read = agree("read", |s| {
            let (mut o, mut c) = (vec![0; 64], vec![0; 64]);
            ((s.read_file)(file, &mut o, &mut c), o, c)
        });
        assert!(read.0.code == 0 && read.1[..n] == opens && read.2[..n] == callouts, "read: other tables");
        print!("| {n} |");
        let mut out = vec![0; 1536];
        let t = times(report.rounds, 1, |s| {
            black_box((s.write_file)(black_box(n), &opens, &callouts, black_box(&mut out)));
        });
        report.cell("write", n, HIDDEN, t);
        let (mut o, mut c) = (vec![0; 64], vec![0; 64]);
        let t = times(report.rounds, 1, |s| {
            black_box((s.read_file)(black_box(file), black_box(&mut o), black_box(&mut c)));
        });
        report.cell("read", n, HIDDEN, t);
        println!();
    }
}

/// Writes the rotas that the programs in C read: a line for each family with n, how many there are and the name, then a line for each
/// rota with its open words and its callout words.
fn write_rotas() {
    for n in [12, 16, 20, 64] {
        for Family { name, rotas } in families::lent(n) {
            println!("{n} {} {name}", rotas.len());
            for Rota { opens, callouts } in rotas {
                let words: Vec<String> = opens.iter().chain(&callouts).map(|word| format!("{word:x}")).collect();
                println!("{}", words.join(" "));
            }
        }
    }
}

fn main() {
    let argument = std::env::args().nth(1);
    if argument.as_deref() == Some("rotas") {
        return write_rotas();
    }
    let rounds = argument.map_or(1500, |text| text.parse().expect("the rounds are a number"));
    let mut report = Report::new(rounds);
    machine(rounds);
    plans(&mut report, 64, families(64));
    plans(&mut report, 20, counted(20));
    cells::cells(&mut report);
    brittle_agrees();
    counts(&mut report, 20);
    untallied::counts(&mut report, 20);
    numbers::numbers(&mut report, 20);
    numbers::walks(&mut report, 20);
    desk(&mut report);
    growth(&mut report);
    files(&mut report);
    report.limits();
}
