//! The first plan that holds a cell: open cells beside the first plan, and cells that are not open.

use crate::families::{families, hidden, Family, Rota};
use crate::random::Random;
use crate::report::{heading, table, Report};
use crate::side::{agree, Side};
use crate::timing::{mean, times, Times};
use crate::HIDDEN;
use std::hint::black_box;

const N: usize = 64;

/// So many open cells of a rota are timed at most, evenly spread. A prime, so that they are of all slots.
const MOST: usize = 131;

/// An item and a slot.
type Cell = (usize, usize);

pub fn cells(report: &mut Report) {
    open_cells(report);
    other_cells(report);
}

/// The cells of a rota that are open, or those that are not.
fn cells_of(r: &Rota, open: bool) -> Vec<Cell> {
    let all = (0..N).flat_map(|i| (0..N).map(move |j| (i, j)));
    all.filter(|&(i, j)| (r.opens[i] >> j & 1 == 1) == open).collect()
}

/// Cells whose item or slot the rota does not have.
fn outside() -> Vec<Cell> {
    let far = [N, N + 1, 255, 256, usize::MAX];
    let one = (0..N).flat_map(|k| far.into_iter().flat_map(move |f| [(k, f), (f, k)]));
    let both = far.into_iter().flat_map(|i| far.map(|j| (i, j)));
    one.chain(both).collect()
}

fn call(side: &Side, r: &Rota, (i, j): Cell) {
    black_box((side.cell_plan)(black_box(N), &r.opens, &r.callouts, i, j));
}

/// How many of these cells a plan holds. Ends the program if the two sides differ on one.
fn held(what: &str, r: &Rota, cells: &[Cell]) -> usize {
    let plan = |&&(i, j): &&Cell| agree(what, |s| (s.cell_plan)(N, &r.opens, &r.callouts, i, j)).plan.slots[0] != 255;
    cells.iter().filter(plan).count()
}

/// The share of open cells that a plan holds. Ends the program if the two sides differ on a cell of these rotas or outside.
fn compare(name: &str, rotas: &[Rota], open: &[Vec<Cell>]) -> f64 {
    let (mut usable, mut all) = (0, 0);
    for (r, open) in rotas.iter().zip(open) {
        usable += held(name, r, open);
        all += open.len();
        let others = held(name, r, &cells_of(r, false)) + held(name, r, &outside());
        assert!(others == 0, "{name}: a plan holds a cell that is not open");
    }
    usable as f64 / all as f64
}

/// A pass makes one call of each rota, as that of the first plan does, so that both are equally warm. Each pass has other cells; the
/// mean over all passes.
fn time_cells(rounds: u32, rotas: &[Rota], open: &[Vec<Cell>]) -> Times {
    let passes = open.iter().map(Vec::len).max().expect("a family has a rota").min(MOST);
    let time = |pass: usize| {
        let cells: Vec<Cell> = open.iter().map(|open| open[pass * open.len() / passes]).collect();
        times(rounds / passes as u32, rotas.len(), |s| rotas.iter().zip(&cells).for_each(|(r, cell)| call(s, r, *cell)))
    };
    mean((0..passes).map(time))
}

fn open_cells(report: &mut Report) {
    table(
        &format!("A cell's plan, n = {N}"),
        "family",
        &["usable cells", "first", "cell", "Rust", "ratio", "cell / first"],
    );
    for Family { name, rotas } in families(N) {
        let open: Vec<Vec<Cell>> = rotas.iter().map(|r| cells_of(r, true)).collect();
        let usable = compare(name, &rotas, &open);
        print!("| {name} | {:.0} % |", 100.0 * usable);
        let first = times(report.rounds, rotas.len(), |s| {
            for r in &rotas {
                black_box((s.first_plan)(black_box(N), &r.opens, &r.callouts));
            }
        });
        let cell = time_cells(report.rounds, &rotas, &open);
        report.beside_first(name, cell, first);
        println!();
    }
}

fn other_cells(report: &mut Report) {
    heading(&format!("A cell that is not open, n = {N}, {HIDDEN}"), "cell", &["library"]);
    let r = hidden(N, 6, &mut Random::new(1));
    for (name, cells) in [("closed cell", cells_of(&r, false)), ("cell outside", outside())] {
        held(name, &r, &cells);
        print!("| {name} |");
        let t = times(report.rounds, cells.len(), |s| cells.iter().for_each(|&cell| call(s, &r, cell)));
        report.cell(name, N, HIDDEN, t);
        println!();
    }
}
