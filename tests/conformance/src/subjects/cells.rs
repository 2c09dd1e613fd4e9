//! Plans of cells: every cell of small rotas, and cells beside them; all cells of rotas of 64 items, by search and by the usable
//! table.

use crate::inputs::families::{self, Callouts, Family, CALLOUTS, FAMILIES};
use crate::lent::Lent;
use crate::random::Random;
use crate::reference::answers::{Call, Input};
use crate::reference::{Known, Method};
use crate::rota::{has, low, plan_text, Cell, Tables, BLANK};
use crate::session::{agree, Outcome, Session};
use crate::wrappers::LentTables;

/// How many random rotas of 5, 6 and 7 items.
const RANDOM: [(usize, usize); 3] = [(5, 200), (6, 150), (7, 40)];

/// Numbers that no item or slot has; some are once cut to 8, 16 or 32 bits, or modulo 64.
const BEYOND: [usize; 6] = [64, 1 << 8, 1 << 16, 1 << 32, 1 << 63, usize::MAX];

/// Of these every cell is searched.
const SEARCHED: [Family; 6] = [
    Family::Eighth,
    Family::Half,
    Family::ScrambledBlockTriangular,
    Family::FewPlans,
    Family::Cycle,
    Family::Hessenberg,
];

pub fn run(session: &mut Session, random: &mut Random) -> Outcome {
    for n in 1..=3 {
        every_table(session, n, random)?;
    }
    for (n, rotas) in RANDOM {
        for _ in 0..rotas {
            let known = Known::by(Method::Definitions, families::any(n, random));
            session.cell_plans(&known, and_beside(n))?;
        }
    }
    for n in 8..=64 {
        let known = Known::new(families::any(n, random));
        session.cell_plans(&known, row_and_column(n, random))?;
    }
    for family in FAMILIES {
        let known = Known::new(families::rota(family, random.pick(&CALLOUTS), 64, random));
        with_usable_table(session, &known)?;
        session.cell_plans(&known, row_and_column(64, random))?;
    }
    for family in SEARCHED {
        let known = Known::new(families::rota(family, Callouts::Some, 64, random));
        session.cell_plans(&known, pairs(0..64))?;
    }
    every_table(session, 4, random)
}

/// Every item of these numbers with every slot of them.
fn pairs(numbers: impl Iterator<Item = usize> + Clone) -> Vec<Cell> {
    numbers.clone().flat_map(|item| numbers.clone().map(move |slot| (item, slot))).collect()
}

/// Every cell of so many items, and those with a number that is none of theirs.
fn and_beside(n: usize) -> Vec<Cell> {
    pairs((0..n + 2).chain([63]).chain(BEYOND))
}

fn row_and_column(n: usize, random: &mut Random) -> Vec<Cell> {
    let (item, slot) = (random.below(n), random.below(n));
    (0..n).map(|slot| (item, slot)).chain((0..n).map(|item| (item, slot))).collect()
}

/// Every open table of so many items, with some of the cells as callouts.
fn every_table(session: &mut Session, n: usize, random: &mut Random) -> Outcome {
    let cells = if n < 4 { and_beside(n) } else { pairs(0..n) };
    for number in 0..1u64 << (n * n) {
        let opens: Vec<u64> = (0..n).map(|item| number >> (item * n) & low(n)).collect();
        let callouts: Vec<u64> = opens.iter().map(|open| open & random.word()).collect();
        session.cell_plans(&Known::new(Tables { n, opens, callouts }), cells.iter().copied())?;
    }
    Ok(())
}

/// The library's two calls agree: a cell has a plan, which holds it, exactly if the usable table has the cell.
fn with_usable_table(session: &mut Session, known: &Known) -> Outcome {
    let n = known.n();
    session.usable_slots(known, n)?;
    let mut tables = LentTables::new(&known.tables, &mut session.random);
    let mut usable = Lent::junk("usable table", n, &mut session.random);
    session.calls.usable(&mut tables, &mut usable);
    for cell in pairs(0..n) {
        let input = Input { cell, ..Input::new(Call::CellPlan, known) };
        session.case(input.call);
        session.making(&input);
        let got = session.calls.cell(&mut tables, cell);
        let plan = got.plan.slots;
        let bit = has(usable.contents()[cell.0], cell.1);
        let fits = match bit {
            true => known.is_plan(&plan) && usize::from(plan[cell.0]) == cell.1,
            false => plan == BLANK,
        };
        let zeros = (got.code, got.shortage, got.items, got.callouts) == (0, 0, 0, 0);
        let differs = !fits || !zeros;
        let found = differs.then(|| format!("usable: {bit}, zeros: {zeros}, the plan is {}", plan_text(&plan)));
        agree(&input, [found, tables.changed()])?;
    }
    Ok(())
}
