//! What a page tells: two plans, of one rota or of two with as many items, print the same page exactly if they agree in the slots
//! and in the marks. The pages are compared with each other alone.

use crate::inputs::families::{self, Callouts, Family};
use crate::inputs::given;
use crate::random::Random;
use crate::reference::answers::{Call, Input};
use crate::reference::sheet::bytes_for;
use crate::reference::{Known, Method};
use crate::rota::Plan;
use crate::session::{agree, Outcome, Session};
use crate::wrappers::LentTables;
use std::collections::BTreeMap;

/// How many random rotas of 4 and 5 items.
const RANDOM: [(usize, usize); 2] = [(4, 300), (5, 60)];

const LARGER: [usize; 6] = [9, 10, 11, 20, 63, 64];

/// How often two slots are exchanged in plans of larger rotas.
const EXCHANGES: usize = 100;

pub fn run(session: &mut Session, random: &mut Random) -> Outcome {
    for n in 1..=3 {
        let mut printed = Printed::default();
        for number in 0..3usize.pow((n * n) as u32) {
            every_plan(session, &Known::new(families::numbered(n, number)), &mut printed)?;
        }
        let plans: usize = (1..=n).product();
        assert_eq!(printed.pages.len(), plans << n, "every plan of {n} items with every set of marks");
    }
    for (n, rotas) in RANDOM {
        let mut printed = Printed::default();
        for _ in 0..rotas {
            let known = Known::by(Method::Definitions, families::any(n, random));
            every_plan(session, &known, &mut printed)?;
        }
    }
    LARGER.into_iter().try_for_each(|n| larger(session, n, random))
}

/// Each item's slot, and whether this cell is a callout.
type Shown = Vec<(u8, bool)>;

/// The pages of rotas with as many items, both ways round.
#[derive(Default)]
struct Printed {
    pages: BTreeMap<Shown, Vec<u8>>,
    shown: BTreeMap<Vec<u8>, Shown>,
}

fn print(session: &mut Session, known: &Known, given: Plan, printed: &mut Printed) -> Outcome {
    let bytes = bytes_for(known.n());
    let input = Input { given, room: [bytes, 0], ..Input::new(Call::PlanSheet, known) };
    session.case(input.call);
    session.making(&input);
    let mut tables = LentTables::new(&known.tables, &mut session.random);
    let mut page = session.page(bytes);
    session.calls.sheet(&mut tables, &given, &mut page);
    let mark = |item: usize| known.tables.is_callout(item, given[item].into());
    let shown: Shown = (0..known.n()).map(|item| (given[item], mark(item))).collect();
    let page = page.contents().to_vec();
    let before = printed.pages.entry(shown.clone()).or_insert_with(|| page.clone());
    let two_pages = (*before != page).then(|| "another page was printed for the same slots and marks".to_string());
    let before = printed.shown.entry(page).or_insert_with(|| shown.clone());
    let one_page = (*before != shown).then(|| format!("the same page was printed for {before:?}"));
    agree(&input, [two_pages, one_page])
}

fn every_plan(session: &mut Session, known: &Known, printed: &mut Printed) -> Outcome {
    given::every_plan(known).try_for_each(|plan| print(session, known, plan, printed))
}

/// A plan with each of its cells as a callout or not, with other callouts outside it, and with two slots exchanged.
fn larger(session: &mut Session, n: usize, random: &mut Random) -> Outcome {
    let mut printed = Printed::default();
    let mut tables = families::rota(Family::Full, Callouts::Some, n, random);
    let mut plan = given::some_plan(&Known::new(tables.clone()), random);
    for item in 0..n {
        tables.callouts[item] ^= 1 << plan[item];
        print(session, &Known::new(tables.clone()), plan, &mut printed)?;
        tables.callouts[item] ^= 1 << plan[(item + 1) % n];
        print(session, &Known::new(tables.clone()), plan, &mut printed)?;
    }
    let known = Known::new(tables);
    for _ in 0..EXCHANGES {
        plan.swap(random.below(n), random.below(n));
        print(session, &known, plan, &mut printed)?;
    }
    Ok(())
}
