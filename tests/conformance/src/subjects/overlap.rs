//! Grade and price where rules 2 and 3 both fit, 1,000 plans or more and a brittle item: grade 2. Beside them where rule 2 fits alone.

use super::brittle::{each_call, of_kind, PLACES};
use super::prices::graded;
use crate::inputs::brittle::{self, full, lengthened, Block, Kind, BRITTLE, KINDS, SEVEN, SIXTEEN};
use crate::inputs::families::with_count;
use crate::random::Random;
use crate::reference::answers::GREATEST_COUNTED;
use crate::reference::{matching, pricing, Known};
use crate::rota::Tables;
use crate::session::{Outcome, Session};

/// The fewest items that can have so many plans beside a brittle one, and the fewest that 5 refuses.
const FEWEST: usize = 8;
const REFUSED: usize = GREATEST_COUNTED + 1;

/// How many plans; None if every cell of a block is open.
const PLANS: [Option<u64>; 3] = [None, Some(1_000), Some(1_001)];

type Place = fn(usize) -> usize;

/// Eight items and nine, then the same beside refusals.
pub fn run(session: &mut Session, random: &mut Random) -> Outcome {
    for kind in KINDS {
        for blocks in few_items(kind, random) {
            for place in PLACES {
                let known = made(kind, &blocks, place, random);
                graded(session, &known.tables.opens, random)?;
            }
        }
    }
    for kind in BRITTLE {
        short_tally(session, kind, random)?;
        no_plan(session, kind, random)?;
        beyond_twenty(session, kind, random)?;
    }
    // A long tally changes nothing.
    let known = joined(Kind::SeveralOpen, &many_items_in(Kind::SeveralOpen, REFUSED, None, random), PLACES[2], random);
    session.grade(&known, 1 << REFUSED)?;
    session.monthly_price(&known, 1, 1 << REFUSED)
}

/// Seven items with few plans above 999, and with the most; in two blocks eight items can have 1,440.
fn few_items(kind: Kind, random: &mut Random) -> Vec<Vec<Block>> {
    if kind.blocks() == 2 {
        return vec![vec![full(2), full(6)], vec![full(6), full(2)]];
    }
    let items = if BRITTLE.contains(&kind) { FEWEST - 1 } else { FEWEST };
    let seven = SEVEN.map(|(count, opens)| (count, opens.to_vec())).into_iter().chain([full(7)]);
    seven.map(|(count, opens)| vec![(count, lengthened(opens, items, random))]).collect()
}

/// Blocks for a rota of so many items, from 17 on.
fn many_items_in(kind: Kind, n: usize, plans: Option<u64>, random: &mut Random) -> Vec<Block> {
    let items = n - kind.items().0;
    match (plans, kind.blocks()) {
        (None, 1) => vec![full(items)],
        (None, _) => vec![full(items / 2), full(items - items / 2)],
        (Some(count), 1) => vec![(count, lengthened(with_count(count, random), items, random))],
        (Some(count), _) => {
            let factor = random.pick(&brittle::factors(count));
            let (one, other) = (with_count(factor, random), with_count(count / factor, random));
            let one = lengthened(one, items - other.len(), random);
            vec![(factor, one), (count / factor, other)]
        }
    }
}

/// A rota of this kind, with some of the cells as callouts, the brittle item at this place.
fn joined(kind: Kind, blocks: &[Block], place: Place, random: &mut Random) -> Known {
    let words = blocks.iter().map(|(_, opens)| opens.clone()).collect();
    let opens = brittle::placed(brittle::of_blocks(kind, words, random), place);
    let callouts: Vec<u64> = opens.iter().map(|open| open & random.word()).collect();
    Known::new(Tables::new(opens.len(), &opens, &callouts))
}

/// The same; it is what it should be, by the reference.
fn made(kind: Kind, blocks: &[Block], place: Place, random: &mut Random) -> Known {
    let known = joined(kind, blocks, place, random);
    let count = blocks.iter().map(|(count, _)| count).product();
    assert!(count >= 1_000, "{count} plans");
    of_kind(kind, count, place(known.n()), &known);
    let grade = if BRITTLE.contains(&kind) { 2 } else { 5 };
    assert_eq!(pricing::grade(known.usable(), count), grade, "{kind:?}, grade of\n{}", known.tables);
    known
}

/// Seventeen to twenty items. With a brittle item every number of plans at every place; the kinds take turns.
pub fn many_items(session: &mut Session, random: &mut Random) -> Outcome {
    let sixteen = [Kind::SeveralOpen, Kind::TwoBrittle, Kind::OneOpen, Kind::OneOpenShared];
    for (kind, n) in sixteen.into_iter().zip(17..) {
        let (count, opens) = SIXTEEN;
        let block = (count, lengthened(opens.to_vec(), n - kind.items().0, random));
        some_fleet(session, &made(kind, &[block], PLACES[n % 3], random), random)?;
    }
    let mut kinds = BRITTLE.into_iter().cycle();
    for place in PLACES {
        for plans in PLANS {
            for (n, kind) in (17..=GREATEST_COUNTED).zip(&mut kinds) {
                let blocks = many_items_in(kind, n, plans, random);
                some_fleet(session, &made(kind, &blocks, place, random), random)?;
            }
        }
    }
    for n in 17..=GREATEST_COUNTED {
        for (turn, kind) in [Kind::AllUsable, Kind::SpareCells].into_iter().enumerate() {
            let blocks = many_items_in(kind, n, PLANS[(n + turn) % 3], random);
            some_fleet(session, &made(kind, &blocks, PLACES[0], random), random)?;
        }
    }
    Ok(())
}

fn some_fleet(session: &mut Session, known: &Known, random: &mut Random) -> Outcome {
    each_call(session, known, 1 + random.below(10_000) as u64)
}

/// 6, and before 7.
fn short_tally(session: &mut Session, kind: Kind, random: &mut Random) -> Outcome {
    let known = made(kind, &few_items(kind, random)[0], PLACES[0], random);
    let short = (1 << known.n()) - 1;
    session.grade(&known, short)?;
    [0, 1].into_iter().try_for_each(|vehicles| session.monthly_price(&known, vehicles, short))
}

/// 9, and 7 before it.
fn no_plan(session: &mut Session, kind: Kind, random: &mut Random) -> Outcome {
    for place in PLACES {
        let known = without_plan(&joined(kind, &few_items(kind, random)[0], place, random), place);
        [0, 1].into_iter().try_for_each(|vehicles| each_call(session, &known, vehicles))?;
    }
    let blocks = many_items_in(kind, GREATEST_COUNTED, Some(1_000), random);
    each_call(session, &without_plan(&joined(kind, &blocks, PLACES[2], random), PLACES[2]), 1)
}

/// The brittle item's slot is the only one of another item too.
fn without_plan(known: &Known, place: Place) -> Known {
    let mut tables = known.tables.clone();
    let brittle = place(tables.n);
    for item in [brittle, (brittle + 1) % tables.n] {
        tables.opens[item] = known.usable()[brittle];
        tables.callouts[item] &= tables.opens[item];
    }
    assert_eq!(matching::first(&tables), None, "no plan of\n{tables}");
    Known::new(tables)
}

/// 5, whatever the tally and the fleet, with plans and without one.
fn beyond_twenty(session: &mut Session, kind: Kind, random: &mut Random) -> Outcome {
    for plans in PLANS {
        let known = joined(kind, &many_items_in(kind, REFUSED, plans, random), PLACES[1], random);
        assert!(pricing::some_brittle(known.usable()), "a brittle item of\n{}", known.tables);
        let none = without_plan(&known, PLACES[1]);
        for known in [known, none] {
            session.grade(&known, 0)?;
            session.grade_untallied(&known)?;
            for vehicles in [0, 1] {
                session.monthly_price(&known, vehicles, 1 << 10)?;
                session.price_untallied(&known, vehicles)?;
            }
        }
    }
    Ok(())
}
