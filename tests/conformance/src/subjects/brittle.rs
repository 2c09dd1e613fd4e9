//! Grade and price of rotas with a brittle item and without.

use super::battery;
use super::prices::{graded, COUNTS};
use crate::inputs::brittle::{self, Kind, KINDS};
use crate::random::Random;
use crate::reference::{pricing, Known};
use crate::rota::{has, Tables};
use crate::session::{Outcome, Session};

/// The counts that are neither 1 nor a prime.
const PRODUCTS: [u64; 10] = [22, 24, 25, 26, 998, 999, 1_000, 1_001, 1_002, 5_000];

/// Where the brittle item of n items stands.
pub const PLACES: [fn(usize) -> usize; 3] = [|_| 0, |n| n / 2, |n| n - 1];

/// Of grades 1 to 5: how many rotas each place makes whose open cells are all usable, and how many others. Of grade 2 there are 9 and
/// 33 with up to 999 plans, 4 and 16 with more.
const MADE: [[usize; 2]; 5] = [[1, 1], [9 + 4, 33 + 16], [4, 1], [5, 5], [4, 4]];

/// Items in cycles, and their grade: few plans for so many items, up to the greatest number that is graded.
const CYCLES: [(&[usize], u32); 8] = [
    (&[16, 1], 2),
    (&[17], 3),
    (&[9, 8], 3),
    (&[4, 4, 4, 3, 2], 4),
    (&[4, 4, 3, 3, 3, 1], 2),
    (&[20], 3),
    (&[4, 4, 4, 4, 4], 4),
    (&[19, 1], 2),
];

pub fn run(session: &mut Session, random: &mut Random) -> Outcome {
    brittle_items(session, random)?;
    many_items(session, random)?;
    every_table_of_four(session, random)
}

/// With each count, a rota of each kind that there is, its brittle item first, in the middle and last.
fn brittle_items(session: &mut Session, random: &mut Random) -> Outcome {
    let mut made = [[0; 2]; 5];
    for count in COUNTS {
        assert_eq!(brittle::factors(count).is_empty(), !PRODUCTS.contains(&count), "whether {count} is a product");
        for kind in KINDS.into_iter().filter(|kind| kind.exists(count)) {
            for place in PLACES {
                let opens = brittle::placed(brittle::rota(kind, count, random), place);
                let known = Known::new(Tables::open(&opens));
                of_kind(kind, count, place(opens.len()), &known);
                let grade = pricing::grade(known.usable(), count);
                made[grade as usize - 1][usize::from(kind.differs())] += 1;
                graded(session, &opens, random)?;
            }
        }
    }
    assert_eq!(made, MADE.map(|numbers| numbers.map(|number| number * PLACES.len())), "rotas of each grade");
    Ok(())
}

/// The rota is what it should be, by the reference.
pub fn of_kind(kind: Kind, count: u64, place: usize, known: &Known) {
    let (rota, n) = (&known.tables, known.n());
    let just_one = |words: &[u64]| (0..n).filter(|&item| words[item].count_ones() == 1).collect::<Vec<usize>>();
    let (brittle, one_open) = (just_one(known.usable()), just_one(&rota.opens));
    assert_eq!(known.count(), count, "plans of\n{rota}");
    assert_eq!(
        known.usable() != rota.opens,
        kind.differs(),
        "{kind:?}, whether a cell is open and not usable in\n{rota}"
    );
    if count == 1 {
        assert_eq!(brittle.len(), n, "every item is brittle in\n{rota}");
        return;
    }
    assert_eq!((brittle.len(), one_open.len()), kind.items(), "{kind:?}, items of\n{rota}");
    assert!(brittle.is_empty() || brittle.contains(&place), "{kind:?}, item {place} is brittle in\n{rota}");
    assert!(one_open.iter().all(|item| brittle.contains(item)), "{kind:?}, which items are brittle in\n{rota}");
    if kind == Kind::Between {
        let single = |slot: usize| rota.opens.iter().filter(|&&open| has(open, slot)).count() == 1;
        assert!(!(0..n).any(single), "no slot with one item in\n{rota}");
    }
}

/// Seventeen items and more with few plans, the brittle item last.
fn many_items(session: &mut Session, random: &mut Random) -> Outcome {
    for (sizes, grade) in CYCLES {
        let n: usize = sizes.iter().sum();
        let opens = brittle::placed(brittle::cycles(sizes, random), |n| n - 1);
        let callouts: Vec<u64> = opens.iter().map(|open| open & random.word()).collect();
        let known = Known::new(Tables::new(n, &opens, &callouts));
        assert_eq!(pricing::grade(known.usable(), known.count()), grade, "cycles of {sizes:?}");
        each_call(session, &known, 1 + random.below(10_000) as u64)?;
    }
    Ok(())
}

/// Grade and price, with a tally of 2 to the power n words and without one.
pub fn each_call(session: &mut Session, known: &Known, vehicles: u64) -> Outcome {
    session.grade(known, 1 << known.n())?;
    session.monthly_price(known, vehicles, 1 << known.n())?;
    session.grade_untallied(known)?;
    session.price_untallied(known, vehicles)
}

/// All 65,536 open tables of four items, with some of the cells as callouts.
fn every_table_of_four(session: &mut Session, random: &mut Random) -> Outcome {
    for number in 0..1u64 << 16 {
        let opens = [0, 4, 8, 12].map(|from| number >> from & 15);
        let callouts = opens.map(|open| open & random.word());
        let known = Known::new(Tables::new(4, &opens, &callouts));
        each_call(session, &known, battery::fleet(random))?;
    }
    Ok(())
}
