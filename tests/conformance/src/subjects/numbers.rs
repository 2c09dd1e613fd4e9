//! Plan numbers: every number of small rotas; plans and numbers of every size that is counted; the bounds. Then the library's
//! calls beside each other: whole listings walked by the lister and by number, and numbers turned into plans and back.

use super::battery;
use crate::inputs::families::{self, Callouts, Family, FAMILIES};
use crate::inputs::{given, refused};
use crate::random::Random;
use crate::reference::{numbers, permanent, Known, Method};
use crate::rota::{low, plan_of, Plan, Tables, BLANK};
use crate::session::{Outcome, Session};

/// How many random rotas of 4, 5, 6 and 7 items have all their plans numbered, and with how many plans at most.
const RANDOM: [(usize, usize); 4] = [(4, 300), (5, 150), (6, 60), (7, 20)];
const MOST_PLANS: u64 = 800;

/// Up to here a rota of each family, and any record for a plan; above, a rota of each of the larger ones; from 17 items on of
/// every fourth one, in turn.
const EVERY_FAMILY: usize = 10;
const EVERY_LARGER: usize = 16;
const LARGER: [Family; 12] = [
    Family::Full,
    Family::Hessenberg,
    Family::Cycle,
    Family::HallViolation,
    Family::Half,
    Family::FewPlans,
    Family::UpperTriangular,
    Family::ScrambledBlockTriangular,
    Family::NearlyFull,
    Family::SevenEighths,
    Family::ThreeSlotsEach,
    Family::Blocks,
];

/// Up to here every word of the expected tally is found by Ryser's formula too.
const EVERY_WORD: usize = 14;

/// The number of plans with every cell of 20 items open.
const FACTORIAL: u64 = 2_432_902_008_176_640_000;

pub fn run(session: &mut Session, random: &mut Random) -> Outcome {
    for n in 1..=3 {
        every_table(session, n, every_number, random)?;
    }
    random_rotas(session, every_number, random)?;
    for n in 1..=EVERY_FAMILY {
        for family in FAMILIES {
            let known = of_family(family, n, random);
            some_numbers(session, &known, 3, random)?;
            let plans = (0..given::KINDS).map(|kind| given::plan(kind, &known, random)).collect::<Vec<Plan>>();
            plans.iter().try_for_each(|plan| session.plan_number(&known, plan, 1 << n))?;
        }
    }
    for n in EVERY_FAMILY + 1..=20 {
        let (skipped, step) = if n <= EVERY_LARGER { (0, 1) } else { (n % 4, 4) };
        for &family in LARGER.iter().skip(skipped).step_by(step) {
            some_numbers(session, &of_family(family, n, random), 1, random)?;
        }
    }
    every_table(session, 4, every_number, random)
}

/// What is tried over a rota.
type Trial = fn(&mut Session, &Known) -> Outcome;

fn of_family(family: Family, n: usize, random: &mut Random) -> Known {
    Known::new(families::rota(family, random.pick(&families::CALLOUTS), n, random))
}

/// Every open table of so many items, with some of the cells as callouts.
fn every_table(session: &mut Session, n: usize, trial: Trial, random: &mut Random) -> Outcome {
    for number in 0..1u64 << (n * n) {
        let opens: Vec<u64> = (0..n).map(|item| number >> (item * n) & low(n)).collect();
        let callouts: Vec<u64> = opens.iter().map(|open| open & random.word()).collect();
        trial(session, &Known::new(Tables { n, opens, callouts }))?;
    }
    Ok(())
}

fn random_rotas(session: &mut Session, trial: Trial, random: &mut Random) -> Outcome {
    for (n, rotas) in RANDOM {
        for _ in 0..rotas {
            let known = Known::by(Method::Definitions, families::any(n, random));
            if known.count() <= MOST_PLANS {
                trial(session, &known)?;
            }
        }
    }
    Ok(())
}

/// Every number up to the count, and every plan.
fn every_number(session: &mut Session, known: &Known) -> Outcome {
    let exact = 1 << known.n();
    for k in (0..=known.count()).chain([u64::MAX]) {
        session.plan_at(known, k, exact)?;
    }
    given::every_plan(known).try_for_each(|plan| session.plan_number(known, &plan, exact))
}

/// Numbers at the ends and beyond, and some between them; some plans and the last.
fn some_numbers(session: &mut Session, known: &Known, between: usize, random: &mut Random) -> Outcome {
    let (count, exact) = (known.count(), 1 << known.n());
    some_words(known, random);
    for k in [count, u64::MAX] {
        session.plan_at(known, k, exact)?;
    }
    session.plan_number(known, &given::plan(8 + random.below(6), known, random), exact)?;
    if count == 0 {
        return session.plan_at(known, 0, exact);
    }
    for k in [0, count - 1].into_iter().chain((0..between).map(|_| random.word() % count)).collect::<Vec<u64>>() {
        session.plan_at(known, k, exact)?;
    }
    for _ in 0..between {
        session.plan_number(known, &given::some_plan(known, random), exact)?;
    }
    session.plan_number(known, &known.last().expect("a plan"), exact)
}

/// Words of the expected tally by Ryser's formula: some of them alone, and all of them together where they are not too many.
fn some_words(known: &Known, random: &mut Random) {
    let (rota, n) = (&known.tables, known.n());
    for _ in 0..4 {
        let set = random.word() & low(n);
        let ways = permanent::permanent(&rota.opens[n - set.count_ones() as usize..], set);
        assert_eq!(known.last_tally()[set as usize], ways, "two ways to count for {set:#x} of\n{rota}");
    }
    if n <= EVERY_WORD {
        assert_eq!(known.last_tally(), numbers::tally_by_ryser(rota), "two ways to count for every set of\n{rota}");
    }
}

/// Where n, the number, the given record or the length of the tally is at a bound; 20 items.
pub fn bounds(session: &mut Session, random: &mut Random) -> Outcome {
    refused_tables(session, random)?;
    for n in [1, 2, 3, 5, 8] {
        for family in [Family::Full, Family::Hessenberg, Family::FewPlans, Family::Half, Family::IdleItem] {
            every_length(session, &of_family(family, n, random), random)?;
        }
    }
    for n in 1..=3 {
        every_record(session, n)?;
    }
    for n in [1, 3, 8] {
        every_byte(session, n, 0..64, random)?;
    }
    without_a_plan(session, random)?;
    every_cell_open(session, random)?;
    pairs(session, random)?;
    every_byte(session, 20, [0, 19, 20, 63], random)
}

/// The library's calls beside each other.
pub fn beside(session: &mut Session, random: &mut Random) -> Outcome {
    for n in 1..=3 {
        every_table(session, n, Session::beside_the_lister, random)?;
    }
    random_rotas(session, Session::beside_the_lister, random)?;
    for n in 1..=EVERY_LARGER {
        for family in LARGER {
            let known = of_family(family, n, random);
            for _ in 0..known.count().min(3) {
                session.there_and_back(&known, random.word() % known.count())?;
            }
        }
    }
    every_table(session, 4, Session::beside_the_lister, random)
}

/// Slots 0 to n - 1 in their order.
fn rising(n: usize) -> Plan {
    plan_of(&(0..n.min(64)).collect::<Vec<usize>>())
}

/// 1 to 5, with a number and a record that are accepted where the tables are, and with others; the tally too short and not.
fn refused_tables(session: &mut Session, random: &mut Random) -> Outcome {
    let mut tables: Vec<Tables> = vec![];
    for n in [0, 21, 22, 64, 65] {
        tables.extend([low(n.min(64)), 0].map(|word| Tables::open(&vec![word; n])));
    }
    for n in [1, 2, 20, 21, 64] {
        tables.extend((1..16).map(|faults| refused::tables(n, faults, random)));
    }
    for known in tables.into_iter().map(Known::new) {
        for words in [1 << 10, 0] {
            for k in [0, 1, u64::MAX] {
                session.plan_at(&known, k, words)?;
            }
            for given in [rising(known.n()), BLANK] {
                session.plan_number(&known, &given, words)?;
            }
        }
    }
    let known = Known::new(Tables::open(&[low(21); 21]));
    session.plan_at(&known, 0, 1 << 21)?;
    session.plan_number(&known, &rising(21), 1 << 21)
}

/// A tally a word too short, none at all, exact, a word too long, longer; with numbers up to the count and beyond, with plans and
/// without.
fn every_length(session: &mut Session, known: &Known, random: &mut Random) -> Outcome {
    let count = known.count();
    for words in battery::lengths(1 << known.n(), random) {
        for k in [0, count.saturating_sub(1), count, count + 1, u64::MAX] {
            session.plan_at(known, k, words)?;
        }
        for given in [known.first().unwrap_or([0; 64]), known.last().unwrap_or(rising(known.n())), BLANK] {
            session.plan_number(known, &given, words)?;
        }
    }
    Ok(())
}

/// For each open table of so many items, every record of slots 0 to n.
fn every_record(session: &mut Session, n: usize) -> Outcome {
    for number in 0..1u64 << (n * n) {
        let opens: Vec<u64> = (0..n).map(|item| number >> (item * n) & low(n)).collect();
        let known = Known::new(Tables::open(&opens));
        for record in 0..(n + 1).pow(n as u32) {
            let slots: Vec<usize> = (0..n).map(|item| record / (n + 1).pow(item as u32) % (n + 1)).collect();
            session.plan_number(&known, &plan_of(&slots), 1 << n)?;
        }
    }
    Ok(())
}

/// A plan with one byte changed to values at bounds, where every cell is open; the tally long enough, and a word too short.
fn every_byte(
    session: &mut Session,
    n: usize,
    places: impl IntoIterator<Item = usize>,
    random: &mut Random,
) -> Outcome {
    let known = Known::new(families::rota(Family::Full, Callouts::Some, n, random));
    let plan = plan_of(&random.permutation(n));
    for at in places {
        for value in [0, n as u8 - 1, n as u8, 64, plan[at] ^ 64, plan[at] ^ 128, 255] {
            let mut record = plan;
            record[at] = value;
            session.plan_number(&known, &record, 1 << n)?;
        }
        session.plan_number(&known, &BLANK, (1 << n) - 1)?;
    }
    Ok(())
}

/// Every number is refused, and every record.
fn without_a_plan(session: &mut Session, random: &mut Random) -> Outcome {
    let mut rotas: Vec<Tables> = [1, 2, 3].iter().map(|&n| Tables::open(&vec![0; n])).collect();
    for n in [4, 7, 10] {
        for family in [Family::HallViolation, Family::TwoHallViolations, Family::IdleItem, Family::ShutSlot] {
            rotas.push(families::rota(family, Callouts::Some, n, random));
        }
    }
    let mut opens = vec![low(20); 20];
    opens[random.below(20)] = 0;
    rotas.push(Tables::open(&opens));
    for known in rotas.into_iter().map(Known::new) {
        let (n, exact) = (known.n(), 1 << known.n());
        assert_eq!(known.count(), 0, "no plan of\n{}", known.tables);
        let numbers: &[u64] = if n < 20 { &[0, 1, 2, 1 << 32, u64::MAX - 1, u64::MAX] } else { &[0, u64::MAX] };
        numbers.iter().try_for_each(|&k| session.plan_at(&known, k, exact))?;
        session.plan_at(&known, 0, exact - 1)?;
        session.plan_number(&known, &rising(n), exact)?;
        session.plan_number(&known, &rising(n), exact - 1)?;
    }
    Ok(())
}

/// Ten pairs of items, each with two slots of its own: a plan's number has a bit for each pair, the first pair's before the
/// others', which is set if the pair's slots are exchanged.
fn pairs(session: &mut Session, random: &mut Random) -> Outcome {
    let known = Known::new(Tables::open(&(0..20).map(|item| 3 << (item / 2 * 2)).collect::<Vec<u64>>()));
    for k in [0, 1, 2, 511, 512, 1 + random.below(1_022) as u64, 1_023] {
        let exchanged = |item: usize| k >> (9 - item / 2) & 1 == 1;
        let plan = plan_of(&(0..20).map(|item| item ^ usize::from(exchanged(item))).collect::<Vec<usize>>());
        numbered(session, &known, k, &plan)?;
    }
    for k in [1_024, 1_025, 1 << 32, u64::MAX] {
        session.plan_at(&known, k, 1 << 20)?;
    }
    Ok(())
}

/// The plan with this number where every cell is open: the number's digits, of which the first counts (n - 1)!, the next (n -
/// 2)!, choose among the slots that are left.
fn by_factorials(n: usize, mut number: u64) -> Plan {
    let mut left: Vec<usize> = (0..n).collect();
    let mut slots = vec![];
    for further in (0..n as u64).rev() {
        let factorial: u64 = (1..=further).product();
        slots.push(left.remove((number / factorial) as usize));
        number %= factorial;
    }
    plan_of(&slots)
}

/// All 20! plans: the ends, the middle, numbers of more than 32 and more than 53 bits.
fn every_cell_open(session: &mut Session, random: &mut Random) -> Outcome {
    let known = Known::new(families::rota(Family::Full, Callouts::Some, 20, random));
    assert_eq!(known.count(), FACTORIAL, "20!");
    let middle = FACTORIAL / 2;
    let some = [random.word() % FACTORIAL, 1 << 32, (1 << 53) + 1];
    for k in [FACTORIAL - 1, 0, 1, middle - 1, middle].into_iter().chain(some) {
        numbered(session, &known, k, &by_factorials(20, k))?;
    }
    for k in [FACTORIAL, FACTORIAL + 1, u64::MAX] {
        session.plan_at(&known, k, 1 << 20)?;
    }
    session.plan_at(&known, middle, (1 << 20) - 1)?;
    session.plan_at(&known, FACTORIAL, (1 << 20) - 1)?;
    session.plan_at(&known, middle, (1 << 20) + 3)
}

/// A plan and its number, by the rule of its rota, both ways.
fn numbered(session: &mut Session, known: &Known, k: u64, plan: &Plan) -> Outcome {
    assert_eq!(known.plan_at(k), Some(*plan), "plan {k} of\n{}", known.tables);
    session.plan_at(known, k, 1 << known.n())?;
    session.plan_number(known, plan, 1 << known.n())
}
