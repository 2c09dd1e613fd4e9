//! Wrong libraries that come near: the count without a tally. A wrong count is tried as the count, as the grade that it gives, and as
//! the price at that grade.

use super::faults::{instead, success, Fault};
use crate::reference::answers::{Call, Input};
use crate::reference::pricing;
use crate::rota::low;
use Call::{CountPlansUntallied, GradeUntallied, MonthlyPriceUntallied};

const UNTALLIED: [Call; 3] = [CountPlansUntallied, GradeUntallied, MonthlyPriceUntallied];

/// Items up to which a wrong sum is computed; above, the count is right.
const SUMMED: usize = 17;

/// The subjects that find them.
const SIZES: &str = "untallied";
const BOUNDS: &str = "untallied at bounds";

pub fn faults() -> Vec<Fault> {
    let counts = [signs(), sets(), items(), factors(), others()].into_iter().flatten().flatten();
    counts.map(|fault| fault.found_by(SIZES)).chain(fewer_bits()).chain(refusals()).collect()
}

/// Another count where there is one.
fn counted(name: &str, other: impl Fn(&Input) -> u64 + Clone + Send + Sync + 'static) -> [Fault; 3] {
    UNTALLIED.map(|call| {
        let other = other.clone();
        success(call, name, move |input, reply| {
            let count = other(input);
            let grade = || pricing::by_rules(pricing::some_brittle(input.known.usable()), count);
            let fewest = || input.known.fewest().expect("a plan").0;
            reply.number = match call {
                CountPlansUntallied => count,
                GradeUntallied => grade().into(),
                _ => pricing::price(grade(), input.vehicles, fewest()),
            };
        })
    })
}

/// How many slots of the set are open to the item.
fn open_in(input: &Input, item: usize, set: u64) -> u64 {
    (input.known.tables.opens[item] & set).count_ones().into()
}

/// The product of a factor of each item.
fn product_of(input: &Input, factor: impl Fn(usize) -> u64) -> u64 {
    (0..input.known.n()).fold(1, |product: u64, item| product.wrapping_mul(factor(item)))
}

fn product(input: &Input, set: u64) -> u64 {
    product_of(input, |item| open_in(input, item, set))
}

/// Whether the set's product is taken off: an odd number of slots is not in the set.
fn minus(input: &Input, set: u64) -> bool {
    (input.known.n() - set.count_ones() as usize) % 2 == 1
}

/// The formula with another product of a set and another sign of it.
fn signed(
    name: &str,
    term: impl Fn(&Input, u64) -> u64 + Clone + Send + Sync + 'static,
    minus: fn(&Input, u64) -> bool,
) -> [Fault; 3] {
    counted(name, move |input| match input.known.n() {
        n if n > SUMMED => input.known.count(),
        n => (0..1u64 << n).fold(0, |sum: u64, set| match minus(input, set) {
            true => sum.wrapping_sub(term(input, set)),
            false => sum.wrapping_add(term(input, set)),
        }),
    })
}

fn signs() -> Vec<[Fault; 3]> {
    vec![
        signed("every sign turned", product, |input, set| !minus(input, set)),
        signed("signs by the slots in the set", product, |_, set| set.count_ones() % 2 == 1),
        signed("signs by slot 0", product, |_, set| set % 2 == 0),
        signed("no product taken off", product, |_, _| false),
    ]
}

/// Some sets alone.
fn over_sets(name: &str, passes: fn(usize, u64) -> bool) -> [Fault; 3] {
    let term = move |input: &Input, set: u64| match passes(input.known.n(), set) {
        true => product(input, set),
        false => 0,
    };
    signed(name, term, minus)
}

/// The empty set may be left out: its product is 0.
fn sets() -> Vec<[Fault; 3]> {
    vec![
        signed("the empty set counted as 1", |input, set| product(input, set).max(u64::from(set == 0)), minus),
        over_sets("the set of all slots left out", |n, set| set != low(n)),
        over_sets("the set that lacks slot 0 alone left out", |n, set| set != low(n) - 1),
        over_sets("sets of one slot left out", |_, set| set.count_ones() != 1),
        over_sets("sets that lack one slot left out", |n, set| set.count_ones() as usize + 1 != n),
        over_sets("sets with slot 0 left out", |_, set| set & 1 == 0),
        over_sets("sets without slot 0 left out", |_, set| set & 1 == 1),
        over_sets("sets without the last slot left out", |n, set| set >> (n - 1) == 1),
        over_sets("sets of half of the slots or fewer left out", |n, set| set.count_ones() as usize > n / 2),
    ]
}

/// Some items alone.
fn over_items(name: &str, passes: fn(usize, usize) -> bool) -> [Fault; 3] {
    let factor = move |input: &Input, item: usize, set: u64| match passes(input.known.n(), item) {
        true => open_in(input, item, set),
        false => 1,
    };
    signed(name, move |input, set| product_of(input, |item| factor(input, item, set)), minus)
}

fn items() -> Vec<[Fault; 3]> {
    vec![
        over_items("item 0 left out", |_, item| item != 0),
        over_items("the last item left out", |n, item| item + 1 != n),
        over_items("item 7 left out", |_, item| item != 7),
        over_items("item 8 left out", |_, item| item != 8),
        over_items("items from 8 on left out", |_, item| item < 8),
        over_items("item 15 left out", |_, item| item != 15),
        over_items("items from 16 on left out", |_, item| item < 16),
        signed("item 0 twice", |input, set| product(input, set).wrapping_mul(open_in(input, 0, set)), minus),
    ]
}

/// Other factors, by an item's open slots in the set.
fn changed(name: &str, change: fn(u64) -> u64) -> [Fault; 3] {
    signed(name, move |input, set| product_of(input, |item| change(open_in(input, item, set))), minus)
}

/// Another set for each item.
fn within(name: &str, part: fn(&Input, usize, u64) -> u64) -> [Fault; 3] {
    signed(name, move |input, set| product_of(input, |item| open_in(input, item, part(input, item, set))), minus)
}

fn factors() -> Vec<[Fault; 3]> {
    vec![
        changed("1 for every number of open slots", |open| open.min(1)),
        changed("factors up to 7", |open| open.min(7)),
        changed("factors of 3 bits", |open| open % 8),
        changed("an item without a slot in the set passed over", |open| open.max(1)),
        within("open slots outside of the set", |_, _, set| !set),
        within("callouts not open", |input, item, set| set & !input.known.tables.callouts[item]),
        within("callouts alone open", |input, item, set| set & input.known.tables.callouts[item]),
        signed(
            "the sum of the factors",
            |input, set| (0..input.known.n()).map(|item| open_in(input, item, set)).sum(),
            minus,
        ),
    ]
}

fn others() -> Vec<[Fault; 3]> {
    vec![
        counted("the number of open cells", |input| {
            (0..input.known.n()).map(|item| open_in(input, item, u64::MAX)).sum()
        }),
        counted("the product of the open slots", |input| product(input, u64::MAX)),
        counted("the product of the usable slots", |input| {
            product_of(input, |item| input.known.usable()[item].count_ones().into())
        }),
        counted("one more", |input| input.known.count() + 1),
        counted("one less", |input| input.known.count().saturating_sub(1)),
        counted("999 at most", |input| input.known.count().min(999)),
    ]
}

/// Counts and products of fewer bits, a product that stops below 2 to the power 64, a count in floating point.
fn fewer_bits() -> Vec<Fault> {
    let mut list: Vec<Fault> = counted("32 bits", |input| input.known.count() % (1 << 32)).into();
    list.push(success(CountPlansUntallied, "61 bits", |_, reply| reply.number %= 1 << 61));
    list.push(success(CountPlansUntallied, "floating point", |_, reply| reply.number = reply.number as f64 as u64));
    let list = list.into_iter().map(|fault| fault.found_by(BOUNDS));
    let [products, ..] = signed("products of 32 bits", |input, set| product(input, set) % (1 << 32), minus);
    let stopped = |input: &Input, set: u64| {
        (0..input.known.n()).fold(1, |product: u64, item| product.saturating_mul(open_in(input, item, set)))
    };
    let [stopped, ..] = signed("products up to 2^64 - 1", stopped, minus);
    list.chain([products, stopped].map(|fault| fault.found_by(SIZES))).collect()
}

fn refusals() -> Vec<Fault> {
    let mut list = vec![];
    for call in UNTALLIED {
        list.push(instead(call, "6 for every rota", 0, 6, |_| true).found_by(SIZES));
        list.push(instead(call, "6 above 13 items", 0, 6, |input| input.known.n() > 13).found_by(SIZES));
        list.push(instead(call, "6 in place of 5", 5, 6, |_| true).found_by(BOUNDS));
        list.push(instead(call, "5 for n above 64", 1, 5, |input| input.known.n() > 64).found_by(BOUNDS));
        list.push(instead(call, "20 items refused", 0, 5, |input| input.known.n() == 20).found_by(BOUNDS));
        let accepted = Fault::of(call, "21 items accepted", |input, reply| {
            if reply.code == 5 && input.known.n() == 21 {
                reply.code = 0;
            }
        });
        list.push(accepted.found_by(BOUNDS));
    }
    let none = |input: &Input| input.known.count() == 0;
    list.push(instead(CountPlansUntallied, "9 for a count of 0", 0, 9, none).found_by(SIZES));
    let none_of_twenty = move |input: &Input| input.known.n() == 20 && none(input);
    list.push(instead(CountPlansUntallied, "9 for a count of 0 of 20 items", 0, 9, none_of_twenty).found_by(BOUNDS));
    for call in [GradeUntallied, MonthlyPriceUntallied] {
        let not_given = Fault::of(call, "9 not given", |_, reply| reply.code *= u32::from(reply.code != 9));
        list.push(not_given.found_by(SIZES));
        list.push(instead(call, "9 before 5", 5, 9, |input| input.known.first().is_none()).found_by(BOUNDS));
    }
    for of in 1..=5 {
        let refused = |input: &Input| [0, 10_001].contains(&input.vehicles);
        let name = format!("7 before {of}");
        list.push(instead(MonthlyPriceUntallied, &name, of, 7, refused).found_by(BOUNDS));
    }
    list
}
