//! Wrong grades by another test of whether some item is brittle: other slots, other items, another number of them.

use super::{one_open, rule_3, some_brittle, Fault, Input};
use crate::reference::{matching, pricing};
use crate::rota::{has, low, Tables};
use std::sync::Arc;

pub fn all() -> Vec<Fault> {
    let faults = open_slots_at_bounds().into_iter().chain(tests().into_iter().map(Test::always)).flatten();
    faults.map(|fault| Fault { subject: fault.subject.or(Some("brittle")), ..fault }).collect()
}

/// Each test where there are 1,000 plans or more, and the subject that finds it: the second if it takes many items to show it.
pub fn with_many_plans(few_items: &'static str, many_items: &'static str) -> Vec<Fault> {
    let found = |test: Test| {
        let subject = if test.many_items { many_items } else { few_items };
        test.with_many_plans().map(|fault| fault.found_by(subject))
    };
    tests().into_iter().flat_map(found).collect()
}

fn tests() -> Vec<Test> {
    [other_slots(), other_items(), other_tests()].into_iter().flatten().collect()
}

/// Another test of whether some item is brittle.
struct Test {
    name: &'static str,
    brittle: Arc<dyn Fn(&Input) -> bool + Send + Sync>,
    /// Whether it takes more than 16 items to show it.
    many_items: bool,
}

impl Test {
    fn new(name: &'static str, brittle: impl Fn(&Input) -> bool + Send + Sync + 'static) -> Self {
        Test { name, brittle: Arc::new(brittle), many_items: false }
    }

    /// Over another table than the usable one.
    fn over(name: &'static str, table: fn(&Input) -> Vec<u64>) -> Self {
        Test::new(name, move |input| pricing::some_brittle(&table(input)))
    }

    fn over_many(name: &'static str, table: fn(&Input) -> Vec<u64>) -> Self {
        Test { many_items: true, ..Test::over(name, table) }
    }

    /// By another test of the item's open and usable word.
    fn some_item(name: &'static str, test: fn(u64, u64) -> bool) -> Self {
        Test::new(name, move |input| {
            let mut items = input.known.tables.opens.iter().zip(input.known.usable());
            items.any(|(&open, &usable)| test(open, usable))
        })
    }

    fn always(self) -> [Fault; 4] {
        let [grade, price, grade_untallied, price_untallied] = rule_3(self.name, move |input| (self.brittle)(input));
        let [grade_untallied, price_untallied] =
            [grade_untallied, price_untallied].map(|fault| match self.many_items {
                true => fault.found_by("untallied at bounds"),
                false => fault,
            });
        [grade, price, grade_untallied, price_untallied]
    }

    fn with_many_plans(self) -> [Fault; 4] {
        rule_3(&format!("{}, from 1,000 plans on", self.name), move |input| match input.known.count() {
            1_000.. => (self.brittle)(input),
            _ => some_brittle(input),
        })
    }
}

/// The slots of each item in some plans.
fn slots_in(input: &Input, plans: &[Option<[u8; 64]>]) -> Vec<u64> {
    let row = |item: usize| plans.iter().flatten().fold(0, |word, plan| word | 1 << plan[item]);
    (0..input.known.n()).map(row).collect()
}

/// The usable words, each changed.
fn each(input: &Input, change: impl Fn(usize, u64) -> u64) -> Vec<u64> {
    input.known.usable().iter().enumerate().map(|(item, &word)| change(item, word)).collect()
}

fn open_slots_at_bounds() -> Vec<[Fault; 4]> {
    vec![
        rule_3("open slots counted up to 23 plans", |input| match input.known.count() {
            ..24 => one_open(input),
            _ => some_brittle(input),
        }),
        rule_3("open slots counted from 24 plans on", |input| match input.known.count() {
            24.. => one_open(input),
            _ => some_brittle(input),
        }),
    ]
}

fn other_slots() -> Vec<Test> {
    vec![
        Test::new("open slots counted", one_open),
        Test::over("the first plan's slots alone", |input| slots_in(input, &[input.known.first()])),
        Test::over("the first and the last plan's slots", |input| {
            slots_in(input, &[input.known.first(), input.known.last()])
        }),
        Test::over("the first two plans' slots", |input| {
            let first = input.known.first();
            slots_in(input, &[first, first.and_then(|plan| input.known.next(&plan))])
        }),
        Test::over("open slots left when single ones are struck out", struck_out),
        Test::over("slot 0 lost", |input| each(input, |_, word| word & !1)),
        Test::over("the last slot lost", |input| each(input, |_, word| word & low(input.known.n() - 1))),
        Test::over_many("slots from 16 on lost", |input| each(input, |_, word| word & low(16))),
        Test::over("callout slots lost", |input| each(input, |item, word| word & !input.known.tables.callouts[item])),
        Test::over("callout slots alone", |input| each(input, |item, word| word & input.known.tables.callouts[item])),
        Test::over("usable without callouts", |input| {
            let tables = &input.known.tables;
            let opens: Vec<u64> =
                tables.opens.iter().zip(&tables.callouts).map(|(open, callout)| open & !callout).collect();
            matching::usable(&Tables::open(&opens))
        }),
    ]
}

/// The open words once nothing more follows from a single cell: an item's only slot is struck out of the others' words, and a slot's
/// only item gets no other slot.
fn struck_out(input: &Input) -> Vec<u64> {
    let mut words = input.known.tables.opens.clone();
    loop {
        let before = words.clone();
        for item in 0..words.len() {
            let others = (0..words.len()).filter(|&other| other != item).fold(0, |union, other| union | words[other]);
            if (words[item] & !others).count_ones() == 1 {
                words[item] &= !others;
            }
            if words[item].count_ones() == 1 {
                let slot = words[item];
                words.iter_mut().enumerate().filter(|(other, _)| *other != item).for_each(|(_, word)| *word &= !slot);
            }
        }
        if words == before {
            return words;
        }
    }
}

fn other_items() -> Vec<Test> {
    vec![
        Test::over("item 0 not looked at", |input| input.known.usable()[1..].to_vec()),
        Test::over("the last item not looked at", |input| input.known.usable()[..input.known.n() - 1].to_vec()),
        Test::over("the first and the last item alone", |input| {
            let usable = input.known.usable();
            vec![usable[0], usable[usable.len() - 1]]
        }),
        Test::over_many("items from 16 on not looked at", |input| {
            input.known.usable().iter().take(16).copied().collect()
        }),
    ]
}

fn other_tests() -> Vec<Test> {
    vec![
        Test::some_item("just two usable slots", |_, usable| usable.count_ones() == 2),
        Test::some_item("one or two usable slots", |_, usable| usable.count_ones() <= 2),
        Test::some_item("one usable slot of several open ones", |open, usable| {
            open != usable && usable.count_ones() == 1
        }),
        Test::some_item("an open slot that is not usable", |open, usable| open != usable),
        Test::some_item("an open slot that is not usable, or just one", |open, usable| {
            open != usable || usable.count_ones() == 1
        }),
        Test::some_item("just one open slot that is not usable", |open, usable| (open & !usable).count_ones() == 1),
        Test::new("just one brittle item", |input| {
            input.known.usable().iter().filter(|word| word.count_ones() == 1).count() == 1
        }),
        Test::new("slots with one item", |input| {
            let single = |slot: usize| input.known.tables.opens.iter().filter(|&&open| has(open, slot)).count() == 1;
            (0..input.known.n()).any(single)
        }),
    ]
}
