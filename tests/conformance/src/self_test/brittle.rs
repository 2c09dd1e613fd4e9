//! Brittle items by the plans themselves, and the grades of versions 1, 2 and 3 beside each other, over many small rotas.

use super::methods::same;
use crate::inputs::brittle::{self, Kind, SEVEN};
use crate::inputs::families::{self, Callouts, Family};
use crate::random::Random;
use crate::reference::answers::{Call, Input};
use crate::reference::{definitions, permanent, Known, Method};
use crate::rota::{has, low, word_of, Tables};

/// How many rotas changed their grade.
#[derive(Default)]
struct Moved {
    /// With version 2, by the grade that they had.
    second: [u64; 5],
    /// With version 3: those without an item of one open slot, those with one.
    third: [u64; 2],
}

/// Compares and counts; a difference ends the program.
pub fn run() -> u64 {
    let (mut compared, mut moved) = (0, Moved::default());
    for n in 1..=4 {
        for number in 0..1u64 << (n * n) {
            let opens: Vec<u64> = (0..n).map(|item| number >> (item * n) & low(n)).collect();
            compared += small(&Tables::open(&opens), &mut moved);
        }
    }
    let mut random = Random::stream(1, "brittle");
    for turn in 0..3_000 {
        compared += small(&families::any(5 + turn % 3, &mut random), &mut moved);
    }
    let Moved { second, third } = moved;
    assert!(second[2] > 0 && second[3] > 0, "grades that version 2 changed, by the old one: {second:?}");
    assert_eq!(third, [0, 0], "rotas of seven items with 1,000 plans and a brittle item");
    for turn in 0..600 {
        compared += by_minors(&families::any(8 + turn % 5, &mut random));
    }
    compared += eight_items(&mut moved);
    assert!(moved.third[0] > 0 && moved.third[1] > 0, "grades that version 3 changed: {:?}", moved.third);
    compared
}

/// Any rotas of eight items, and such with a brittle one beside seven of about 1,000 plans or more.
fn eight_items(moved: &mut Moved) -> u64 {
    let mut random = Random::stream(1, "brittle, eight items");
    let mut compared = 0;
    for _ in 0..200 {
        compared += small(&families::any(8, &mut random), moved);
    }
    for _ in 0..20 {
        for kind in [Kind::SeveralOpen, Kind::OneOpen, Kind::OneOpenShared] {
            let dense = [Family::Full, Family::NearlyFull, Family::SevenEighths];
            let dense = dense.map(|family| families::rota(family, Callouts::No, 7, &mut random).opens);
            for block in SEVEN.map(|(_, opens)| opens.to_vec()).into_iter().chain(dense) {
                let opens = brittle::of_blocks(kind, vec![block], &mut random);
                compared += small(&Tables::open(&opens), moved);
            }
        }
    }
    compared
}

/// Rules 1, 2, 3, 4, 5 in this order: version 1, where an item with one open slot was brittle, and version 2.
fn rule_2_first(brittle: bool, count: u64) -> u32 {
    match count {
        1 => 1,
        1_000.. => 5,
        _ if brittle => 2,
        ..=23 => 3,
        _ => 4,
    }
}

/// Rules 1, 3, 2, 4, 5: version 3.
fn rule_3_first(brittle: bool, count: u64) -> u32 {
    match count {
        1 => 1,
        _ if brittle => 2,
        1_000.. => 5,
        ..=23 => 3,
        _ => 4,
    }
}

/// Up to eight items: every plan is looked at.
fn small(rota: &Tables, moved: &mut Moved) -> u64 {
    let plans = definitions::plans(rota);
    let Some(first) = plans.first() else { return 0 };
    let usable = definitions::usable(rota, &plans);
    // A brittle item has the same slot in every plan.
    let brittle = |item: usize| plans.iter().all(|plan| plan[item] == first[item]);
    let mut compared = 0;
    for (item, word) in usable.iter().enumerate() {
        compared += same!(rota, "one usable slot", word.count_ones() == 1, brittle(item));
        if rota.opens[item].count_ones() == 1 {
            compared += same!(rota, "the usable slot of one open slot", *word, rota.opens[item]);
        }
    }
    let items = word_of((0..rota.n).filter(|&item| brittle(item)));
    let users = |slot: usize| usable.iter().filter(|&&word| has(word, slot)).count();
    let alone = (0..rota.n).filter(|&slot| users(slot) == 1);
    compared += same!(rota, "slots with one user", alone.count(), items.count_ones() as usize);
    let count = plans.len() as u64;
    if items == 0 && (2..count).all(|factor| count % factor > 0) {
        compared += same!(rota, "usable words, the count a prime and no item brittle", usable, rota.opens);
    }
    let (some_brittle, one_open) = (items != 0, rota.opens.iter().any(|open| open.count_ones() == 1));
    let (version_1, version_2) = (rule_2_first(one_open, count), rule_2_first(some_brittle, count));
    let version_3 = rule_3_first(some_brittle, count);
    for method in [Method::Definitions, Method::Search] {
        let known = Known::by(method, rota.clone());
        compared += same!(rota, "grade", Input::new(Call::Grade, &known).grade_answer(0).grade, version_3);
    }
    let second = (2..=999).contains(&count) && some_brittle && !one_open;
    compared += same!(rota, "whether version 2 changed the grade", version_1 != version_2, second);
    if second {
        compared += same!(rota, "versions 1 and 2", ([3, 4].contains(&version_1), version_2), (true, 2));
        moved.second[version_1 as usize - 1] += 1;
    }
    let third = count >= 1_000 && some_brittle;
    compared += same!(rota, "whether version 3 changed the grade", version_2 != version_3, third);
    if third {
        compared += same!(rota, "versions 2 and 3", (version_2, version_3), (5, 2));
        moved.third[usize::from(one_open)] += 1;
    }
    compared
}

/// Rotas of 8 to 12 items: an item is brittle if all plans are left once it has the slot of the first one.
fn by_minors(rota: &Tables) -> u64 {
    let known = Known::by(Method::Search, rota.clone());
    let Some(first) = known.first() else { return 0 };
    let mut compared = 0;
    for item in 0..rota.n {
        let mut others = rota.opens.clone();
        others.remove(item);
        let holding = permanent::permanent(&others, low(rota.n) & !(1 << first[item]));
        compared += same!(rota, "brittle item", known.usable()[item].count_ones() == 1, holding == known.count());
    }
    compared
}
