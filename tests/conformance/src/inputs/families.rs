//! Families of accepted rotas, each for any number of items.

use crate::random::Random;
use crate::reference::matching;
use crate::rota::{low, slots_of, word_of, Tables};

/// Which cells are open.
#[derive(Clone, Copy, PartialEq, Eq, Debug)]
pub enum Family {
    Full,
    Empty,
    Diagonal,
    LowerTriangular,
    UpperTriangular,
    ScrambledTriangular,
    /// One plan, its last item with the first slot.
    AntiTriangular,
    TriangularAndOneCell,
    Permutation,
    PermutationAndNoise,
    TwoSlotsEach,
    ThreeSlotsEach,
    Eighth,
    Half,
    SevenEighths,
    NearlyFull,
    Blocks,
    ScrambledBlockTriangular,
    /// At most 300 plans, with many open cells that none of them uses.
    FewPlans,
    /// Two plans.
    Cycle,
    HallViolation,
    TwoHallViolations,
    IdleItem,
    ShutSlot,
    /// Giving one item its other slot moves all that follow.
    Chain,
    /// The last item takes the first slot and moves all others up by one.
    Shift,
    ShiftAndTriangle,
    /// 2 to the power n - 1 plans.
    Hessenberg,
}

use Family::*;

pub const FAMILIES: [Family; 28] = [
    Full,
    Empty,
    Diagonal,
    LowerTriangular,
    UpperTriangular,
    ScrambledTriangular,
    AntiTriangular,
    TriangularAndOneCell,
    Permutation,
    PermutationAndNoise,
    TwoSlotsEach,
    ThreeSlotsEach,
    Eighth,
    Half,
    SevenEighths,
    NearlyFull,
    Blocks,
    ScrambledBlockTriangular,
    FewPlans,
    Cycle,
    HallViolation,
    TwoHallViolations,
    IdleItem,
    ShutSlot,
    Chain,
    Shift,
    ShiftAndTriangle,
    Hessenberg,
];

/// Which open cells are callouts.
#[derive(Clone, Copy, PartialEq, Eq, Debug)]
pub enum Callouts {
    No,
    All,
    Some,
    Few,
    Most,
    LowerTriangle,
    AllButOnePlan,
    OnePlan,
}

pub const CALLOUTS: [Callouts; 8] = [
    Callouts::No,
    Callouts::All,
    Callouts::Some,
    Callouts::Few,
    Callouts::Most,
    Callouts::LowerTriangle,
    Callouts::AllButOnePlan,
    Callouts::OnePlan,
];

pub fn rota(family: Family, callouts: Callouts, n: usize, random: &mut Random) -> Tables {
    let opens = open_words(family, n, random);
    let callouts = callout_words(callouts, &opens, random);
    Tables { n, opens, callouts }
}

/// A rota of any family, with any callouts.
pub fn any(n: usize, random: &mut Random) -> Tables {
    let (family, callouts) = (random.pick(&FAMILIES), random.pick(&CALLOUTS));
    rota(family, callouts, n, random)
}

fn callout_words(callouts: Callouts, opens: &[u64], random: &mut Random) -> Vec<u64> {
    let mut some = |times: usize, of: usize| opens.iter().map(|open| open & cells(64, times, of, random)).collect();
    match callouts {
        Callouts::No => vec![0; opens.len()],
        Callouts::All => opens.to_vec(),
        Callouts::Some => some(1, 2),
        Callouts::Few => some(1, 8),
        Callouts::Most => some(7, 8),
        Callouts::LowerTriangle => opens.iter().enumerate().map(|(item, open)| open & low(item + 1)).collect(),
        Callouts::AllButOnePlan => {
            opens.iter().zip(plan_cells(opens, random)).map(|(open, cell)| open & !cell).collect()
        }
        Callouts::OnePlan => opens.iter().zip(plan_cells(opens, random)).map(|(open, cell)| open & cell).collect(),
    }
}

/// Each item's slot in some plan, as a word; 0 if there is no plan.
fn plan_cells(opens: &[u64], random: &mut Random) -> Vec<u64> {
    let mut adjacent: Vec<Vec<usize>> = opens.iter().map(|&open| slots_of(open)).collect();
    adjacent.iter_mut().for_each(|slots| random.shuffle(slots));
    match matching::some_plan(&adjacent, 0..opens.len()) {
        Some(plan) => plan[..opens.len()].iter().map(|&slot| 1 << slot).collect(),
        None => vec![0; opens.len()],
    }
}

/// A word with each of the first n bits set `times` in `of`.
fn cells(n: usize, times: usize, of: usize, random: &mut Random) -> u64 {
    word_of((0..n).filter(|_| random.chance(times, of)))
}

/// Items and slots renamed.
pub fn scrambled(opens: Vec<u64>, random: &mut Random) -> Vec<u64> {
    let n = opens.len();
    let (items, slots) = (random.permutation(n), random.permutation(n));
    let renamed = |word: u64| word_of((0..n).filter(|&slot| word >> slot & 1 == 1).map(|slot| slots[slot]));
    items.into_iter().map(|item| renamed(opens[item])).collect()
}

fn open_words(family: Family, n: usize, random: &mut Random) -> Vec<u64> {
    let each = |word: &mut dyn FnMut(usize) -> u64| (0..n).map(word).collect::<Vec<u64>>();
    let triangle = each(&mut |item| low(item + 1));
    let chosen = random.below(n);
    match family {
        Full => vec![low(n); n],
        Empty => vec![0; n],
        Diagonal => each(&mut |item| 1 << item),
        LowerTriangular => triangle,
        UpperTriangular => each(&mut |item| low(n) & !low(item)),
        ScrambledTriangular => scrambled(triangle, random),
        AntiTriangular => each(&mut |item| low(n) & !low(n - 1 - item)),
        TriangularAndOneCell => {
            let cell = 1 << random.below(n);
            each(&mut |item| low(item + 1) | if item == chosen { cell } else { 0 })
        }
        Permutation => random.permutation(n).into_iter().map(|slot| 1 << slot).collect(),
        PermutationAndNoise => {
            let slots = random.permutation(n);
            each(&mut |item| 1 << slots[item] | cells(n, 1, n, random))
        }
        TwoSlotsEach => each(&mut |_| word_of((0..2).map(|_| random.below(n)))),
        ThreeSlotsEach => each(&mut |_| word_of((0..3).map(|_| random.below(n)))),
        Eighth => each(&mut |_| cells(n, 1, 8, random)),
        Half => each(&mut |_| cells(n, 1, 2, random)),
        SevenEighths => each(&mut |_| cells(n, 7, 8, random)),
        NearlyFull => each(&mut |_| low(n) & !(1 << random.below(n))),
        Blocks => blocks(n, false, random),
        ScrambledBlockTriangular => scrambled(blocks(n, true, random), random),
        FewPlans => few_plans(n, random),
        Cycle => scrambled(each(&mut |item| 1 << item | 1 << ((item + 1) % n)), random),
        HallViolation => confined(n, 1, random),
        TwoHallViolations => confined(n, 2, random),
        IdleItem => each(&mut |item| if item == chosen { 0 } else { cells(n, 3, 4, random) }),
        ShutSlot => each(&mut |_| low(n) & !(1 << chosen) & cells(n, 7, 8, random)),
        Chain => each(&mut |item| 1 << item | 1 << item.saturating_sub(1)),
        Shift => each(&mut |item| 1 << ((item + 1) % n) | if item + 1 < n { 1 << item } else { 0 }),
        ShiftAndTriangle => each(&mut |item| 1 << ((item + 1) % n) | if item + 1 < n { low(item + 1) } else { 0 }),
        Hessenberg => each(&mut |item| low((item + 2).min(n))),
    }
}

/// Full blocks along the diagonal; with `above`, some open cells above them, which no plan can use.
fn blocks(n: usize, above: bool, random: &mut Random) -> Vec<u64> {
    let mut opens = vec![];
    while opens.len() < n {
        let start = opens.len();
        let size = 1 + random.below((n - start).min(5));
        let block = low(start + size) & !low(start);
        for _ in 0..size {
            let more = if above { cells(n, 1, 4, random) & !low(start + size) } else { 0 };
            opens.push(block | more);
        }
    }
    opens
}

/// A small table with some plans; each further item has a slot of its own and may have those before it, which it never gets.
fn few_plans(n: usize, random: &mut Random) -> Vec<u64> {
    let most = if n > 9 { 300 } else { 1 << (n - 1) };
    let mut opens = with_count(1 + random.below(most) as u64, random);
    for item in opens.len()..n {
        opens.push(1 << item | cells(item, 1, 2, random));
    }
    scrambled(opens, random)
}

/// Groups of items that share too few slots.
fn confined(n: usize, groups: usize, random: &mut Random) -> Vec<u64> {
    let mut opens: Vec<u64> = (0..n).map(|_| cells(n, 1, 2, random)).collect();
    for _ in 0..groups {
        let size = 1 + random.below(n);
        let missing = 1 + random.below(size.min(4));
        let (items, slots) = (random.permutation(n), random.permutation(n));
        let shared = word_of(slots.into_iter().take(size - missing));
        for &item in items.iter().take(size) {
            opens[item] = shared & cells(n, 7, 8, random);
        }
    }
    opens
}

/// A small rota by its number: each cell is closed, open or a callout. There are 3 to the power n × n.
pub fn numbered(n: usize, mut number: usize) -> Tables {
    let (mut opens, mut callouts) = (vec![0; n], vec![0; n]);
    for item in 0..n {
        for slot in 0..n {
            let cell = number % 3;
            opens[item] |= u64::from(cell > 0) << slot;
            callouts[item] |= u64::from(cell > 1) << slot;
            number /= 3;
        }
    }
    Tables { n, opens, callouts }
}

/// A rota with exactly so many complete plans. Item i has slots 0 to i + 1, so the first j items take slots 0 to j - 1 in
/// 2 to the power j - 1 ways; the last item's slots choose which of these numbers are added up. With two plans or more
/// every item has several slots and every slot several items.
pub fn with_count(count: u64, random: &mut Random) -> Vec<u64> {
    let last = (count - 1) << 1 | 1;
    let n = 64 - last.leading_zeros() as usize;
    let table = (1..n).map(|item| low(item + 1)).chain([last]).collect();
    scrambled(table, random)
}
