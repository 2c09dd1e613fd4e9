//! Rotas with a wanted number of plans by what is usable: with a brittle item and without, with open cells that no plan uses and
//! without.

use super::families::{scrambled, with_count};
use crate::random::Random;
use crate::reference::matching;
use crate::rota::{low, slots_of, Tables};

/// Items and slots that go together: the number of plans and the open words.
pub type Block = (u64, Vec<u64>);

#[derive(Clone, Copy, PartialEq, Eq, Debug)]
pub enum Kind {
    /// No brittle item, every open cell usable.
    AllUsable,
    /// No brittle item, and open cells that no plan uses.
    SpareCells,
    /// A brittle item with several open slots; no item has just one.
    SeveralOpen,
    /// Two brittle items with several open slots each; no item has just one.
    TwoBrittle,
    /// A brittle item with several open slots, and its slot is open to several items; no item has just one open slot, and no
    /// slot just one item.
    Between,
    /// A brittle item with one open slot, every open cell usable.
    OneOpen,
    /// A brittle item with one open slot, which is open to other items too.
    OneOpenShared,
}

use Kind::*;

pub const KINDS: [Kind; 7] = [AllUsable, SpareCells, SeveralOpen, TwoBrittle, Between, OneOpen, OneOpenShared];

impl Kind {
    /// With two plans or more: how many items are brittle, how many have just one open slot.
    pub fn items(self) -> (usize, usize) {
        match self {
            AllUsable | SpareCells => (0, 0),
            SeveralOpen | Between => (1, 0),
            TwoBrittle => (2, 0),
            OneOpen | OneOpenShared => (1, 1),
        }
    }

    /// How many blocks without a brittle item it is made of.
    pub fn blocks(self) -> usize {
        match self {
            SpareCells | Between => 2,
            _ => 1,
        }
    }

    /// Whether some open cell is not usable.
    pub fn differs(self) -> bool {
        ![AllUsable, OneOpen].contains(&self)
    }

    /// Whether there are rotas of this kind with so many plans. An open cell that no plan uses joins two blocks of items and slots,
    /// the plans are the product of the blocks' plans, and a block with one plan is a brittle item: two blocks without one need
    /// a count with two factors, and neither 1 nor a prime has them. With one plan every item is brittle, and some item has one
    /// open slot.
    pub fn exists(self, count: u64) -> bool {
        match self {
            AllUsable | SeveralOpen | TwoBrittle => count > 1,
            SpareCells | Between => !factors(count).is_empty(),
            OneOpen | OneOpenShared => true,
        }
    }
}

/// The kinds with a brittle item.
pub const BRITTLE: [Kind; 5] = [SeveralOpen, TwoBrittle, Between, OneOpen, OneOpenShared];

/// Seven items with 1,000 and with 1,001 plans: every open cell is usable, and no item brittle. Six items have 720 plans at most.
pub const SEVEN: [(u64, [u64; 7]); 2] =
    [(1_000, [126, 123, 111, 47, 125, 23, 63]), (1_001, [126, 103, 127, 117, 125, 123, 75])];

/// The same of 16 items with one plan more than 2 to the power 32.
pub const SIXTEEN: (u64, [u64; 16]) = (
    (1 << 32) + 1,
    [
        64_998, 16_111, 55_613, 30_386, 63_773, 62_631, 60_724, 6_502, 52_955, 39_863, 44_294, 2_974, 36_063, 28_094,
        12_441, 64_760,
    ],
);

/// The numbers other than 1 and the count that divide it: none if it is 1 or a prime.
pub fn factors(count: u64) -> Vec<u64> {
    (2..count).filter(|factor| count % factor == 0).collect()
}

/// The open words of a rota of this kind, which exists, with so many plans. Items and slots are in random order.
pub fn rota(kind: Kind, count: u64, random: &mut Random) -> Vec<u64> {
    let blocks = match kind.blocks() {
        2 => {
            let factor = random.pick(&factors(count));
            vec![with_count(factor, random), with_count(count / factor, random)]
        }
        _ => vec![with_count(count, random)],
    };
    of_blocks(kind, blocks, random)
}

/// The same from its blocks, as many as the kind has.
pub fn of_blocks(kind: Kind, mut blocks: Vec<Vec<u64>>, random: &mut Random) -> Vec<u64> {
    let item = vec![1];
    match kind {
        AllUsable | SpareCells => {}
        SeveralOpen => blocks.push(item),
        TwoBrittle => blocks.extend([item.clone(), item]),
        Between => blocks.insert(1, item),
        OneOpen | OneOpenShared => blocks.insert(0, item),
    }
    scrambled(joined(&blocks, kind != OneOpen, random), random)
}

/// A block with every cell open.
pub fn full(items: usize) -> Block {
    ((1..=items as u64).product(), vec![low(items); items])
}

/// So many items with as many plans as before. Each turn an item gives up an open slot for a further one, and a further item has both:
/// it takes the old slot in plans that gave it to the item, the further one in the others. If no item was brittle, none is.
pub fn lengthened(mut opens: Vec<u64>, items: usize, random: &mut Random) -> Vec<u64> {
    while opens.len() < items {
        let (item, further) = (random.below(opens.len()), opens.len());
        let slot = random.pick(&slots_of(opens[item]));
        opens[item] ^= 1 << slot | 1 << further;
        opens.push(1 << slot | 1 << further);
    }
    opens
}

/// Items and slots in cycles of these sizes, each of which has two plans; a cycle of one is a brittle item.
pub fn cycles(sizes: &[usize], random: &mut Random) -> Vec<u64> {
    let cycle = |&size: &usize| (0..size).map(|item| 1 << item | 1 << ((item + 1) % size)).collect();
    let blocks: Vec<Vec<u64>> = sizes.iter().map(cycle).collect();
    scrambled(joined(&blocks, true, random), random)
}

/// Blocks along the diagonal; with `spare`, each item may also use some slots of the blocks before its own, among them the last
/// one. No plan does: the slots of the first blocks are just enough for their items.
fn joined(blocks: &[Vec<u64>], spare: bool, random: &mut Random) -> Vec<u64> {
    let mut opens = vec![];
    for block in blocks {
        let start = opens.len();
        for word in block {
            let before = if spare && start > 0 { random.word() & low(start) | 1 << (start - 1) } else { 0 };
            opens.push(word << start | before);
        }
    }
    opens
}

/// The rota with two items exchanged, so that the first brittle one, if there is any, stands at this place of n.
pub fn placed(mut opens: Vec<u64>, place: fn(usize) -> usize) -> Vec<u64> {
    let usable = matching::usable(&Tables::open(&opens));
    if let Some(item) = usable.iter().position(|word| word.count_ones() == 1) {
        let n = opens.len();
        opens.swap(item, place(n));
    }
    opens
}
