//! Tables that are refused with 1 to 4, with one fault or several at once.

use super::families;
use crate::random::Random;
use crate::rota::{has, low, Tables};

/// Numbers of items that are refused; some are accepted ones once cut to 8, 16 or 32 bits.
const WRONG_N: [usize; 12] =
    [0, 65, 66, 100, 128, 256 + 3, 65_536 + 2, (1 << 32) + 1, (1 << 32) + 20, 1 << 63, usize::MAX - 1, usize::MAX];

/// Accepted tables with faults put in: bit k - 1 of `faults` asks for refusal k's fault.
pub fn tables(n: usize, faults: usize, random: &mut Random) -> Tables {
    with_faults(families::any(n, random), faults, random)
}

pub fn with_faults(mut tables: Tables, faults: usize, random: &mut Random) -> Tables {
    if has(faults as u64, 2) {
        slot_outside(&mut tables, random);
    }
    if has(faults as u64, 3) {
        callout_on_closed(&mut tables, random);
    }
    if has(faults as u64, 1) {
        wrong_length(&mut tables, random);
    }
    if has(faults as u64, 0) {
        wrong_n(&mut tables, random);
    }
    tables
}

/// With n = 64 every slot is inside, so one item goes first.
fn slot_outside(tables: &mut Tables, random: &mut Random) {
    if tables.n == 64 {
        *tables = families::any(63, random);
    }
    let slot = if random.chance(1, 2) { tables.n } else { tables.n + random.below(64 - tables.n) };
    let item = random.below(tables.n);
    tables.opens[item] |= 1 << slot;
    if random.chance(1, 2) {
        tables.callouts[item] |= 1 << slot;
    }
}

/// On a closed cell inside the rota, or beyond it.
fn callout_on_closed(tables: &mut Tables, random: &mut Random) {
    let (item, slot) = (random.below(tables.n), random.below(64));
    let slot = if random.chance(1, 2) { slot % tables.n } else { slot };
    tables.opens[item] &= !(1 << slot);
    tables.callouts[item] |= 1 << slot;
}

fn wrong_length(tables: &mut Tables, random: &mut Random) {
    let other = |n: usize, random: &mut Random| match random.below(5) {
        0 => n + 1,
        1 => n - 1,
        2 => 0,
        3 => n + 1 + random.below(300),
        _ => random.below(n),
    };
    let which = random.below(3);
    if which != 1 {
        let length = other(tables.n, random);
        tables.opens.resize_with(length, || random.word() & low(tables.n));
    }
    if which != 0 {
        let length = other(tables.n, random);
        tables.callouts.resize_with(length, || random.word() & low(tables.n));
    }
}

/// Mostly the tables stay as they are; for a few small numbers they are made as long as n says.
fn wrong_n(tables: &mut Tables, random: &mut Random) {
    let n = random.pick(&WRONG_N);
    if n <= 128 && random.chance(1, 2) {
        tables.opens.resize(n, 1);
        tables.callouts.resize(n, 0);
    }
    tables.n = n;
}
