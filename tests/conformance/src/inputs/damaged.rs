//! Files with faults: the length, a check, the layout, the cells, and several at once.

use super::refused;
use crate::random::Random;
use crate::reference::rota_file::{bytes_of, set_checks, BLOCK, CHECK, ITEMS_IN_BLOCK};

/// Faults that a file may be given, as bits.
pub const SLOT_OUTSIDE: usize = 1 << 2;
pub const CALLOUT_ON_CLOSED: usize = 1 << 3;
pub const LAYOUT: usize = 1 << 4;
pub const WRONG_CHECK: usize = 1 << 5;
pub const LENGTH: usize = 1 << 6;

pub const LAYOUT_KINDS: usize = 11;

/// A file with all the faults asked for.
pub fn file(n: usize, faults: usize, random: &mut Random) -> Vec<u8> {
    let tables = refused::tables(n, faults & (SLOT_OUTSIDE | CALLOUT_ON_CLOSED), random);
    let mut file = bytes_of(&tables);
    if faults & LAYOUT != 0 {
        let kind = random.below(LAYOUT_KINDS);
        misplace(kind, &mut file, random);
    }
    if faults & WRONG_CHECK != 0 {
        let block = random.below(file.len() / BLOCK);
        let at = block * BLOCK + CHECK + random.below(2);
        file[at] ^= 1 << random.below(8);
    }
    if faults & LENGTH != 0 {
        let length = wrong_length(file.len(), random);
        file.resize_with(length, || random.byte());
    }
    file
}

fn wrong_length(length: usize, random: &mut Random) -> usize {
    match random.below(6) {
        0 => length - 1,
        1 => length + 1,
        2 => random.below(BLOCK),
        3 => 3 * BLOCK + 1 + random.below(2 * BLOCK),
        4 => 4 * BLOCK,
        _ => length + 1 + random.below(BLOCK - 1),
    }
}

/// Changes one part of the layout, with the checks made right again.
pub fn misplace(kind: usize, file: &mut Vec<u8>, random: &mut Random) {
    let blocks = file.len() / BLOCK;
    let at = BLOCK * random.below(blocks);
    let n = usize::from(file[5]);
    let other = 1 + random.below(255) as u8;
    match kind {
        0 => file[at + random.below(4)] ^= other,
        1 => file[at + 4] ^= other,
        2 => every_n(file, random.pick(&[0, 65, 66, 95, 96, 128, 255])),
        3 => file[at + 5] ^= other,
        4 => file[at + 6] ^= other,
        5 => file[at + 7] ^= other,
        6 => file[at + 8 + random.below(6)] ^= other,
        7 => unused_place(file, n, other, random),
        8 => exchange_blocks(file, random),
        9 => other_number_of_blocks(file, n, random),
        _ => every_n(file, 1 + random.below(64) as u8),
    }
    set_checks(file);
}

/// Another n in all blocks, with the numbers of items in them to match.
fn every_n(file: &mut [u8], n: u8) {
    for (number, block) in file.chunks_exact_mut(BLOCK).enumerate() {
        block[5] = n;
        block[7] = usize::from(n).saturating_sub(number * ITEMS_IN_BLOCK).min(ITEMS_IN_BLOCK) as u8;
    }
}

/// A byte in the last block's unused places; if it has none, one of the header's zeros.
fn unused_place(file: &mut [u8], n: usize, value: u8, random: &mut Random) {
    let last = (file.len() / BLOCK - 1) * BLOCK;
    let from = last + 14 + 16 * n.saturating_sub((file.len() / BLOCK - 1) * ITEMS_IN_BLOCK).min(ITEMS_IN_BLOCK);
    let unused = (last + CHECK).saturating_sub(from);
    let at = if unused == 0 { last + 8 + random.below(6) } else { from + random.below(unused) };
    file[at] ^= value;
}

/// Two blocks change places; a single one takes another number.
fn exchange_blocks(file: &mut [u8], random: &mut Random) {
    let blocks = file.len() / BLOCK;
    if blocks == 1 {
        file[6] = 1 + random.below(3) as u8;
        return;
    }
    let one = random.below(blocks);
    let other = (one + 1) % blocks;
    for at in 0..BLOCK {
        file.swap(one * BLOCK + at, other * BLOCK + at);
    }
}

/// A block more, empty but for its header, or fewer blocks; still one to three.
fn other_number_of_blocks(file: &mut Vec<u8>, n: usize, random: &mut Random) {
    let blocks = file.len() / BLOCK;
    let wanted = (blocks + random.below(2)) % 3 + 1;
    file.truncate(wanted * BLOCK);
    for number in file.len() / BLOCK..wanted {
        let mut block = vec![b'R', b'O', b'T', b'A', 1, n as u8, number as u8, 0];
        block.resize(BLOCK, 0);
        file.extend(block);
    }
}
