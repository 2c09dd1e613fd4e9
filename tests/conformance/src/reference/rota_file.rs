//! The rota file, byte by byte from document 01.

use crate::rota::Tables;

pub const BLOCK: usize = 512;
pub const ITEMS_IN_BLOCK: usize = 31;
const FIRST_ITEM: usize = 14;
const ITEM: usize = 16;
pub const CHECK: usize = 510;

/// One block up to 31 items, two up to 62, three up to 64.
pub fn blocks_for(n: usize) -> usize {
    match n {
        0..=31 => 1,
        32..=62 => 2,
        _ => 3,
    }
}

/// The sum of bytes 0 to 509 modulo 65,536.
pub fn check_of(block: &[u8]) -> u16 {
    let sum: u32 = block[..CHECK].iter().map(|&byte| u32::from(byte)).sum();
    (sum % 65_536) as u16
}

/// Puts the right check into a block.
pub fn set_check(block: &mut [u8]) {
    let check = check_of(block);
    block[CHECK..BLOCK].copy_from_slice(&check.to_le_bytes());
}

/// Puts the right check into every whole block.
pub fn set_checks(file: &mut [u8]) {
    file.chunks_exact_mut(BLOCK).for_each(set_check);
}

/// The file of an accepted rota.
pub fn bytes_of(rota: &Tables) -> Vec<u8> {
    let mut file = vec![];
    for number in 0..blocks_for(rota.n) {
        let items: Vec<usize> = (0..rota.n).skip(number * ITEMS_IN_BLOCK).take(ITEMS_IN_BLOCK).collect();
        let mut block = b"ROTA".to_vec();
        block.extend([1, rota.n as u8, number as u8, items.len() as u8]);
        block.extend([0; 6]);
        for item in items {
            block.extend(rota.opens[item].to_le_bytes());
            block.extend(rota.callouts[item].to_le_bytes());
        }
        block.resize(BLOCK, 0);
        set_check(&mut block);
        file.extend(block);
    }
    file
}

pub fn length_wrong(file: &[u8]) -> bool {
    ![BLOCK, 2 * BLOCK, 3 * BLOCK].contains(&file.len())
}

pub fn some_check_wrong(file: &[u8]) -> bool {
    file.chunks_exact(BLOCK).any(|block| block[CHECK..] != check_of(block).to_le_bytes())
}

/// What a file's layout says, each part a test of its own.
#[derive(Clone, Copy, PartialEq, Eq, Debug)]
pub enum Part {
    Mark,
    Edition,
    NumberOfItems,
    SameNumberOfItems,
    NumberOfBlocks,
    BlockNumber,
    ItemsInBlock,
    HeaderZeros,
    UnusedPlaces,
}

pub const PARTS: [Part; 9] = [
    Part::Mark,
    Part::Edition,
    Part::NumberOfItems,
    Part::SameNumberOfItems,
    Part::NumberOfBlocks,
    Part::BlockNumber,
    Part::ItemsInBlock,
    Part::HeaderZeros,
    Part::UnusedPlaces,
];

/// Whether one part of the layout is not as laid out, in a file of one to three whole blocks.
pub fn misplaced(part: Part, file: &[u8]) -> bool {
    let n = usize::from(file[5]);
    let mut blocks = file.chunks_exact(BLOCK).enumerate();
    let items = |number: usize| n.saturating_sub(number * ITEMS_IN_BLOCK).min(ITEMS_IN_BLOCK);
    match part {
        Part::Mark => blocks.any(|(_, block)| block[..4] != *b"ROTA"),
        Part::Edition => blocks.any(|(_, block)| block[4] != 1),
        Part::NumberOfItems => !(1..=64).contains(&n),
        Part::SameNumberOfItems => blocks.any(|(_, block)| usize::from(block[5]) != n),
        Part::NumberOfBlocks => blocks.count() != blocks_for(n),
        Part::BlockNumber => blocks.any(|(number, block)| usize::from(block[6]) != number),
        Part::ItemsInBlock => blocks.any(|(number, block)| usize::from(block[7]) != items(number)),
        Part::HeaderZeros => blocks.any(|(_, block)| block[8..FIRST_ITEM].iter().any(|&byte| byte != 0)),
        Part::UnusedPlaces => blocks.any(|(number, block)| {
            let unused = FIRST_ITEM + ITEM * items(number);
            block[unused..CHECK].iter().any(|&byte| byte != 0)
        }),
    }
}

pub fn layout_wrong(file: &[u8]) -> bool {
    file.len() < BLOCK || PARTS.iter().any(|&part| misplaced(part, file))
}

fn word_at(bytes: &[u8]) -> u64 {
    bytes[..8].iter().rev().fold(0, |word, &byte| word << 8 | u64::from(byte))
}

/// The tables in a file that is laid out as it should be; of any other, as many whole items as n says and the blocks hold.
pub fn tables_in(file: &[u8]) -> Tables {
    let n = file.get(5).map_or(0, |&byte| usize::from(byte).min(64));
    let places = file.chunks_exact(BLOCK).flat_map(|block| block[FIRST_ITEM..CHECK].chunks_exact(ITEM));
    let items: Vec<&[u8]> = places.take(n).collect();
    let opens = items.iter().map(|item| word_at(item)).collect();
    let callouts = items.iter().map(|item| word_at(&item[8..])).collect();
    Tables { n, opens, callouts }
}
