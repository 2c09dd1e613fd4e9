//! Damaged files: every byte of files of one, two and three blocks, every value of every header byte, every kind of misplaced
//! part.

use super::battery;
use crate::checks::KnownFile;
use crate::inputs::families::{self, Callouts, Family};
use crate::inputs::{damaged, given};
use crate::random::Random;
use crate::reference::rota_file::{bytes_of, set_checks, BLOCK, CHECK};
use crate::session::{Outcome, Session};

/// Files of one, two and three blocks, full and not. In the last one the bytes of a block add up to more than 65,535.
const FILES: [(usize, Family, Callouts); 6] = [
    (3, Family::Half, Callouts::Some),
    (31, Family::SevenEighths, Callouts::Most),
    (40, Family::Half, Callouts::Some),
    (62, Family::SevenEighths, Callouts::Few),
    (64, Family::Half, Callouts::Some),
    (64, Family::Full, Callouts::All),
];

pub fn run(session: &mut Session, random: &mut Random) -> Outcome {
    for (n, family, callouts) in FILES {
        let good = bytes_of(&families::rota(family, callouts, n, random));
        every_byte(session, &good, random)?;
        every_header_value(session, &good)?;
    }
    every_n(session, random)?;
    misplaced_parts(session, random)?;
    faults_in_two_blocks(session, random)
}

/// Reads a damaged file twice: with its check as it was, and made right.
fn read_both(session: &mut Session, damaged: Vec<u8>) -> Outcome {
    let mut corrected = damaged.clone();
    set_checks(&mut corrected);
    session.read_file(&KnownFile::new(damaged), [64, 64])?;
    session.read_file(&KnownFile::new(corrected), [64, 64])
}

/// Each byte with each bit changed, as 0, as 255 and as something else; for some of them the download program's calls too.
fn every_byte(session: &mut Session, good: &[u8], random: &mut Random) -> Outcome {
    for at in 0..good.len() {
        let flips = (0..8).map(|bit| good[at] ^ 1 << bit);
        for value in flips.chain([0, 255, random.byte()]) {
            let mut damaged = good.to_vec();
            damaged[at] = value;
            read_both(session, damaged)?;
        }
        if at % 8 == 0 {
            let mut damaged = good.to_vec();
            damaged[at] ^= 1 << random.below(8);
            if random.chance(3, 4) {
                set_checks(&mut damaged);
            }
            plans_from(session, damaged, random)?;
        }
    }
    Ok(())
}

fn plans_from(session: &mut Session, bytes: Vec<u8>, random: &mut Random) -> Outcome {
    let file = KnownFile::new(bytes);
    let junk = given::random_bytes(random);
    let room = random.pick(&battery::PLAN_ROOMS);
    session.file_first_plan(&file, &junk, room)?;
    session.file_next_plan(&file, &junk, room)?;
    session.file_fewest_callouts(&file, &junk, room, 64)
}

/// Every value of bytes 0 to 13 of each block.
fn every_header_value(session: &mut Session, good: &[u8]) -> Outcome {
    for start in (0..good.len()).step_by(BLOCK) {
        for at in start..start + 14 {
            for value in 0..=255 {
                let mut damaged = good.to_vec();
                damaged[at] = value;
                read_both(session, damaged)?;
            }
        }
    }
    Ok(())
}

/// Every n in all blocks of files with one, two and three, with the items in each block to match and not.
fn every_n(session: &mut Session, random: &mut Random) -> Outcome {
    for size in [1, 31, 32, 62, 63, 64] {
        for family in [Family::Full, Family::Empty] {
            let good = bytes_of(&families::rota(family, Callouts::No, size, random));
            for n in 0..=255u8 {
                let mut damaged = good.clone();
                for (number, block) in damaged.chunks_exact_mut(BLOCK).enumerate() {
                    block[5] = n;
                    if n % 2 == 0 || random.chance(3, 4) {
                        block[7] = n.saturating_sub(31 * number as u8).min(31);
                    }
                }
                read_both(session, damaged)?;
            }
        }
    }
    Ok(())
}

/// A fault in one block and another kind of fault in another block: each number is tested over the whole file before the next.
fn faults_in_two_blocks(session: &mut Session, random: &mut Random) -> Outcome {
    for n in [32, 40, 62, 63, 64] {
        let good = bytes_of(&families::rota(Family::Half, Callouts::Some, n, random));
        let blocks = good.len() / BLOCK;
        for (one, other) in (0..blocks).flat_map(|one| (0..blocks).map(move |other| (one, other))) {
            for at in 0..14 {
                let mut checked = good.clone();
                checked[one * BLOCK + at] ^= 1 << random.below(8);
                set_checks(&mut checked);
                checked[other * BLOCK + CHECK + at % 2] ^= 1 << random.below(8);
                session.read_file(&KnownFile::new(checked), [64, 64])?;
                let mut cells = good.clone();
                cells[one * BLOCK + at] ^= 1 << random.below(8);
                // The first item of the block: a slot at 63, or a callout on a closed cell.
                let item = other * BLOCK + 14;
                cells[item + 7 + 8 * random.below(2)] ^= 1 << 7;
                set_checks(&mut cells);
                session.read_file(&KnownFile::new(cells), [64, 64])?;
            }
        }
        cells_in_two_blocks(session, &good, random)?;
    }
    Ok(())
}

/// A callout on a closed cell in one block, a slot outside in the other.
fn cells_in_two_blocks(session: &mut Session, good: &[u8], random: &mut Random) -> Outcome {
    for (one, other) in [(0, 1), (1, 0)] {
        let mut cells = good.to_vec();
        cells[one * BLOCK + 14 + 8..one * BLOCK + 14 + 16].fill(255);
        cells[other * BLOCK + 14..other * BLOCK + 14 + 8].fill(255);
        set_checks(&mut cells);
        session.read_file(&KnownFile::new(cells.clone()), [64, 64])?;
        plans_from(session, cells, random)?;
    }
    Ok(())
}

/// Each kind of misplaced part, for every size; alone, then with a fault of the cells.
fn misplaced_parts(session: &mut Session, random: &mut Random) -> Outcome {
    for n in 1..=64 {
        for kind in 0..damaged::LAYOUT_KINDS {
            for faults in [0, damaged::SLOT_OUTSIDE, damaged::CALLOUT_ON_CLOSED] {
                let mut bytes = damaged::file(n, faults, random);
                damaged::misplace(kind, &mut bytes, random);
                session.read_file(&KnownFile::new(bytes.clone()), [64, 64])?;
                plans_from(session, bytes, random)?;
            }
        }
    }
    Ok(())
}
