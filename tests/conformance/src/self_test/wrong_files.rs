//! Wrong libraries that come near: files, tables of wrong lengths.

use super::faults::{success, Fault};
use super::mock::Reply;
use crate::reference::answers::Call;
use crate::reference::rota_file::{check_of, misplaced, tables_in, Part, BLOCK, CHECK, PARTS};
use Call::*;

pub fn faults() -> Vec<Fault> {
    let damaged = layout_faults().into_iter().chain(block_faults()).map(|fault| fault.found_by("damage"));
    let written = read_and_write_faults().into_iter().map(|fault| fault.found_by("files"));
    damaged.chain(written).chain(plan_buffer_faults()).chain(table_faults()).collect()
}

/// A part of the layout that is not tested: files with this fault alone get what follows 14.
fn layout_faults() -> Vec<Fault> {
    let untested = |call: Call, part: Part| {
        Fault::of(call, &format!("{part:?} not tested"), move |input, reply| {
            let alone = |file: &[u8]| PARTS.iter().all(|&other| other == part || !misplaced(other, file));
            if reply.code == 14 && alone(input.file) {
                reply.code = 0;
            }
        })
    };
    PARTS.iter().flat_map(|&part| [untested(ReadFile, part), untested(FileFirstPlan, part)]).collect()
}

fn check_right(block: &[u8]) -> bool {
    block[CHECK..] == check_of(block).to_le_bytes()
}

fn block_faults() -> Vec<Fault> {
    vec![
        Fault::of(ReadFile, "the first block's check alone", |input, reply| {
            if reply.code == 13 && check_right(&input.file[..BLOCK]) {
                reply.code = 14;
            }
        }),
        Fault::of(ReadFile, "the last block's check alone", |input, reply| {
            if reply.code == 13 && check_right(&input.file[input.file.len() - BLOCK..]) {
                reply.code = 14;
            }
        }),
        Fault::of(ReadFile, "the check's high byte not tested", |input, reply| {
            let low = |block: &[u8]| block[CHECK] == check_of(block).to_le_bytes()[0];
            if reply.code == 13 && input.file.chunks_exact(BLOCK).all(low) {
                reply.code = 14;
            }
        }),
        success(ReadFile, "a sum above 65,535 refused", |input, reply| {
            let sum = |block: &[u8]| block[..CHECK].iter().map(|&byte| u32::from(byte)).sum::<u32>();
            if input.file.chunks_exact(BLOCK).any(|block| sum(block) > 65_535) {
                *reply = Reply::right(input, 13);
            }
        }),
        Fault::of(ReadFile, "each block's layout tested with its check", |input, reply| {
            let first = &input.file.get(..BLOCK);
            let marked = first.is_some_and(|block| check_right(block) && (block[..4] != *b"ROTA" || block[4] != 1));
            if reply.code == 13 && marked {
                reply.code = 14;
            }
        }),
        Fault::of(ReadFile, "each block's cells tested with its layout", |input, reply| {
            let parts = PARTS.iter().filter(|&&part| part != Part::NumberOfBlocks);
            let placed = |file: &[u8]| parts.clone().all(|&part| !misplaced(part, &file[..BLOCK]));
            let outside = |file: &[u8]| tables_in(file).opens.iter().take(31).any(|open| open >> (file[5] % 64) != 0);
            if reply.code == 14 && placed(input.file) && input.file[5] < 64 && outside(input.file) {
                reply.code = 3;
            }
        }),
    ]
}

fn read_and_write_faults() -> Vec<Fault> {
    vec![
        success(ReadFile, "open and callout words exchanged", |_, reply| {
            std::mem::swap(&mut reply.words, &mut reply.more_words);
        }),
        success(ReadFile, "items from 31 on left out", |_, reply| reply.words.truncate(31)),
        success(WriteFile, "words high byte first", |input, reply| {
            for (item, word) in input.known.tables.opens.iter().take(31).enumerate() {
                reply.bytes[14 + 16 * item..22 + 16 * item].copy_from_slice(&word.to_be_bytes());
            }
        }),
        success(WriteFile, "unused places kept", |input, reply| {
            if input.known.n() < 31 {
                reply.bytes[CHECK - 1] = 1;
            }
        }),
        success(WriteFile, "31 items in two blocks", |input, reply| {
            reply.number += if input.known.n() == 31 { 512 } else { 0 };
        }),
        success(WriteFile, "the third block's number", |_, reply| {
            if let Some(byte) = reply.bytes.get_mut(2 * BLOCK + 6) {
                *byte = 1;
            }
        }),
        Fault::of(WriteFile, "longer outputs refused", |input, reply| {
            if reply.code == 0 && input.room[0] > input.needed() {
                *reply = Reply::right(input, 15);
            }
        }),
        Fault::of(ReadFile, "a length cut to 16 bits", |input, reply| {
            if reply.code == 12 && [512, 1_024, 1_536].contains(&(input.file.len() % 65_536)) {
                reply.code = 13;
            }
        }),
    ]
}

fn plan_buffer_faults() -> Vec<Fault> {
    vec![
        Fault::of(FileNextPlan, "a buffer of 65 bytes refused", |input, reply| {
            if reply.code != 15 && input.room[0] == 65 {
                *reply = Reply::right(input, 15);
            }
        }),
        success(FileFewestCallouts, "the first plan", |input, reply| {
            reply.bytes = input.known.first().expect("a plan").to_vec();
        }),
        success(FileFirstPlan, "the last plan", |input, reply| {
            reply.bytes = input.known.last().expect("a plan").to_vec();
        }),
    ]
}

fn table_faults() -> Vec<Fault> {
    let longer = |call: Call| {
        Fault::of(call, "longer tables accepted", |input, reply| {
            let tables = &input.known.tables;
            if reply.code == 2 && tables.opens.len() >= tables.n && tables.callouts.len() >= tables.n {
                reply.code = 0;
            }
        })
    };
    let short = |call: Call| {
        Fault::of(call, "the callout table's length not tested", |input, reply| {
            if reply.code == 2 && input.known.tables.opens.len() == input.known.n() {
                reply.code = 0;
            }
        })
    };
    let each = |call: Call| {
        Fault::of(call, "3 and 4 tested item by item", |input, reply| {
            let tables = &input.known.tables;
            let outside = |open: &u64| tables.n < 64 && open >> tables.n != 0;
            let mut items = tables.opens.iter().zip(&tables.callouts);
            let first = items.find(|(open, callout)| outside(open) || *callout & !*open != 0);
            if reply.code == 3 && first.is_some_and(|(open, _)| !outside(open)) {
                reply.code = 4;
            }
        })
    };
    let n = |call: Call| {
        Fault::of(call, "n cut to 32 bits", |input, reply| {
            if reply.code == 1 && (1..=64).contains(&(input.known.n() % (1 << 32))) {
                reply.code = 2;
            }
        })
    };
    let on_tables = [
        FirstPlan,
        NextPlan,
        ListPlan,
        FewestCallouts,
        UsableSlots,
        CellPlan,
        PlanSheet,
        CountPlans,
        Grade,
        MonthlyPrice,
        WriteFile,
    ];
    let mut list: Vec<Fault> =
        on_tables.iter().flat_map(|&call| [longer(call), short(call), each(call), n(call)]).collect();
    list.extend([ReadFile, FileFirstPlan, FileNextPlan, FileFewestCallouts].map(each));
    list
}
