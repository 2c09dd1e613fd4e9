//! The plan calls on a rota file's bytes and a plan buffer, whose first 64 bytes hold a plan's record. A refusal by the file's own tests
//! comes first, then that for the buffer's room, then the search's; an accepted file's tables need no further test.

use crate::records::Plan;
use crate::same::file_reading::FileRota;
use crate::same::model::Edition;
use crate::same::{file_reading, least, min_cost, next};

// The rota in a file, for a plan buffer of so many bytes: the file's refusals, then 15.
fn rota_for(edition: Edition, file: &[u8], places: usize) -> FileRota {
    let found = file_reading::rota_in(edition, file);
    if found.code != 0 {
        return found;
    }
    if places < 64 {
        return file_reading::no_rota(15);
    }
    found
}

// The plan in a buffer.
fn plan_in(buffer: &[u8]) -> Plan {
    let mut slots = [0u8; 64];
    slots.copy_from_slice(&buffer[0..64]);
    Plan { slots }
}

// Writes an answer's record if its number is 0, and gives the number.
fn store_plan(code: u32, slots: [u8; 64], buffer: &mut [u8]) -> u32 {
    if code != 0 {
        return code;
    }
    buffer[0..64].copy_from_slice(&slots);
    0
}

// The first plan of the rota in a file, into a plan buffer.
pub fn rota_file_first_plan(file: &[u8], plan: &mut [u8]) -> u32 {
    let found = rota_for(Edition::One, file, plan.len());
    if found.code != 0 {
        return found.code;
    }
    let a = least::first_plan(&found.opens[..found.n]);
    store_plan(a.code, a.plan.slots, plan)
}

// The plan after the one in the buffer, into the buffer.
pub fn rota_file_next_plan(file: &[u8], plan: &mut [u8]) -> u32 {
    let found = rota_for(Edition::One, file, plan.len());
    if found.code != 0 {
        return found.code;
    }
    let a = next::next_plan(&found.opens[..found.n], plan_in(plan));
    store_plan(a.code, a.plan.slots, plan)
}

// The first plan with the fewest callouts of the rota in a file, if these are at most `cap`, into a plan buffer.
pub fn rota_file_fewest_callouts(file: &[u8], plan: &mut [u8], cap: u32) -> u32 {
    let found = rota_for(Edition::One, file, plan.len());
    if found.code != 0 {
        return found.code;
    }
    let n = found.n;
    let a = min_cost::fewest_plan(&found.opens[..n], &found.callouts[..n], cap);
    store_plan(a.code, a.plan.slots, plan)
}
