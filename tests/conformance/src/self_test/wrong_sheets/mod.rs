//! Wrong libraries that come near: plan sheets.

mod entries;
mod given;
mod lines;
mod pages;

use super::faults::Fault;
use super::mock::Reply;
use crate::reference::answers::{Call, Input};
use crate::reference::sheet::LINE;
use crate::rota::Plan;
pub use given::{all_slots, inside, open_cells, without};
use Call::PlanSheet;

/// The bytes of a sheet of 64 items.
const LONGEST: usize = 65 * LINE;

pub fn faults() -> Vec<Fault> {
    let printed = [lines::all(), entries::all(), pages::lengths(), given::all()];
    let found = printed.into_iter().flatten().map(|fault| fault.found_by("sheets"));
    let refused = pages::refused().into_iter().map(|fault| fault.found_by("refusals"));
    let told = told_apart().into_iter().map(|fault| fault.found_by("apart"));
    found.chain(refused).chain(told).collect()
}

/// A fault of the successes.
fn success(name: &str, change: impl Fn(&Input, &mut Reply) + Send + Sync + 'static) -> Fault {
    Fault::of(PlanSheet, name, move |input, reply| {
        if reply.code == 0 {
            change(input, reply);
        }
    })
}

/// A change of each item's line.
fn item_lines(name: &str, change: impl Fn(&Input, usize, &mut [u8]) + Send + Sync + 'static) -> Fault {
    success(name, move |input, reply| {
        reply.bytes.chunks_mut(LINE).skip(1).enumerate().for_each(|(item, line)| change(input, item, line));
    })
}

/// Puts a text at the beginning.
fn begin(line: &mut [u8], text: &str) {
    line[..text.len()].copy_from_slice(text.as_bytes());
}

/// The sheet of another plan, which may be none of this rota.
fn sheet_of(input: &Input, given: Plan) -> Vec<u8> {
    Input { given, ..Input::new(PlanSheet, input.known) }.sheet(0)
}

/// The same page for plans that differ, and two pages for plans that agree.
fn told_apart() -> Vec<Fault> {
    vec![
        item_lines("pages without slots", |_, _, line| line[6..8].fill(b' ')),
        item_lines("pages with the first digit of slots", |_, _, line| {
            line[7] = if line[6] == b' ' { line[7] } else { b'*' };
        }),
        item_lines("pages with slots from 32 on alike", |input, item, line| {
            if input.given[item] >= 32 {
                begin(&mut line[6..], "32");
            }
        }),
        item_lines("pages without the last mark", |input, item, line| {
            line[12] = if item + 1 == input.known.n() { b' ' } else { line[12] };
        }),
        success("pages with the marks in the first lines", |input, reply| {
            let callouts = input.known.tables.callouts_of(&input.given) as usize;
            for (item, line) in reply.bytes.chunks_mut(LINE).skip(1).enumerate() {
                line[12] = if item < callouts { b'C' } else { b' ' };
            }
        }),
        success("pages with slots and marks in no order", |_, reply| {
            let mut lines: Vec<Vec<u8>> = reply.bytes.chunks(LINE).skip(1).map(|line| line[6..].to_vec()).collect();
            lines.sort();
            let ends = reply.bytes.chunks_mut(LINE).skip(1);
            ends.zip(lines).for_each(|(line, end)| line[6..].copy_from_slice(&end));
        }),
        item_lines("pages with the number of callouts", |input, item, line| {
            line[13] = b'0' + input.known.tables.callouts[item].count_ones() as u8;
        }),
        item_lines("pages with the number of open slots", |input, item, line| {
            line[13] = b'0' + input.known.tables.opens[item].count_ones() as u8;
        }),
        success("pages with item 0's line as it was", |_, reply| reply.kept = (LINE..2 * LINE).collect()),
    ]
}
