//! The plan sheet as text: a heading and a line for each item, 31 columns and a line feed each.

use crate::rota::{Plan, Tables};
use std::fmt::Display;

pub const LINE: usize = 32;

/// The bytes of the sheet of so many items, which may be any number.
pub fn bytes_for(n: usize) -> usize {
    n.saturating_add(1).saturating_mul(LINE)
}

fn line(item: impl Display, slot: impl Display, mark: &str) -> String {
    format!("{item:>2}    {slot:>2}    {mark:<19}\n")
}

/// The sheet of a complete plan of the rota.
pub fn text(rota: &Tables, plan: &Plan) -> String {
    let lines = plan[..rota.n].iter().enumerate().map(|(item, &slot)| {
        let mark = if rota.is_callout(item, slot.into()) { "C" } else { "" };
        line(item, slot, mark)
    });
    line("IT", "SL", "C") + &lines.collect::<String>()
}
