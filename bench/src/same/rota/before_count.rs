//! What a call for a figure that wants a plan does before it counts, with a tally or without one.

use crate::records::PlanAnswer;

// The answer of the search, if it found a plan; else what the call answers: its tests' refusal, or 9.
pub fn planned<A>(
    tested: u32,
    search: impl FnOnce() -> PlanAnswer,
    refused: fn(u32) -> A,
    short: fn(u32, u64) -> A,
) -> Result<PlanAnswer, A> {
    if tested != 0 {
        return Err(refused(tested));
    }
    let found = search();
    if found.code != 0 {
        return Err(short(found.shortage, found.items));
    }
    Ok(found)
}
