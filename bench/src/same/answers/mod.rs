//! The records that answer a call for a plan; the others in modules of their own.

pub mod counts;
pub mod file_records;
pub mod grades;
pub mod prices;

use crate::records::{Plan, PlanAnswer};

// Success, with a plan and the number of its callouts, or 0 where that is not asked for.
pub fn given(slots: [u8; 64], callouts: u32) -> PlanAnswer {
    PlanAnswer { code: 0, shortage: 0, items: 0, callouts, plan: Plan { slots } }
}

// A refusal by a number that stands alone: the blank plan and zeros.
pub fn refused(code: u32) -> PlanAnswer {
    PlanAnswer { code, shortage: 0, items: 0, callouts: 0, plan: Plan { slots: [255u8; 64] } }
}

// 9: no complete plan exists.
pub fn short(shortage: u32, items: u64) -> PlanAnswer {
    PlanAnswer { code: 9, shortage, items, callouts: 0, plan: Plan { slots: [255u8; 64] } }
}

// 11: the fewest number exceeds the cap.
pub fn over_cap(number: u32) -> PlanAnswer {
    PlanAnswer { code: 11, shortage: 0, items: 0, callouts: number, plan: Plan { slots: [255u8; 64] } }
}
