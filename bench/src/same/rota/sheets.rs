//! The sheet of a plan.

use crate::records::Plan;
use crate::same::{acceptance, plan, sheet};

// Writes the sheet of the given plan into a lent page.
pub fn rota_plan_sheet(n: usize, opens: &[u64], callouts: &[u64], given: Plan, page: &mut [u8]) -> u32 {
    let code = acceptance::table_code(n, n, opens, callouts);
    if code != 0 {
        return code;
    }
    let size = (n + 1) * 32;
    if page.len() < size {
        return 15;
    }
    let slots = given.slots;
    if !plan::is_plan(opens, slots) {
        return 8;
    }
    sheet::write_sheet(callouts, slots, &mut page[0..size]);
    0
}
