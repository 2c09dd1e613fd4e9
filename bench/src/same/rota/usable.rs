//! The usable table.

use crate::same::{acceptance, components, words};

// Writes the n words of the usable table.
pub fn rota_usable_slots(n: usize, opens: &[u64], callouts: &[u64], usable: &mut [u64]) -> u32 {
    let code = acceptance::table_code(n, n, opens, callouts);
    if code != 0 {
        return code;
    }
    if usable.len() < n {
        return 15;
    }
    let allowed = components::allowed_slots(opens);
    words::store(&allowed[..n], usable);
    0
}
