//! The permanent of a table of zeros and ones by Ryser's formula, modulo 2 to the power 64. For 20 items it is exact.

use crate::rota::slots_of;

/// The number of ways to give the slots, all of them, to the items with these open words; as many slots as items.
pub fn permanent(opens: &[u64], slots: u64) -> u64 {
    let columns = slots_of(slots);
    assert_eq!(columns.len(), opens.len(), "a square table");
    let mut sum = 0u64;
    let mut chosen = 0u64;
    for step in 0..1u64 << columns.len() {
        // Gray code: each turn puts in or takes out one slot.
        if step > 0 {
            chosen ^= 1 << columns[step.trailing_zeros() as usize];
        }
        let product = opens.iter().fold(1u64, |p, word| p.wrapping_mul(u64::from((word & chosen).count_ones())));
        let missing = columns.len() as u32 - chosen.count_ones();
        sum = if missing % 2 == 1 { sum.wrapping_sub(product) } else { sum.wrapping_add(product) };
    }
    sum
}
