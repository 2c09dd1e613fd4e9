//! How a rota file is laid out: what its readers compare and its writer writes.

pub mod editions;
pub mod numbers;

// The blocks that n items need.
pub fn blocks_for(n: usize) -> usize {
    (n + 30) / 31
}

// The items in block b of a rota of n.
pub fn items_of(n: usize, b: usize) -> usize {
    if n <= 31 * b {
        return 0;
    }
    let left = n - 31 * b;
    if left < 31 {
        left
    } else {
        31
    }
}
