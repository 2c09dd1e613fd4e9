//! The tests of one block.

use crate::same::file_layout::{editions, numbers};
use crate::same::model::Edition;
use crate::same::{file_layout, words};

// Whether two parts of one length have the same bytes.
fn same(a: &[u8], b: &[u8]) -> bool {
    let mut i = 0;
    while i < a.len() {
        if a[i] != b[i] {
            return false;
        }
        i += 1;
    }
    true
}

// Whether all bytes of a part are 0.
fn all_zero(part: &[u8]) -> bool {
    let mut i = 0;
    while i < part.len() {
        if part[i] != 0 {
            return false;
        }
        i += 1;
    }
    true
}

// Whether bytes 510 and 511 of a block are not its check.
pub fn check_wrong(edition: Edition, block: &[u8]) -> bool {
    let found = numbers::from_bytes(&block[510..512]);
    let check = editions::check_of(edition, &block[0..510]);
    found != check
}

// Whether bytes 0 to 13 of a block are its header.
fn header_laid(edition: Edition, head: &[u8], n: u8, m: u8, b: u8, k: u8) -> bool {
    if !same(&head[0..4], &editions::MARK) {
        return false;
    }
    let rest = editions::fields(edition, n, m, b, k);
    same(&head[4..14], &rest)
}

// Whether header and unused places of block b are as laid out; no byte has a number above 255.
pub fn block_laid(edition: Edition, block: &[u8], n: u8, m: u8, b: usize) -> bool {
    if 255 < b {
        return false;
    }
    let k = file_layout::items_of(words::wide(n), b);
    if !header_laid(edition, &block[0..14], n, m, b as u8, k as u8) {
        return false;
    }
    let at = 14 + 16 * k;
    all_zero(&block[at..510])
}
