//! Numbers and their bytes, low byte first.

use crate::same::words;

// The number of up to 8 bytes.
pub fn from_bytes(bytes: &[u8]) -> u64 {
    let mut x: u64 = 0;
    let mut i = bytes.len();
    while 0 < i {
        i -= 1;
        x = 256 * x + words::wide(bytes[i]) as u64;
    }
    x
}

// Writes the low bytes of a number over all of a part.
pub fn put_low(x: u64, out: &mut [u8]) {
    let mut rest = x;
    let mut i = 0;
    while i < out.len() {
        out[i] = (rest % 256) as u8;
        rest = rest / 256;
        i += 1;
    }
}
