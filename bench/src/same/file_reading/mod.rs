//! Reading: any bytes as the rota of a file, or refused.

mod file_rota;

use super::file_blocks::reader;
use super::file_layout::{editions, numbers};
use super::model::Edition;
use super::{acceptance, file_layout, words};
pub use file_rota::FileRota;

// The answer where there is none.
pub fn no_rota(code: u32) -> FileRota {
    FileRota { code, n: 0, opens: [0u64; 64], callouts: [0u64; 64] }
}

// 12, 13, 14 or 0: the file's refusal, unless it is one of its words.
fn layout_code(edition: Edition, file: &[u8]) -> u32 {
    let k = file.len() / 512;
    if 512 * k != file.len() {
        return 12;
    }
    if k == 0 {
        return 12;
    }
    if 3 < k {
        return 12;
    }
    let c = reader::check_blocks(edition, file);
    if c.wrong {
        return 13;
    }
    let n = words::wide(file[5]);
    if n == 0 {
        return 14;
    }
    if 64 < n {
        return 14;
    }
    if k != file_layout::blocks_for(n) {
        return 14;
    }
    if !c.laid {
        return 14;
    }
    0
}

// The words of n items, from this place on in each block; zeros after them.
fn words_in(file: &[u8], place: usize, n: usize) -> [u64; 64] {
    let mut words = [0u64; 64];
    let mut i = 0;
    while i < n {
        let at = 512 * (i / 31) + place + 16 * (i % 31);
        words[i] = numbers::from_bytes(&file[at..at + 8]);
        i += 1;
    }
    words
}

// The rota in a file of this edition, or the file's refusal.
pub fn rota_in(edition: Edition, file: &[u8]) -> FileRota {
    let layout = layout_code(edition, file);
    if layout != 0 {
        return no_rota(layout);
    }
    let n = words::wide(file[5]);
    let m = words::wide(editions::slots_in(edition, file));
    let opens = words_in(file, 14, n);
    let callouts = words_in(file, 22, n);
    let cells = acceptance::cell_code(m, &opens[..n], &callouts[..n]);
    if cells != 0 {
        return no_rota(cells);
    }
    FileRota { code: 0, n, opens, callouts }
}
