//! Reading and writing rota files.

use crate::records::{ReadAnswer, WriteAnswer};
use crate::same::answers::file_records;
use crate::same::model::Edition;
use crate::same::{acceptance, file_layout, file_reading, file_writing, words};

// Reads a file into two lent tables. The file and the room are tested before a word is stored, so a refusal leaves both as they were.
pub fn rota_read_file(file: &[u8], opens: &mut [u64], callouts: &mut [u64]) -> ReadAnswer {
    let found = file_reading::rota_in(Edition::One, file);
    if found.code != 0 {
        return file_records::read_refused(found.code);
    }
    let n = found.n;
    if opens.len() < n {
        return file_records::read_refused(15);
    }
    if callouts.len() < n {
        return file_records::read_refused(15);
    }
    words::store(&found.opens[..n], opens);
    words::store(&found.callouts[..n], callouts);
    file_records::read_given(n as u64)
}

// Writes the file of a rota of n items into a lent buffer.
pub fn rota_write_file(n: usize, opens: &[u64], callouts: &[u64], file: &mut [u8]) -> WriteAnswer {
    let code = acceptance::table_code(n, n, opens, callouts);
    if code != 0 {
        return file_records::write_refused(code);
    }
    let size = 512 * file_layout::blocks_for(n);
    if file.len() < size {
        return file_records::write_refused(15);
    }
    file_writing::write_blocks(Edition::One, n, n, opens, callouts, &mut file[0..size]);
    file_records::write_given(size as u64)
}
