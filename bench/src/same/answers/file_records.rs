//! The records that answer a call that reads or writes a file.

use crate::records::{ReadAnswer, WriteAnswer};

// Success.
pub fn read_given(n: u64) -> ReadAnswer {
    ReadAnswer { code: 0, n }
}

// A refusal: zeros.
pub fn read_refused(code: u32) -> ReadAnswer {
    ReadAnswer { code, n: 0 }
}

// Success.
pub fn write_given(bytes: u64) -> WriteAnswer {
    WriteAnswer { code: 0, bytes }
}

// A refusal: zeros.
pub fn write_refused(code: u32) -> WriteAnswer {
    WriteAnswer { code, bytes: 0 }
}
