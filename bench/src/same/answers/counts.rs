//! The records that answer a call for the count and for a plan's number.

use crate::records::{CountAnswer, NumberAnswer};

// Success.
pub fn count_given(count: u64) -> CountAnswer {
    CountAnswer { code: 0, count }
}

// A refusal: zeros.
pub fn count_refused(code: u32) -> CountAnswer {
    CountAnswer { code, count: 0 }
}

// Success.
pub fn number_given(number: u64) -> NumberAnswer {
    NumberAnswer { code: 0, number }
}

// A refusal: zeros.
pub fn number_refused(code: u32) -> NumberAnswer {
    NumberAnswer { code, number: 0 }
}
