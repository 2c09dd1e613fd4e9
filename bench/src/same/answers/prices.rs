//! The records that answer a call for the price.

use crate::records::PriceAnswer;

// Success.
pub fn given(cents: u64) -> PriceAnswer {
    PriceAnswer { code: 0, shortage: 0, items: 0, cents }
}

// A refusal by a number that stands alone: zeros.
pub fn refused(code: u32) -> PriceAnswer {
    PriceAnswer { code, shortage: 0, items: 0, cents: 0 }
}

// 9: no complete plan exists.
pub fn short(shortage: u32, items: u64) -> PriceAnswer {
    PriceAnswer { code: 9, shortage, items, cents: 0 }
}
